/* Runs plan.tsv of its folder (absent counts as empty) to the horizon on standard input, a number, by the proved function for
 * C, and prints what it returns; where that is 1, the tick, v and n too. Status 1 where it leaves something else in `missed`. */
#include <stdio.h>
#include <inttypes.h>

#include "../examples/c/ryefrost.h"

enum { PLACES = RYEFROST_MISSED_SIZE + 1 };
static const uint64_t mark = UINT64_C(0xA5A5A5A5A5A5A5A5);

static uint8_t plan[200000];

int main(void) {
    uint64_t horizon, missed[PLACES];
    size_t size = 0;
    FILE *file = fopen("plan.tsv", "rb");
    if (file) {
        size = fread(plan, 1, sizeof plan, file);
        fclose(file);
    }
    if (scanf("%" SCNu64, &horizon) != 1)
        return 2;
    for (int i = 0; i < PLACES; i++)
        missed[i] = mark;
    int64_t answer = ryefrost_run(plan, size, horizon, missed, PLACES);
    for (int i = answer == RYEFROST_MISSED ? RYEFROST_MISSED_SIZE : 0; i < PLACES; i++)
        if (missed[i] != mark)
            return 1;
    if (answer == RYEFROST_MISSED)
        printf("%" PRId64 "\t%" PRIu64 "\t%" PRIu64 "\t%" PRIu64 "\n", answer, missed[0], missed[1], missed[2]);
    else
        printf("%" PRId64 "\n", answer);
    return 0;
}
