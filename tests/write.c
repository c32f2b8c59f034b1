/* Writes a plan from the tables on standard input by the proved function for C. The input is numbers: the room, then the
 * record and the four tables, each its size and its numbers. Prints what the function returns, and then each byte of the
 * buffer and of 64 bytes behind it; before the call these are 128 and above, as no byte of a text is. Status 1 where the
 * record or a table is not left as it was. */
#include <stdio.h>
#include <stdlib.h>
#include <string.h>
#include <inttypes.h>

#include "../examples/c/ryefrost.h"

enum { LISTS = 5, BEHIND = 64 };

/* The numbers lent, in memory of just their size, and a copy. */
struct list {
    uint64_t *at, *copy;
    size_t size;
};

static uint64_t number(void) {
    uint64_t x;
    if (scanf("%" SCNu64, &x) != 1)
        exit(2);
    return x;
}

/* Never null, even for no byte at all. */
static void *memory(size_t size) {
    void *at = malloc(size ? size : 1);
    if (!at)
        exit(2);
    return at;
}

static struct list read_list(void) {
    struct list to;
    to.size = number();
    to.at = memory(to.size * sizeof *to.at);
    to.copy = memory(to.size * sizeof *to.copy);
    for (size_t i = 0; i < to.size; i++)
        to.at[i] = to.copy[i] = number();
    return to;
}

int main(void) {
    size_t room = number();
    struct list lent[LISTS];
    for (int i = 0; i < LISTS; i++)
        lent[i] = read_list();
    uint8_t *out = memory(room + BEHIND);
    for (size_t i = 0; i < room + BEHIND; i++)
        out[i] = 128 + i % 127;
    int64_t answer = ryefrost_write(lent[0].at, lent[0].size, lent[1].at, lent[1].size, lent[2].at, lent[2].size,
                                    lent[3].at, lent[3].size, lent[4].at, lent[4].size, out, room);
    for (int i = 0; i < LISTS; i++)
        if (memcmp(lent[i].at, lent[i].copy, lent[i].size * sizeof *lent[i].at) != 0)
            return 1;
    printf("%" PRId64 "\n", answer);
    fwrite(out, 1, room + BEHIND, stdout);
    return 0;
}
