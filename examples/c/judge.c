/* Judges the plan in a file through the proved library: judge FILE prints the listing, or the refusal. */
#include <stdio.h>

#include "ryefrost.h"

/* one byte more than is judged, so that a longer plan is seen to be longer */
static uint8_t plan[65537], out[RYEFROST_VERDICT_BYTES];

int main(int argc, char **argv) {
    FILE *file = argc == 2 ? fopen(argv[1], "rb") : NULL;
    if (!file) {
        fprintf(stderr, "usage: judge FILE\n");
        return 2;
    }
    size_t size = fread(plan, 1, sizeof plan, file);
    fclose(file);

    int64_t written = ryefrost_verdict(plan, size, out, sizeof out);
    if (written < 0)
        return 1;
    return fwrite(out, 1, (size_t)written, stdout) == (size_t)written ? 0 : 1;
}
