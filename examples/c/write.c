/* Builds the worked plan in tables, as an editor does, and prints its bytes: write > plan.tsv */
#include <stdio.h>

#include "ryefrost.h"

int main(void) {
    static const uint64_t record[RYEFROST_RECORD_SIZE] = {RYEFROST_POLICY_D, RYEFROST_OVERRUN_O, 2, 1, 2, 2};
    static const uint64_t vcpus[2 * RYEFROST_VCPU_WIDTH] = {1, 1, 0, 3, 20, 2, 2, 0, 2, 10};
    static const uint64_t mutexes[RYEFROST_MUTEX_WIDTH] = {1, 0};
    static const uint64_t opens[2 * RYEFROST_OPEN_WIDTH] = {1, 1, 1, 2};
    /* each task: v, n, period, its first run, how many locks; then each lock's mutex, its ticks and the run after it */
    static const uint64_t tasks[2][RYEFROST_TASK_WIDTH] = {{1, 1, 100, 2, 1, 1, 1, 2}, {2, 1, 50, 1, 1, 1, 2, 1}};
    static uint8_t out[RYEFROST_WRITE_BYTES];

    int64_t size = ryefrost_write(record, RYEFROST_RECORD_SIZE, vcpus, sizeof vcpus / sizeof vcpus[0], mutexes,
                                  RYEFROST_MUTEX_WIDTH, opens, sizeof opens / sizeof opens[0], tasks[0],
                                  sizeof tasks / sizeof tasks[0][0], out, sizeof out);
    if (size < 0) {
        fprintf(stderr, "write: refused %lld\n", (long long)-size);
        return 1;
    }
    if (fwrite(out, 1, (size_t)size, stdout) != (size_t)size || fflush(stdout) != 0) {
        perror("write");
        return 1;
    }
    return 0;
}
