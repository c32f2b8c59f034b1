/* Times the proved functions and the oracle's on one input, in one process.
 *
 *   harness verdict NAME PLAN
 *   harness board NAME PLAN EVENTS
 *   harness run NAME PLAN HORIZON      without a trace: no text comes out
 *   harness write NAME PLAN            from the plan's tables, made before; these are the bytes in
 *   harness swift-write NAME PLAN      the same, beside the oracle's writer for speed
 *
 * prints NAME, the bytes in, the bytes out, the nanoseconds of one proved call and of one Rust call, and their ratio.
 * The two sides take turns; a sample is as many calls as take some milliseconds; the best sample counts. Status 1 where
 * the two answers differ, or a run misses a job, so that it would be shorter than its horizon. With ONLY=proved or ONLY=rust
 * one side runs alone for a second, for a profile. */
#include <stdio.h>
#include <stdlib.h>
#include <string.h>
#include <time.h>

#include "../examples/c/ryefrost.h"

int64_t rust_verdict(const uint8_t *, size_t, uint8_t *, size_t);
int64_t rust_board(const uint8_t *, size_t, const uint8_t *, size_t, uint8_t *, size_t);
int64_t rust_run(const uint8_t *, size_t, uint64_t, uint64_t *);
int64_t rust_write(const uint64_t *, size_t, const uint64_t *, size_t, const uint64_t *, size_t, const uint64_t *, size_t,
                   const uint64_t *, size_t, uint8_t *, size_t);
int64_t rust_swift_write(const uint64_t *, size_t, const uint64_t *, size_t, const uint64_t *, size_t, const uint64_t *,
                         size_t, const uint64_t *, size_t, uint8_t *, size_t);
int64_t rust_table(const uint8_t *, size_t, size_t, uint64_t *, size_t);

/* A run of a million ticks takes as long as a dozen samples of the others. */
enum { LIMIT = 1 << 20, SAMPLES = 400, RUN_SAMPLES = 100 };

/* The record and the four tables; the tasks take the most numbers, 64 times 29. */
enum { TABLES = 5, NUMBERS = 2048 };

static uint8_t plan[LIMIT], events[LIMIT], proved_out[RYEFROST_BOARD_BYTES], rust_out[RYEFROST_BOARD_BYTES];
static size_t plan_size, events_size;
static uint64_t horizon, proved_missed[RYEFROST_MISSED_SIZE], rust_missed[RYEFROST_MISSED_SIZE];
static uint64_t table[TABLES][NUMBERS];
static size_t table_size[TABLES];
static enum { VERDICT, BOARD, RUN, WRITE, SWIFT_WRITE } what;

static size_t read_file(const char *path, uint8_t *to) {
    FILE *f = fopen(path, "rb");
    if (!f) {
        perror(path);
        exit(2);
    }
    size_t n = fread(to, 1, LIMIT, f);
    fclose(f);
    return n;
}

/* The tables of the plan, and the bytes they take. */
static size_t read_tables(const char *name) {
    size_t bytes = 0;
    for (size_t i = 0; i < TABLES; i++) {
        int64_t n = rust_table(plan, plan_size, i, table[i], NUMBERS);
        if (n < 0) {
            fprintf(stderr, "harness: %s: the plan gives no tables\n", name);
            exit(2);
        }
        table_size[i] = (size_t)n;
        bytes += table_size[i] * sizeof table[i][0];
    }
    return bytes;
}

static int64_t proved(void) {
    switch (what) {
    case BOARD:
        return ryefrost_board(plan, plan_size, events, events_size, proved_out, sizeof proved_out);
    case RUN:
        return ryefrost_run(plan, plan_size, horizon, proved_missed, RYEFROST_MISSED_SIZE);
    case WRITE:
    case SWIFT_WRITE:
        return ryefrost_write(table[0], table_size[0], table[1], table_size[1], table[2], table_size[2], table[3],
                              table_size[3], table[4], table_size[4], proved_out, sizeof proved_out);
    default:
        return ryefrost_verdict(plan, plan_size, proved_out, sizeof proved_out);
    }
}

static int64_t rust(void) {
    switch (what) {
    case BOARD:
        return rust_board(plan, plan_size, events, events_size, rust_out, sizeof rust_out);
    case RUN:
        return rust_run(plan, plan_size, horizon, rust_missed);
    case WRITE:
        return rust_write(table[0], table_size[0], table[1], table_size[1], table[2], table_size[2], table[3],
                          table_size[3], table[4], table_size[4], rust_out, sizeof rust_out);
    case SWIFT_WRITE:
        return rust_swift_write(table[0], table_size[0], table[1], table_size[1], table[2], table_size[2], table[3],
                                table_size[3], table[4], table_size[4], rust_out, sizeof rust_out);
    default:
        return rust_verdict(plan, plan_size, rust_out, sizeof rust_out);
    }
}

/* The bytes that both sides write; it ends where their answers differ. */
static int64_t compared(const char *name) {
    int64_t a = proved(), b = rust();
    if (what == RUN) {
        if (a != b || memcmp(proved_missed, rust_missed, sizeof rust_missed) != 0) {
            fprintf(stderr, "harness: %s: the two runs differ\n", name);
            exit(1);
        }
        if (a != RYEFROST_ENDED) {
            fprintf(stderr, "harness: %s: the run does not come to its horizon\n", name);
            exit(1);
        }
        return 0;
    }
    if (a < 0 || a != b || memcmp(proved_out, rust_out, (size_t)a) != 0) {
        fprintf(stderr, "harness: %s: the two texts differ\n", name);
        exit(1);
    }
    if (what >= WRITE && ((size_t)a != plan_size || memcmp(proved_out, plan, plan_size) != 0)) {
        fprintf(stderr, "harness: %s: the text is not the plan's\n", name);
        exit(1);
    }
    return a;
}

static double now(void) {
    struct timespec t;
    clock_gettime(CLOCK_MONOTONIC, &t);
    return t.tv_sec * 1e9 + t.tv_nsec;
}

static volatile int64_t kept;

static double sample(int64_t (*call)(void), long calls) {
    double from = now();
    for (long i = 0; i < calls; i++)
        kept = call();
    return (now() - from) / calls;
}

/* As many calls as take four milliseconds or more; it warms up as it counts. */
static long calls_for(int64_t (*call)(void)) {
    long calls = 1;
    while (sample(call, calls) * calls < 4e6)
        calls *= 2;
    return calls;
}

int main(int argc, char **argv) {
    const char *word = argc > 1 ? argv[1] : "";
    what = strcmp(word, "board") == 0         ? BOARD
           : strcmp(word, "run") == 0         ? RUN
           : strcmp(word, "write") == 0       ? WRITE
           : strcmp(word, "swift-write") == 0 ? SWIFT_WRITE
                                              : VERDICT;
    if (argc != (what == BOARD || what == RUN ? 5 : 4) || (what == VERDICT && strcmp(word, "verdict") != 0)) {
        fprintf(stderr, "usage: harness verdict NAME PLAN | board NAME PLAN EVENTS | run NAME PLAN HORIZON | write NAME PLAN | swift-write NAME PLAN\n");
        return 2;
    }
    plan_size = read_file(argv[3], plan);
    size_t in = what >= WRITE ? read_tables(argv[2]) : plan_size;
    if (what == BOARD)
        in += events_size = read_file(argv[4], events);
    if (what == RUN)
        horizon = strtoull(argv[4], NULL, 10);

    int64_t out = compared(argv[2]);
    const char *only = getenv("ONLY");
    if (only) {
        for (double from = now(); now() - from < 1e9;)
            kept = strcmp(only, "rust") ? proved() : rust();
        return 0;
    }

    long m = calls_for(proved), n = calls_for(rust);
    double best_proved = 1e300, best_rust = 1e300;
    for (int i = 0; i < (what == RUN ? RUN_SAMPLES : SAMPLES); i++) {
        double p = sample(proved, m), r = sample(rust, n);
        best_proved = p < best_proved ? p : best_proved;
        best_rust = r < best_rust ? r : best_rust;
    }
    printf("%-20s %7zu %7lld %14.0f %14.0f %8.2f\n", argv[2], in, (long long)out, best_proved, best_rust,
           best_proved / best_rust);
    return 0;
}
