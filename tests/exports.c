/* Calls the proved functions with each size of buffer: calls PLAN LISTING EVENTS ANSWERS MISSING. Status 1 where a call does
 * not return the text's size and write the text with the rest left as it was, or return -8 and leave the whole buffer; or
 * where a run does not end as it should, PLAN in time to any horizon and MISSING with (1, 1) missed at tick 27. PLAN is
 * the worked plan, which is written from tables too. */
#include <stdio.h>
#include <stdlib.h>
#include <string.h>

#include "../examples/c/ryefrost.h"

enum { ROOM = 4096, MARK = 0xA5, PLACES = 5 };

struct bytes {
    uint8_t at[65538];
    size_t size;
};

static struct bytes plan, listing, events, answers, missing, large, unnumbered, outside;

static void read_file(const char *path, struct bytes *to) {
    FILE *file = fopen(path, "rb");
    if (!file) {
        perror(path);
        exit(2);
    }
    to->size = fread(to->at, 1, sizeof to->at, file);
    fclose(file);
}

/* Is this what is to be returned and left, for a text and so much room? */
static int right(const struct bytes *text, const uint8_t *out, size_t room, int64_t returned) {
    size_t written = room < text->size ? 0 : text->size;
    if (returned != (room < text->size ? RYEFROST_ROOM : (int64_t)text->size) || memcmp(out, text->at, written) != 0)
        return 0;
    for (size_t i = written; i < ROOM; i++)
        if (out[i] != MARK)
            return 0;
    return 1;
}

/* Holds for every size of buffer up to two bytes more than the text. */
static int all_sizes(const struct bytes *input, const struct bytes *then, const struct bytes *text) {
    uint8_t out[ROOM];
    for (size_t room = 0; room <= text->size + 2; room++) {
        memset(out, MARK, sizeof out);
        int64_t r = then ? ryefrost_board(input->at, input->size, then->at, then->size, out, room)
                         : ryefrost_verdict(input->at, input->size, out, room);
        if (!right(text, out, room, r)) {
            fprintf(stderr, "exports.c: %s with a buffer of %zu bytes\n", then ? "board" : "verdict", room);
            return 0;
        }
    }
    return 1;
}

/* Does a run return this, with 27, 1, 1 where it is 1, and leave every other place as it was? */
static int runs(const struct bytes *input, uint64_t horizon, size_t places, int64_t wanted) {
    static const uint64_t first[RYEFROST_MISSED_SIZE] = {27, 1, 1};
    uint64_t missed[PLACES], left[PLACES];
    memset(missed, MARK, sizeof missed);
    memset(left, MARK, sizeof left);
    if (wanted == RYEFROST_MISSED)
        memcpy(left, first, sizeof first);
    int64_t r = ryefrost_run(input->at, input->size, horizon, missed, places);
    if (r == wanted && memcmp(missed, left, sizeof left) == 0)
        return 1;
    fprintf(stderr, "exports.c: run of %zu bytes to %llu with %zu places: %lld, not %lld, or a place is wrong\n", input->size,
            (unsigned long long)horizon, places, (long long)r, (long long)wanted);
    return 0;
}

/* A copy of the plan with one byte after this text changed. */
static void change(const char *after, char to, struct bytes *copy) {
    *copy = plan;
    char *at = strstr((char *)copy->at, after);
    if (!at)
        exit(2);
    at[strlen(after)] = to;
}

/* Ended and missed; then the refusals, and which comes first where there are several. */
static int all_runs(void) {
    static const struct bytes none = {.size = 0};
    const size_t three = RYEFROST_MISSED_SIZE;
    change("\nvcpu\t", 'x', &unnumbered);
    change("\nvcpu\t", '0', &outside);
    return runs(&plan, 200, three, RYEFROST_ENDED) && runs(&plan, 1, three, RYEFROST_ENDED) &&
           runs(&plan, 1000000, PLACES, RYEFROST_ENDED) && runs(&missing, 28, three, RYEFROST_MISSED) &&
           runs(&missing, 1000000, PLACES, RYEFROST_MISSED) && runs(&missing, 27, three, RYEFROST_ENDED) &&
           runs(&plan, 0, three, -3) && runs(&plan, 1000001, three, -3) && runs(&missing, UINT64_MAX, three, -3) &&
           runs(&none, 200, three, -1) && runs(&unnumbered, 200, three, -2) && runs(&outside, 200, three, -3) &&
           runs(&unnumbered, 0, three, -2) && runs(&large, 200, three, RYEFROST_ROOM) &&
           runs(&large, 0, PLACES, RYEFROST_ROOM) && runs(&missing, 28, 2, RYEFROST_ROOM) &&
           runs(&missing, 0, 1, RYEFROST_ROOM) && runs(&unnumbered, 28, 0, RYEFROST_ROOM) &&
           runs(&large, 0, 2, RYEFROST_ROOM);
}

/* The worked plan in tables, with a row to spare in each. */
static uint64_t record[] = {RYEFROST_POLICY_D, RYEFROST_OVERRUN_O, 2, 1, 2, 2, 7};
static uint64_t vcpus[] = {1, 1, 0, 3, 20, 2, 2, 0, 2, 10, 9, 9, 9, 9, 9}, mutexes[] = {1, 0, 9, 9}, opens[] = {1, 1, 1, 2, 9, 9};
static uint64_t tasks[3 * RYEFROST_TASK_WIDTH] = {1, 1, 100, 2, 1, 1, 1, 2, [29] = 2, 1, 50, 1, 1, 1, 2, 1, [58] = 9, 9, 9};

static int64_t write_into(size_t numbers, size_t places, uint8_t *out, size_t room) {
    memset(out, MARK, ROOM);
    return ryefrost_write(record, numbers, vcpus, sizeof vcpus / sizeof *vcpus, mutexes, sizeof mutexes / sizeof *mutexes, opens,
                          sizeof opens / sizeof *opens, tasks, places, out, room);
}

/* Is the plan refused by 9, with room and without, and the buffer left as it was? */
static int foreign(const char *why, size_t numbers, size_t places) {
    static const struct bytes none = {.size = 0};
    uint8_t out[ROOM];
    for (size_t room = 0; room <= ROOM; room += ROOM / 2) {
        int64_t r = write_into(numbers, places, out, room);
        if (r != RYEFROST_FOREIGN || !right(&none, out, ROOM, 0)) {
            fprintf(stderr, "exports.c: write with %s and a buffer of %zu bytes: %lld\n", why, room, (long long)r);
            return 0;
        }
    }
    return 1;
}

/* The same with one number changed, and back again. */
static int changed(const char *why, uint64_t *at, uint64_t to) {
    uint64_t was = *at;
    *at = to;
    int ok = foreign(why, RYEFROST_RECORD_SIZE, sizeof tasks / sizeof *tasks);
    *at = was;
    return ok;
}

/* Written with every size of buffer up to two bytes more than the plan, then 9, and 9 before 8. */
static int all_writes(void) {
    const size_t places = sizeof tasks / sizeof *tasks;
    uint8_t out[ROOM];
    for (size_t room = 0; room <= plan.size + 2; room++)
        if (!right(&plan, out, room, write_into(RYEFROST_RECORD_SIZE, places, out, room))) {
            fprintf(stderr, "exports.c: write with a buffer of %zu bytes\n", room);
            return 0;
        }
    return foreign("five numbers of a record", 5, places) && foreign("seven numbers of a record", 7, places) &&
           foreign("no record", 0, places) && foreign("a table cut short", RYEFROST_RECORD_SIZE, 57) &&
           changed("a policy of 2", record, 2) && changed("an overrun of 2", record + 1, 2) &&
           changed("no task", record + 5, 0) && changed("a row too many", record + 5, 3) &&
           changed("more rows than there are", record + 5, 4) && changed("rows that wrap", record + 2, UINT64_MAX) &&
           changed("a task twice", tasks + 29, 1) && changed("a mutex of a VCPU that is not there", mutexes + 1, 3) &&
           changed("a lock that is not there", tasks + 8, 1) && changed("nine locks", tasks + 4, 9) &&
           changed("eight digits", tasks + 2, 10000000) && changed("a budget above its period", vcpus + 3, 21) &&
           changed("a pair that does not rise", opens + 3, 1);
}

int main(int argc, char **argv) {
    if (argc != 6)
        return 2;
    read_file(argv[1], &plan);
    read_file(argv[2], &listing);
    read_file(argv[3], &events);
    read_file(argv[4], &answers);
    read_file(argv[5], &missing);

    static const struct bytes none = {.size = 0}, shape = {.at = "refused\t1\t1\t0\n", .size = 14},
                              room = {.at = "refused\t8\t0\t0\n", .size = 14};
    large.size = 65537;
    int ok = all_sizes(&plan, NULL, &listing) && all_sizes(&plan, &events, &answers) && all_sizes(&none, NULL, &shape) &&
             all_sizes(&none, &events, &shape) && all_sizes(&plan, &none, &none) && all_sizes(&large, NULL, &room) &&
             all_sizes(&large, &events, &room) && all_sizes(&plan, &large, &room) && all_runs() && all_writes();
    return ok ? 0 : 1;
}
