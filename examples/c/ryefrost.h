/* The proved functions for C, in two archives for x86-64: ryefrost_verdict, ryefrost_board and ryefrost_run in libexports.a
 * (`./ryefrost archive exports`: target/staticlib/libexports.a), ryefrost_write in libexports_write.a (`./ryefrost archive
 * exports_write`). A program may link both.
 *
 * The first two write the text that a program prints into `out` and return its size in bytes. With too little room they
 * return -8 and leave `out` as it was. No input is too strange: a refused plan is a text too, `refused`, its number, its
 * line and the field of that line (the word is field 1; 0 where the line is refused whole, and for a size). The third
 * writes no text, and returns how a run ends, or minus the number alone. The fourth writes the bytes of a plan that the
 * caller has in tables.
 * `out` and `missed` share no byte with the inputs. A pointer is never null, even where its size is 0. */
#ifndef RYEFROST_H
#define RYEFROST_H

#include <stddef.h>
#include <stdint.h>

/* Sizes of `out` that are always enough. */
#define RYEFROST_VERDICT_BYTES 16803
#define RYEFROST_BOARD_BYTES 655360
#define RYEFROST_WRITE_BYTES 64170

/* The numbers that `missed` is to have places for. */
#define RYEFROST_MISSED_SIZE 3

/* Too little room in `out` or `missed`, or for `ryefrost_run` a plan above 65,536 bytes. */
#define RYEFROST_ROOM (-8)

/* Tables that no accepted plan gives. */
#define RYEFROST_FOREIGN (-9)

/* The record of a plan in tables: exactly six numbers, the policy, the overrun choice, and how many rows each table has. */
#define RYEFROST_RECORD_SIZE 6
#define RYEFROST_POLICY_P 0
#define RYEFROST_POLICY_D 1
#define RYEFROST_OVERRUN_N 0
#define RYEFROST_OVERRUN_O 1

/* The numbers in a row of each table. */
#define RYEFROST_VCPU_WIDTH 5
#define RYEFROST_MUTEX_WIDTH 2
#define RYEFROST_OPEN_WIDTH 2
#define RYEFROST_TASK_WIDTH 29

/* How a run ends. */
#define RYEFROST_ENDED 0
#define RYEFROST_MISSED 1

#ifdef __cplusplus
extern "C" {
#endif

/* What `verdict` prints for a plan. */
int64_t ryefrost_verdict(const uint8_t *input, size_t input_size, uint8_t *out, size_t out_size);

/* What `board` prints for a plan and events. */
int64_t ryefrost_board(const uint8_t *plan, size_t plan_size, const uint8_t *events, size_t events_size,
                       uint8_t *out, size_t out_size);

/* Runs a plan on a clock as `clock` does, from tick 0 to before the tick `horizon`, and prints nothing. Returns 0 where no
 * job is missed; 1 where one is, with the tick, v and n of the first in missed[0] to missed[2]; or minus a refusal's
 * number: 8 for a plan above 65,536 bytes or less than three places, else the plan's own, 1 to 7, else 3 for a horizon
 * outside 1 to 1,000,000. Unless it returns 1, `missed` is left as it was, and places after the third always are. */
int64_t ryefrost_run(const uint8_t *plan, size_t plan_size, uint64_t horizon, uint64_t *missed, size_t missed_size);

/* Writes the bytes of the plan in tables into `out`, and returns their size. The tables hold the plan's lines, row after
 * row, and the record counts them:
 *   record   policy overrun vcpus mutexes opens tasks     (the last four: how many rows)
 *   vcpus    v guest core budget period
 *   mutexes  m owner                                      (owner: 0 for `G`, v for `L v`)
 *   opens    m guest
 *   tasks    v n period first count, then 8 times m ticks after
 * where `first` is the task's first `run`, `count` its locks, and each lock has its mutex, its ticks and the `run` after
 * it; the places of locks that a task does not have are 0. Sections are not in the tables: a task is its VCPU's guest's,
 * and the rows of tasks stand as their lines do, by guest, then v, then n. Sizes are in numbers, of `out` in bytes; a
 * table's numbers beyond the rows that the record counts are not looked at. Returns -9 where no accepted plan gives this
 * record and these rows, then -8 where the bytes do not fit; both leave `out` as it was. The bytes are a plan that the
 * other functions take, and the reader's tables of it are these. */
int64_t ryefrost_write(const uint64_t *record, size_t record_size, const uint64_t *vcpus, size_t vcpus_size,
                       const uint64_t *mutexes, size_t mutexes_size, const uint64_t *opens, size_t opens_size,
                       const uint64_t *tasks, size_t tasks_size, uint8_t *out, size_t out_size);

#ifdef __cplusplus
}
#endif

#endif
