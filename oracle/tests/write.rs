//! Plans written out from tables: by hand first, then over generated plans and tables.

mod common;

use std::collections::BTreeMap;

use common::{mark, spaced, text, worked, BASE};
use oracle::generate::{plan_case, table_case, valid_plan, TABLE_KINDS, VALID};
use oracle::limits::INPUT_BYTES;
use oracle::plan::Plan;
use oracle::reading::read;
use oracle::swift_write;
use oracle::tally::Tally;
use oracle::verdict::refused;
use oracle::write::{plan_of, rewrite_text, tables, write, Call, Tables};

const MOST: u64 = u64::MAX;

/// The row of a task: v, n, period, first run, count of locks; then its locks, and zeros up to 29 numbers.
fn task(head: [u64; 5], locks: &[[u64; 3]]) -> Vec<u64> {
    let mut row = head.to_vec();
    row.extend(locks.concat());
    row.resize(29, 0);
    row
}

fn lent(
    record: [u64; 6],
    vcpus: &[[u64; 5]],
    mutexes: &[[u64; 2]],
    opens: &[[u64; 2]],
    tasks: &[Vec<u64>],
) -> Tables {
    Tables {
        record: record.to_vec(),
        vcpus: vcpus.concat(),
        mutexes: mutexes.concat(),
        opens: opens.concat(),
        tasks: tasks.concat(),
    }
}

/// What the writer made for speed answers, and every byte of a buffer of this size and of ten behind it.
fn swift(t: &Tables, room: usize) -> (Result<usize, u32>, Vec<u8>) {
    let mut out = vec![0xA5; room + 10];
    let answer = swift_write::write(
        &t.record,
        &t.vcpus,
        &t.mutexes,
        &t.opens,
        &t.tasks,
        &mut out[..room],
    );
    (answer, out)
}

/// Both writers write this text, and leave the bytes behind it.
fn written(name: &str, t: &Tables, room: usize, wanted: &[u8]) {
    let got = write(t, room);
    assert_eq!(got.as_deref(), Ok(wanted), "{}", name);
    let (answer, out) = swift(t, room);
    assert_eq!(answer, Ok(wanted.len()), "{}", name);
    assert_eq!(spaced(&out[..wanted.len()]), spaced(wanted), "{}", name);
    assert!(out[wanted.len()..].iter().all(|b| *b == 0xA5), "{}", name);
}

/// Both writers refuse with this number, and leave the buffer.
fn refuses(name: &str, t: &Tables, room: usize, number: u32) {
    assert_eq!(write(t, room), Err(number), "{}", name);
    let (answer, out) = swift(t, room);
    assert_eq!(answer, Err(number), "{}", name);
    assert!(out.iter().all(|b| *b == 0xA5), "{}", name);
}

/// The text is a plan's, which gives this record and the rows that the record counts.
fn reads_back(name: &str, t: &Tables, bytes: &[u8]) -> Plan {
    let plan = read(bytes).expect(name);
    let own = tables(&plan);
    assert_eq!(own.record, t.record, "{}", name);
    assert!(t.vcpus.starts_with(&own.vcpus), "{}", name);
    assert!(t.mutexes.starts_with(&own.mutexes), "{}", name);
    assert!(t.opens.starts_with(&own.opens), "{}", name);
    assert!(t.tasks.starts_with(&own.tasks), "{}", name);
    plan
}

/// The tables give this text for a buffer that has room for it, and 8 for any that has less; reading gives the tables.
fn gives(name: &str, t: &Tables, behind: bool, wanted: &str) {
    let wanted = text(wanted);
    for more in [0, 1, 7, 70_000] {
        written(name, t, wanted.len() + more, &wanted);
    }
    for room in [0, 1, wanted.len() / 2, wanted.len() - 1] {
        refuses(name, t, room, 8);
    }
    let plan = reads_back(name, t, &wanted);
    assert!(behind || tables(&plan) == *t, "{}", name);
    assert_eq!(plan_of(t), Some(plan), "{}", name);
    assert_eq!(spaced(&rewrite_text(&wanted)), spaced(&wanted), "{}", name);
}

/// Document 01's worked plan as tables.
fn worked_tables() -> Tables {
    lent(
        [1, 1, 2, 1, 2, 2],
        &[[1, 1, 0, 3, 20], [2, 2, 0, 2, 10]],
        &[[1, 0]],
        &[[1, 1], [1, 2]],
        &[
            task([1, 1, 100, 2, 1], &[[1, 1, 2]]),
            task([2, 1, 50, 1, 1], &[[1, 2, 1]]),
        ],
    )
}

#[test]
fn the_worked_plan() {
    let t = worked_tables();
    gives("worked", &t, false, &worked("D O"));
    assert_eq!(tables(&common::plan(&worked("D O"))), t);
    for (record, letters) in [([0, 0], "P N"), ([0, 1], "P O"), ([1, 0], "D N")] {
        let mut other = t.clone();
        other.record[..2].copy_from_slice(&record);
        gives(letters, &other, false, &worked(letters));
    }
}

#[test]
fn one_vcpu_with_one_task() {
    let t = lent(
        [0, 0, 1, 0, 0, 1],
        &[[16, 4, 3, 1, 1]],
        &[],
        &[],
        &[task([16, 8, 1, 0, 0], &[])],
    );
    let wanted = "plan 1/policy P N/vcpu 16 4 3 1 1/guest 4/task 16 8 1/run 0/end/";
    gives("one", &t, false, wanted);
}

#[test]
fn the_largest_numbers() {
    let t = lent(
        [0, 1, 1, 1, 0, 1],
        &[[1, 1, 0, 1_000_000, 1_000_000]],
        &[[32, 1]],
        &[],
        &[task(
            [1, 1, 1_000_000, 1_000_000, 8],
            &[[32, 1_000_000, 1_000_000]; 8],
        )],
    );
    let wanted = "plan 1/policy P O/vcpu 1 1 0 1000000 1000000/mutex 32 L 1/guest 1/task 1 1 1000000/run 1000000/\
                  lock 32 1000000/run 1000000/lock 32 1000000/run 1000000/lock 32 1000000/run 1000000/\
                  lock 32 1000000/run 1000000/lock 32 1000000/run 1000000/lock 32 1000000/run 1000000/\
                  lock 32 1000000/run 1000000/lock 32 1000000/run 1000000/end/";
    gives("largest", &t, false, wanted);
}

/// VCPUs of two guests in turn, so that tasks stand in another order than VCPUs; VCPU 12 has no task.
#[test]
fn sections_and_owners() {
    let t = lent(
        [1, 0, 4, 3, 3, 3],
        &[
            [2, 2, 1, 7, 30],
            [5, 1, 0, 10, 10],
            [9, 2, 3, 1, 99],
            [12, 3, 2, 45, 60],
        ],
        &[[3, 0], [4, 9], [30, 0]],
        &[[3, 1], [3, 2], [30, 2]],
        &[
            task([5, 3, 1200, 0, 1], &[[3, 9, 10]]),
            task([2, 1, 500, 101, 2], &[[30, 2, 0], [3, 1, 0]]),
            task([9, 8, 77, 1, 3], &[[4, 12, 3], [3, 5, 0], [4, 6, 100]]),
        ],
    );
    let wanted =
        "plan 1/policy D N/vcpu 2 2 1 7 30/vcpu 5 1 0 10 10/vcpu 9 2 3 1 99/vcpu 12 3 2 45 60/\
                  mutex 3 G/mutex 4 L 9/mutex 30 G/open 3 1/open 3 2/open 30 2/\
                  guest 1/task 5 3 1200/run 0/lock 3 9/run 10/\
                  guest 2/task 2 1 500/run 101/lock 30 2/run 0/lock 3 1/run 0/\
                  task 9 8 77/run 1/lock 4 12/run 3/lock 3 5/run 0/lock 4 6/run 100/end/";
    gives("sections", &t, false, wanted);
}

/// A task of no lock beside one of eight; what lies behind the rows would be bad rows.
#[test]
fn numbers_behind_the_rows() {
    let mut t = lent(
        [1, 1, 1, 2, 1, 2],
        &[[7, 3, 2, 4, 9]],
        &[[10, 0], [11, 7]],
        &[[10, 3]],
        &[
            task([7, 2, 40, 6, 0], &[]),
            task(
                [7, 4, 400, 0, 8],
                &[
                    [10, 1, 1],
                    [11, 2, 0],
                    [10, 3, 1],
                    [11, 4, 0],
                    [11, 5, 1],
                    [11, 6, 0],
                    [10, 7, 1],
                    [11, 8, 20],
                ],
            ),
        ],
    );
    let wanted = "plan 1/policy D O/vcpu 7 3 2 4 9/mutex 10 G/mutex 11 L 7/open 10 3/guest 3/\
                  task 7 2 40/run 6/task 7 4 400/run 0/lock 10 1/run 1/lock 11 2/run 0/lock 10 3/run 1/\
                  lock 11 4/run 0/lock 11 5/run 1/lock 11 6/run 0/lock 10 7/run 1/lock 11 8/run 20/end/";
    gives("eight locks", &t, false, wanted);
    t.vcpus.extend([7, 3, 2, 4, 9, MOST]);
    t.mutexes.extend([0, MOST, 5]);
    t.opens.push(10_000_000);
    t.tasks.extend(vec![MOST; 30]);
    gives("behind", &t, true, wanted);
}

/// Four guests of a task each; mutexes that nobody locks or that are open to nobody.
#[test]
fn four_guests() {
    let t = lent(
        [0, 1, 4, 4, 4, 4],
        &[
            [1, 4, 0, 1, 8],
            [2, 3, 0, 2, 16],
            [3, 2, 0, 3, 32],
            [4, 1, 0, 4, 64],
        ],
        &[[1, 0], [2, 0], [31, 4], [32, 1]],
        &[[1, 1], [1, 2], [1, 3], [1, 4]],
        &[
            task([4, 5, 1000, 1, 1], &[[31, 1, 1]]),
            task([3, 6, 2000, 0, 0], &[]),
            task([2, 7, 30_000, 999_999, 1], &[[1, 100_000, 99_999]]),
            task([1, 8, 400_000, 10, 0], &[]),
        ],
    );
    let wanted = "plan 1/policy P O/vcpu 1 4 0 1 8/vcpu 2 3 0 2 16/vcpu 3 2 0 3 32/vcpu 4 1 0 4 64/\
                  mutex 1 G/mutex 2 G/mutex 31 L 4/mutex 32 L 1/open 1 1/open 1 2/open 1 3/open 1 4/\
                  guest 1/task 4 5 1000/run 1/lock 31 1/run 1/guest 2/task 3 6 2000/run 0/\
                  guest 3/task 2 7 30000/run 999999/lock 1 100000/run 99999/guest 4/task 1 8 400000/run 10/end/";
    gives("four guests", &t, false, wanted);
}

/// Every task of eight VCPUs: 64, as many as there may be.
fn crowd() -> Tables {
    let vcpus: Vec<[u64; 5]> = (1..=16).map(|v| [v, 1, 0, 1, 2]).collect();
    let places = (1..=8).flat_map(|v| (1..=8).map(move |n| (v, n)));
    let tasks: Vec<Vec<u64>> = places.map(|(v, n)| task([v, n, 3, 0, 0], &[])).collect();
    lent([0, 0, 16, 0, 0, 64], &vcpus, &[], &[], &tasks)
}

#[test]
fn sixty_four_tasks_and_one_more() {
    let mut wanted = "plan 1/policy P N/".to_string();
    for v in 1..=16 {
        wanted += &format!("vcpu {} 1 0 1 2/", v);
    }
    wanted += "guest 1/";
    for v in 1..=8 {
        for n in 1..=8 {
            wanted += &format!("task {} {} 3/run 0/", v, n);
        }
    }
    let mut t = crowd();
    gives("64 tasks", &t, false, &(wanted + "end/"));
    t.tasks.extend(task([9, 1, 3, 0, 0], &[]));
    refuses("one row behind counts for nothing", &t, 0, 8);
    t.record[5] = 65;
    refuses("65 tasks", &t, 70_000, 9);
}

/// The tables of `BASE`: every kind of row.
fn base() -> Tables {
    lent(
        [1, 1, 2, 3, 2, 2],
        &[[1, 1, 0, 3, 20], [2, 2, 0, 2, 10]],
        &[[1, 0], [2, 1], [3, 0]],
        &[[1, 1], [1, 2]],
        &[
            task([1, 1, 100, 2, 2], &[[1, 1, 2], [2, 1, 0]]),
            task([2, 1, 50, 1, 1], &[[1, 2, 1]]),
        ],
    )
}

/// The base with one change is no plan's, with any room: 9 comes before 8.
fn foreign(name: &str, change: impl Fn(&mut Tables)) {
    let mut t = base();
    change(&mut t);
    assert_ne!(t, base(), "{}", name);
    for room in [0, 100, 70_000] {
        refuses(name, &t, room, 9);
    }
    assert_eq!(plan_of(&t), None, "{}", name);
}

/// The base with one number changed; each with a name.
fn foreign_numbers(
    table: impl Fn(&mut Tables) -> &mut Vec<u64> + Copy,
    cases: &[(&str, usize, u64)],
) {
    for (name, at, x) in cases {
        foreign(name, |t| table(t)[*at] = *x);
    }
}

#[test]
fn the_base_is_a_plan() {
    gives("base", &base(), false, &(BASE.join("/") + "/"));
}

#[test]
fn foreign_records() {
    foreign("no record", |t| t.record.clear());
    foreign("five numbers", |t| t.record.truncate(5));
    foreign("seven numbers", |t| t.record.push(0));
    foreign("seven numbers, a row's count once more", |t| {
        t.record.push(2)
    });
    foreign_numbers(
        |t| &mut t.record,
        &[
            ("policy 2", 0, 2),
            ("policy 256", 0, 256),
            ("policy 2^64 - 1", 0, MOST),
            ("overrun 2", 1, 2),
            ("overrun 2^32 + 1", 1, (1 << 32) + 1),
            ("overrun 2^64 - 1", 1, MOST),
            ("no vcpu", 2, 0),
            ("no task", 5, 0),
            ("one vcpu less, which has a task", 2, 1),
            ("no mutex, but opens and locks", 3, 0),
            ("an open less, and a lock of that guest", 4, 1),
            ("a vcpu more than the table has", 2, 3),
            ("a mutex more", 3, 4),
            ("an open more", 4, 3),
            ("a task more", 5, 3),
            ("2^64 - 1 tasks", 5, MOST),
            (
                "2^63 + 2 opens, twice which is 4 with 2^64 taken off",
                4,
                (1 << 63) + 2,
            ),
            ("2^63 + 3 mutexes", 3, (1 << 63) + 3),
            ("2^61 + 2 vcpus", 2, (1 << 61) + 2),
            ("2^32 + 2 tasks", 5, (1 << 32) + 2),
            // five times this is 1 and 29 times that is 1, with 2^64 taken off
            ("vcpus for one number", 2, 0xCCCC_CCCC_CCCC_CCCD),
            ("tasks for one number", 5, 0x34F7_2C23_4F72_C235),
        ],
    );
}

#[test]
fn foreign_tables_cut_short() {
    foreign("vcpus lack a number", |t| t.vcpus.truncate(9));
    foreign("mutexes lack a number", |t| t.mutexes.truncate(5));
    foreign("opens lack a number", |t| t.opens.truncate(3));
    foreign("tasks lack a zero", |t| t.tasks.truncate(57));
    foreign("no vcpus", |t| t.vcpus.clear());
    foreign("no mutexes", |t| t.mutexes.clear());
    foreign("no opens", |t| t.opens.clear());
    foreign("no tasks", |t| t.tasks.clear());
    foreign("tasks of five numbers", |t| t.tasks.truncate(10));
}

#[test]
fn foreign_vcpus() {
    foreign_numbers(
        |t| &mut t.vcpus,
        &[
            ("v 0", 0, 0),
            ("v 17", 5, 17),
            ("v twice", 5, 1),
            ("v 3 before v 2, and no v 1", 0, 3),
            ("v 256 + 2", 5, 258),
            ("v 2^64 - 1", 5, MOST),
            ("guest 0", 1, 0),
            ("guest 5", 6, 5),
            ("guest 2^32 + 1", 1, (1 << 32) + 1),
            ("guest 3, with opens and locks for guest 2", 6, 3),
            ("guest 4, with an open for guest 1", 1, 4),
            ("core 4", 2, 4),
            ("core 2^64 - 1", 2, MOST),
            ("budget 0", 3, 0),
            ("budget above its period", 3, 21),
            ("budget of eight digits", 3, 10_000_000),
            ("period 0", 4, 0),
            ("period below its budget", 4, 2),
            ("period 1000001", 4, 1_000_001),
            ("period 9999999", 9, 9_999_999),
            ("period 10000000", 9, 10_000_000),
            ("period 2^64 - 1", 9, MOST),
        ],
    );
    foreign("budget and period of eight digits", |t| {
        t.vcpus[3] = 10_000_000;
        t.vcpus[4] = 10_000_000;
    });
}

#[test]
fn foreign_mutexes_and_opens() {
    foreign_numbers(
        |t| &mut t.mutexes,
        &[
            ("m 0", 0, 0),
            ("m 33", 4, 33),
            ("m twice", 4, 2),
            ("m does not rise", 0, 3),
            ("m 2^64 - 1", 4, MOST),
            ("of VCPU 3, which is not there", 5, 3),
            ("of VCPU 17", 5, 17),
            ("of VCPU 2^32 + 1", 3, (1 << 32) + 1),
            ("of VCPU 2^64 - 1", 5, MOST),
            ("local, but open and locked by another", 1, 1),
            ("of another VCPU than the lock's", 3, 2),
            ("global and not open to the lock's guest", 3, 0),
        ],
    );
    foreign_numbers(
        |t| &mut t.opens,
        &[
            ("m 0", 0, 0),
            ("m 33", 2, 33),
            ("m 4, which is not there", 2, 4),
            ("m 2, which is local", 2, 2),
            ("guest 0", 1, 0),
            ("guest 5", 3, 5),
            ("guest 3, which has no VCPU", 3, 3),
            ("guest 2^64 - 1", 3, MOST),
            ("a pair twice", 3, 1),
            ("m does not rise", 0, 3),
            ("not open to guest 2, which locks it", 2, 3),
        ],
    );
    foreign("guests of a mutex fall", |t| {
        t.opens = vec![1, 2, 1, 1];
    });
}

#[test]
fn foreign_tasks() {
    foreign_numbers(
        |t| &mut t.tasks,
        &[
            ("v 0", 0, 0),
            ("v 3, which is not there", 29, 3),
            ("v 17", 29, 17),
            ("v 2^64 - 1", 29, MOST),
            ("v 1 once more: (1, 1) twice", 29, 1),
            ("v 2 in both rows: (2, 1) twice", 0, 2),
            ("n 0", 1, 0),
            ("n 9", 1, 9),
            ("n 256 + 1", 1, 257),
            ("period 0", 2, 0),
            ("period 1000001", 2, 1_000_001),
            ("period of eight digits", 2, 12_345_678),
            ("first run 1000001", 3, 1_000_001),
            ("first run 2^64 - 1", 3, MOST),
            ("a lock less counted than there is", 4, 1),
            ("a lock more counted than there is", 4, 3),
            ("eight locks counted", 4, 8),
            ("nine locks", 4, 9),
            ("2^64 - 1 locks", 4, MOST),
            ("2^32 + 2 locks", 4, (1 << 32) + 2),
            ("lock of 0", 5, 0),
            ("lock of 33", 5, 33),
            ("lock of 4, which is not there", 5, 4),
            ("lock of 3, which is not open", 5, 3),
            ("lock of another VCPU's mutex", 34, 2),
            ("lock for 0 ticks", 6, 0),
            ("lock for 1000001 ticks", 6, 1_000_001),
            ("lock for 2^64 - 1 ticks", 6, MOST),
            ("run of 1000001 after it", 7, 1_000_001),
            ("run of 10000000 after it", 7, 10_000_000),
            ("a mutex in the place of a lock that is not there", 11, 1),
            ("ticks there", 12, 1),
            ("a run there", 13, 1),
            ("a number in the last place", 28, 1),
            ("2^64 - 1 in the last place", 57, MOST),
        ],
    );
}

#[test]
fn foreign_orders_of_tasks() {
    let more = |t: &mut Tables, rows: &[Vec<u64>]| {
        t.tasks = rows.concat();
        t.record[5] = rows.len() as u64;
    };
    let a = |n| task([1, n, 9, 0, 0], &[]);
    let b = |n| task([2, n, 9, 0, 0], &[]);
    foreign("guest 2 before guest 1", |t| more(t, &[b(1), a(1)]));
    foreign("guest 1 again", |t| more(t, &[a(1), b(1), a(2)]));
    foreign("a task twice", |t| more(t, &[a(1), a(1), b(1)]));
    foreign("n falls", |t| more(t, &[a(2), a(1), b(1)]));
    foreign("v falls in a section", |t| {
        t.vcpus[6] = 1;
        t.opens = vec![1, 1];
        t.record[4] = 1;
        more(t, &[b(1), a(1)]);
    });
    let mut t = base();
    more(&mut t, &[a(1), a(2), b(1), b(8)]);
    let lines = BASE[..9].join("/");
    let wanted =
        "guest 1/task 1 1 9/run 0/task 1 2 9/run 0/guest 2/task 2 1 9/run 0/task 2 8 9/run 0/end/";
    gives("in order", &t, false, &format!("{}/{}", lines, wanted));
}

/// A row more, which no other row needs: a good one is fine, one with a single fault is not.
#[test]
fn foreign_rows_that_nothing_needs() {
    let vcpu = |v| {
        move |t: &mut Tables| {
            t.vcpus.extend([v, 1, 3, 1, 1]);
            t.record[2] += 1;
        }
    };
    let mutex = |m, owner| {
        move |t: &mut Tables| {
            t.mutexes.extend([m, owner]);
            t.record[3] += 1;
        }
    };
    let open = |m, guest| {
        move |t: &mut Tables| {
            t.opens.extend([m, guest]);
            t.record[4] += 1;
        }
    };
    foreign("v twice", vcpu(2));
    foreign("v falls", vcpu(1));
    foreign("v 17", vcpu(17));
    foreign("m twice", mutex(3, 0));
    foreign("m twice, with another owner", mutex(3, 2));
    foreign("m falls", mutex(2, 0));
    foreign("m 33", mutex(33, 0));
    foreign("of VCPU 3, which is not there", mutex(4, 3));
    foreign("a pair twice", open(1, 2));
    foreign("a pair falls", open(1, 1));
    foreign("to guest 3, which has no VCPU", open(3, 3));
    foreign("to guest 5", open(3, 5));
    foreign("to guest 0", open(3, 0));
    foreign("of mutex 2, which is local", open(2, 1));
    foreign("of mutex 4, which is not there", open(4, 1));
    foreign("of mutex 33", open(33, 1));
    let mut t = base();
    vcpu(3)(&mut t);
    mutex(4, 3)(&mut t);
    open(3, 1)(&mut t);
    let wanted = (BASE.join("/") + "/")
        .replace("/mutex 1 G", "/vcpu 3 1 3 1 1/mutex 1 G")
        .replace("/open 1 1", "/mutex 4 L 3/open 1 1")
        .replace("/guest 1", "/open 3 1/guest 1");
    gives("rising", &t, false, &wanted);
}

/// The most of everything: 16 VCPUs, 32 mutexes open to four guests, 64 tasks on the VCPUs of two digits and on one more,
/// 8 locks each, and numbers of seven digits. Lines of the text by hand:
/// 7 + 11 + (16 * 26 + 23) + (32 * 41 + 5 * 55) + 4 * 8 + (64 * 16 + 120) + 64 * 9 * 12 + 64 * 8 * 16 + 4 = 18,328 bytes.
#[test]
fn the_longest_text() {
    let guest = |v: u64| 1 + v.saturating_sub(10) / 2;
    let vcpus: Vec<[u64; 5]> = (1..=16)
        .map(|v| [v, guest(v), 3, 1_000_000, 1_000_000])
        .collect();
    let mutexes: Vec<[u64; 2]> = (1..=32).map(|m| [m, 0]).collect();
    let opens: Vec<[u64; 2]> = (1..=32)
        .flat_map(|m| (1..=4).map(move |g| [m, g]))
        .collect();
    let locks: Vec<[u64; 3]> = (25..=32).map(|m| [m, 1_000_000, 1_000_000]).collect();
    let tasks: Vec<Vec<u64>> = (9..=16)
        .flat_map(|v| (1..=8).map(move |n| [v, n, 1_000_000, 1_000_000, 8]))
        .map(|head| task(head, &locks))
        .collect();
    let t = lent([1, 1, 16, 32, 128, 64], &vcpus, &mutexes, &opens, &tasks);
    let text = agreed("longest", &t, 18_328).expect("room enough");
    assert_eq!(text.len(), 18_328);
    refuses("longest", &t, 18_327, 8);
}

/// Each number of the base in turn is set to each of these: the two writers agree, and what is written is read as it was.
#[test]
fn every_number_set_to_many() {
    let values = [
        0,
        1,
        2,
        3,
        4,
        5,
        7,
        8,
        9,
        10,
        16,
        17,
        20,
        21,
        32,
        33,
        99,
        100,
        256,
        257,
        999_999,
        1_000_000,
        1_000_001,
        9_999_999,
        10_000_000,
        1 << 32,
        (1 << 32) + 1,
        (1 << 61) + 2,
        1 << 63,
        MOST,
    ];
    let (mut kept, mut foreign) = (0, 0);
    for table in 0..5 {
        for at in 0..part(&mut base(), table).len() {
            for x in values {
                let mut t = base();
                part(&mut t, table)[at] = x;
                let name = format!("table {} number {} is {}", table, at, x);
                match agreed(&name, &t, 70_000) {
                    Ok(_) => kept += 1,
                    Err(_) => foreign += 1,
                }
            }
        }
    }
    assert!(kept > 250 && foreign > 2000, "{} {}", kept, foreign);
}

fn part(t: &mut Tables, which: usize) -> &mut Vec<u64> {
    match which {
        0 => &mut t.record,
        1 => &mut t.vcpus,
        2 => &mut t.mutexes,
        3 => &mut t.opens,
        _ => &mut t.tasks,
    }
}

/// What both writers answer; a text that is written is read as it was.
fn agreed(name: &str, t: &Tables, room: usize) -> Result<Vec<u8>, u32> {
    let answer = write(t, room);
    match &answer {
        Ok(bytes) => {
            written(name, t, room, bytes);
            reads_back(name, t, bytes);
        }
        Err(number) => refuses(name, t, room, *number),
    }
    answer
}

#[test]
fn tables_of_plans_are_written_as_they_were() {
    for kind in VALID {
        for index in 0..60 {
            let plan = valid_plan(3, index, kind).expect(kind);
            let (own, text) = (tables(&plan), plan.text());
            written(kind, &own, text.len(), &text);
            refuses(kind, &own, text.len() - 1, 8);
            let again = read(&text).expect(kind);
            assert_eq!(tables(&again), own);
            assert_eq!(plan_of(&own), Some(plan));
        }
    }
}

#[test]
fn accepted_plans_come_back_and_no_others() {
    let mut same = 0;
    for index in 0..3000 {
        let bytes = plan_case(41, index);
        let out = rewrite_text(&bytes);
        match read(&bytes) {
            _ if bytes.len() > INPUT_BYTES => assert_eq!(out, b"refused\t8\t0\t0\n"),
            Ok(_) => {
                assert_eq!(spaced(&out), spaced(&bytes));
                same += 1;
            }
            Err(refusal) => {
                assert_eq!(out, refused(refusal));
                assert_ne!(out, bytes);
            }
        }
    }
    assert!(same > 1000 && same < 2000, "{}", same);
    // The one bad plan that comes back as well: it is the line that refuses it.
    assert_eq!(rewrite_text(b"refused\t1\t1\t0\n"), b"refused\t1\t1\t0\n");
}

#[test]
fn sizes_of_what_is_rewritten() {
    let plan = text(&worked("P N"));
    let filled = |size: usize| [plan.clone(), vec![b'x'; size - plan.len()]].concat();
    assert_eq!(rewrite_text(&filled(65_536)), b"refused\t1\t19\t0\n");
    assert_eq!(rewrite_text(&filled(65_537)), b"refused\t8\t0\t0\n");
    assert_eq!(rewrite_text(b""), b"refused\t1\t1\t0\n");
    let bad = text(&worked("P N").replace("open 1 2", "open 1 3"));
    assert_eq!(rewrite_text(&bad), b"refused\t5\t7\t3\n");
}

/// Both writers agree over generated tables, and these reach every corner that is meant.
#[test]
fn generated_tables() {
    let mut tally = Tally::default();
    let mut rooms = BTreeMap::new();
    for index in 0..4000 {
        let case = table_case(1, index);
        let Call { tables: t, room } = &case.call;
        let name = format!("{} {}", case.kind, index);
        let answer = agreed(&name, t, *room);
        let size = write(t, usize::MAX).map(|text| text.len());
        let never = ["cut", "doubled", "letters", "record", "crowd", "bare"];
        let always = ["plan", "drawn"];
        assert!(answer == Err(9) || !never.contains(&case.kind), "{}", name);
        assert!(answer != Err(9) || !always.contains(&case.kind), "{}", name);
        let way = match size {
            Err(_) => "foreign",
            Ok(_) if *room == 0 => "none",
            Ok(size) if size == *room => "exact",
            Ok(size) if size == *room + 1 => "one less",
            Ok(size) if size + 1 == *room => "one more",
            Ok(size) if size < *room => "more",
            Ok(_) => "less",
        };
        *rooms.entry(way).or_insert(0) += 1;
        let outcome =
            answer.map_or_else(|number| format!("refused {}", number), |_| "written".into());
        *tally
            .writes
            .entry(format!("{} {}", case.kind, outcome))
            .or_insert(0) += 1;
    }
    assert!(
        rooms.len() == 7 && rooms.values().all(|n| *n > 50),
        "{:?}",
        rooms
    );
    let seen = |kind: &str, outcome: &str| {
        let key = format!("{} {}", kind, outcome);
        tally.writes.get(&key).copied().unwrap_or(0)
    };
    for (kind, _, _) in TABLE_KINDS {
        let foreign = seen(kind, "refused 9");
        let valid = matches!(kind, "plan" | "drawn");
        assert!(valid || foreign > 50, "{}", tally);
    }
    for kind in ["plan", "drawn"] {
        assert!(
            seen(kind, "written") > 300 && seen(kind, "refused 8") > 100,
            "{}",
            tally
        );
    }
}

#[test]
fn a_case_is_its_text_and_the_same_for_ever() {
    for index in 0..50 {
        let call = table_case(2, index).call;
        assert_eq!(Call::parse(&call.text()), Some(call));
    }
    let call = Call {
        tables: worked_tables(),
        room: 3,
    };
    let lines = String::from_utf8(call.text()).expect("text");
    let zeros = " 0".repeat(21);
    let wanted = format!(
        "3\n6 1 1 2 1 2 2\n10 1 1 0 3 20 2 2 0 2 10\n2 1 0\n4 1 1 1 2\n58 1 1 100 2 1 1 1 2{} 2 1 50 1 1 1 2 1{}\n",
        zeros, zeros
    );
    assert_eq!(lines, wanted);
    assert_eq!(
        Call::parse(wanted.replace("6 1 1 2", "5 1 1 2").as_bytes()),
        None
    );
    assert_eq!(Call::parse(b"3\n0\n0\n0\n0\n"), None);
    let cases = mark((0..300).map(|index| table_case(7, index).call.text()));
    assert_eq!(cases, 16_679_244_736_712_721_084);
    assert_ne!(table_case(7, 1), table_case(8, 1));
}

/// What a call leaves: the text at the start, and the bytes behind it as they were.
#[test]
fn every_byte_of_an_answer() {
    let before: Vec<u8> = (0..300).map(|at| 128 + (at % 127) as u8).collect();
    let plan = text(&worked("D O"));
    let size = plan.len();
    let answer = |room: usize| {
        let tables = worked_tables();
        Call { tables, room }.answer()
    };
    let head = format!("{}\n", size).into_bytes();
    assert_eq!(
        answer(size + 2),
        [head, plan, before[size..size + 66].to_vec()].concat()
    );
    assert_eq!(
        answer(size - 1),
        [&b"-8\n"[..], &before[..size + 63]].concat()
    );
    let nothing = Call {
        tables: Tables::default(),
        room: 5,
    };
    assert_eq!(nothing.answer(), [&b"-9\n"[..], &before[..69]].concat());
}

#[test]
fn a_tally_counts_tables_and_plans_written() {
    let mut tally = Tally::default();
    let call = |room| Call {
        tables: worked_tables(),
        room,
    };
    tally.add_write("plan", &call(1000));
    tally.add_write("plan", &call(10));
    tally.add_write(
        "drawn",
        &Call {
            tables: Tables::default(),
            room: 0,
        },
    );
    let mut all = Tally::default();
    all.add(&tally);
    all.add(&tally);
    let shown = all.to_string();
    assert!(
        shown.contains("  plans accepted: 2\n  plans refused: by 8: 2, by 9: 2\n"),
        "{}",
        shown
    );
    let line = "  tables: drawn refused 9 2, plan refused 8 2, plan written 2\n";
    assert!(shown.ends_with(line), "{}", shown);

    let plan = text(&worked("D O"));
    let mut tally = Tally::default();
    tally.add_rewrite(&plan, &plan);
    tally.add_rewrite(&plan, b"other");
    tally.add_rewrite(b"refused\t1\t1\t0\n", b"refused\t1\t1\t0\n");
    assert_eq!((tally.accepted, tally.same, tally.rewritten), (2, 1, 3));
    assert!(tally
        .to_string()
        .ends_with("  came back byte for byte: 1\n"));
}
