//! A ceiling equal to the task counts, document 02 (iii): worked out by hand, and what it does to any plan's rows.

mod common;

use common::{plan, spaced, text, CEILING};
use oracle::clock::{run, Outcome};
use oracle::figures::{former_local_blocking, local_blocking};
use oracle::generate::{clock_plan, valid_plan, Chance};
use oracle::plan::{Plan, Task};
use oracle::verdict::{former_judge, judge, verdict_text, Answer};
use oracle::watch::plan_of;

/// One VCPU with every tick of its core, local mutexes 1 and 2 and a global one, 3; and these tasks.
fn one_vcpu(tasks: &str) -> Plan {
    plan(&format!(
        "plan 1/policy D N/vcpu 1 1 0 10 10/mutex 1 L 1/mutex 2 L 1/mutex 3 G/open 3 1/guest 1/{}end/",
        tasks
    ))
}

/// Local blocking of (1, n), mended and former.
fn blocking(p: &Plan, n: u64) -> (u64, u64) {
    let task = p.task(1, n).expect("a task");
    (local_blocking(p, task), former_local_blocking(p, task))
}

/// The answer and the rounds of (1, n), mended and former.
fn rows(p: &Plan, n: u64) -> [(Answer, u64); 2] {
    [judge(p), former_judge(p)].map(|verdict| {
        let row = verdict.tasks.iter().find(|r| (r.v, r.n) == (1, n));
        row.map(|r| (r.answer, r.rounds)).expect("a row")
    })
}

#[test]
fn a_ceiling_equal_to_the_task_counts() {
    let two = "task 1 1 100/run 1/lock 1 4/run 0/task 1 2 50/run 1/lock 1 2/run 0/";
    let p = one_vcpu(two);
    // Mutex 1 is locked by n = 1 and 2: its ceiling is 2.
    // (1, 2): 4 of (1, 1), ceiling 2 >= 2; no global sections below, none of its own: (4 + 0) * 1 = 4.
    //   Its time is 3 + 4: start 3, then 7, and 7 again. Before, 2 > 2 was false: 3, and 3 again.
    assert_eq!(blocking(&p, 2), (4, 0));
    assert_eq!(rows(&p, 2), [(Answer::Fits(7), 2), (Answer::Fits(3), 1)]);
    // (1, 1): nobody is lower, 0. Its time is 5 and one job of 3: start 5, then 8, and 8 again.
    assert_eq!(blocking(&p, 1), (0, 0));
    assert_eq!(rows(&p, 1), [(Answer::Fits(8), 2); 2]);

    // With two global sections of (1, 2), and one of 5 of (1, 1): (4 + 5) * 3 = 27, and (0 + 5) * 3 = 15.
    let global = "task 1 1 100/run 1/lock 1 4/run 0/lock 3 5/run 0/\
                  task 1 2 50/run 1/lock 1 2/run 0/lock 3 1/run 0/lock 3 1/run 0/";
    assert_eq!(blocking(&one_vcpu(global), 2), (27, 15));
}

#[test]
fn a_ceiling_one_less_does_not_count() {
    // Mutex 1 has the ceiling 2, and (1, 3) locks nothing: 2 >= 3 is false, so nothing blocks it.
    let p = one_vcpu(
        "task 1 1 100/run 1/lock 1 4/run 0/task 1 2 50/run 1/lock 1 2/run 0/task 1 3 20/run 6/",
    );
    assert_eq!(blocking(&p, 3), (0, 0));
    assert_eq!(rows(&p, 3), [(Answer::Fits(6), 1); 2]);
}

#[test]
fn own_sections_and_those_of_higher_tasks_never_count() {
    // Mutex 1 is locked by (1, 2) alone, twice, and mutex 2 by (1, 3) alone. The ceiling of 1 is 2, that of 2
    // is 3. Below (1, 2) there is (1, 1), which locks nothing; below (1, 3) nobody locks mutex 2, and the
    // ceiling of mutex 1 is less than 3.
    let p = one_vcpu(
        "task 1 1 100/run 1/task 1 2 50/run 0/lock 1 4/run 0/lock 1 3/run 0/\
         task 1 3 60/run 0/lock 2 6/run 0/",
    );
    for n in 1..=3 {
        assert_eq!(blocking(&p, n), (0, 0));
    }
    // (1, 3) has 6 of its own, and 6 again.
    assert_eq!(rows(&p, 3), [(Answer::Fits(6), 1); 2]);
    // (1, 2) has 7, and one job of 6: 13, and 13 again.
    assert_eq!(rows(&p, 2), [(Answer::Fits(13), 2); 2]);
}

#[test]
fn a_ceiling_above_counts_as_before() {
    // Mutex 1 is locked by n = 1 and 3: its ceiling is 3, and (1, 2), which locks nothing, is blocked for 4.
    let p = one_vcpu(
        "task 1 1 100/run 1/lock 1 4/run 0/task 1 2 50/run 2/task 1 3 90/run 0/lock 1 1/run 0/",
    );
    assert_eq!(blocking(&p, 2), (4, 4));
    // 2 + 4 and one job of 1: start 2, then 7, and 7 again.
    assert_eq!(rows(&p, 2), [(Answer::Fits(7), 2); 2]);
    // (1, 3) itself is blocked by the 4 now: 1 + 4, start 1, then 5, and 5 again; before, 1, and 1 again.
    assert_eq!(blocking(&p, 3), (4, 0));
    assert_eq!(rows(&p, 3), [(Answer::Fits(5), 2), (Answer::Fits(1), 1)]);
}

#[test]
fn the_longest_of_both_sorts_counts() {
    // For (1, 2) mutex 1 has the ceiling 2, its own, and mutex 2 the ceiling 3, above it.
    let tasks = |own: u64, above: u64| {
        one_vcpu(&format!(
            "task 1 1 100/run 0/lock 1 {}/run 0/lock 2 {}/run 0/task 1 2 50/run 0/lock 1 1/run 0/\
             task 1 3 90/run 0/lock 2 1/run 0/",
            own, above
        ))
    };
    // 3 and 5: the longest is the one above, before and now; 5 and 3: it is the one that is equal.
    assert_eq!(blocking(&tasks(3, 5), 2), (5, 5));
    assert_eq!(blocking(&tasks(5, 3), 2), (5, 3));
}

#[test]
fn the_ceiling_plan() {
    let p = plan(CEILING);
    // Every tick is the VCPU's, so the gap is 0, and there is no global mutex, so O and the waits are 0.
    // Mutex 3 is locked by n = 1 and 2: its ceiling is 2.
    // VCPU 1: 1, and 1 again.
    // (1, 1): 3 + 3 of its own, and 1 + 3 + 1 = 5 for each 6 ticks begun: start 6, then 6 + 5 = 11,
    //   6 + 10 = 16, 6 + 15 = 21, 6 + 20 = 26, 6 + 25 = 31, 6 + 30 = 36, and 36 again: 7 rounds. Nobody is
    //   lower, so this is so with either figure.
    // (1, 2): start 5. The 3 of (1, 1) count now, 2 >= 2: 5 + 3 = 8 > 6, late after 1 round. Before, 2 > 2
    //   was false: 5, and 5 again, after 1 round.
    assert_eq!(
        spaced(&verdict_text(&text(CEILING))),
        "verdict 1\nvcpu 1 fits 1 1\ntask 1 1 fits 36 7\ntask 1 2 late - 1\nall late\n"
    );
    assert_eq!((blocking(&p, 1), blocking(&p, 2)), ((0, 0), (3, 0)));
    assert_eq!(rows(&p, 1), [(Answer::Fits(36), 7); 2]);
    assert_eq!(rows(&p, 2), [(Answer::Late, 1), (Answer::Fits(5), 1)]);
    assert!(former_judge(&p).all_fit() && !judge(&p).all_fit());
    // On the clock: (1, 2) has 0 to 4, (1, 1) locks at 5. At 6 (1, 2) has its second job's first tick, at 7 it
    // waits, (1, 1) has 7 and 8, (1, 2) its section at 9 to 11, and at 12 it lacks its last tick.
    let missed = Outcome::Missed {
        tick: 12,
        v: 1,
        n: 2,
    };
    assert_eq!(run(&p, 13, &mut |_| {}), missed);
    assert_eq!(run(&p, 12, &mut |_| {}), Outcome::Ended);
}

/// Some lower task of its VCPU has a section on a local mutex whose ceiling is the task's n itself.
fn has_equal_ceiling(p: &Plan, task: &Task) -> bool {
    let lower = p.tasks_of(task.v).filter(|low| low.n < task.n);
    let mut sections = lower.flat_map(|low| low.locks.iter());
    sections.any(|l| p.is_local_of(l.m, task.v) && p.ceiling(l.m) == task.n)
}

/// No row that failed before now fits; VCPUs and waits stay; a task's time does not fall.
#[test]
fn no_row_that_failed_before_now_fits() {
    let kinds = [
        "minimal", "mixed", "edge", "locals", "stalls", "zero", "full",
    ];
    let valid = kinds.into_iter().flat_map(|kind| {
        let count = if kind == "full" { 40 } else { 500 };
        (0..count).map(move |index| valid_plan(41, index, kind).expect("a valid kind"))
    });
    let clocks = (0..600).map(|index| clock_plan(&mut Chance::new(41, index, 9)).0);
    let watched = (0..1000).map(|index| plan_of(41, index));
    let (mut plans, mut moved, mut fell, mut fit, mut fitted) = (0, 0, 0, 0, 0);
    for p in valid.chain(clocks).chain(watched) {
        let (now, before) = (judge(&p), former_judge(&p));
        assert_eq!(now.vcpus, before.vcpus);
        assert_eq!(now.waits, before.waits);
        assert_eq!(now.tasks.len(), before.tasks.len());
        for (now, before) in now.tasks.iter().zip(&before.tasks) {
            assert_eq!((now.v, now.n), (before.v, before.n));
            match (before.answer, now.answer) {
                (Answer::Fits(v), Answer::Fits(w)) => assert!(v <= w),
                (Answer::Fits(_), Answer::Late) => fell += 1,
                (Answer::Late, Answer::Late) => {}
                (Answer::NoWait, Answer::NoWait) | (Answer::Held, Answer::Held) => {
                    assert_eq!(now, before)
                }
                other => panic!("({}, {}): {:?}", now.v, now.n, other),
            }
            let task = p.task(now.v, now.n).expect("a task");
            if now != before {
                assert!(has_equal_ceiling(&p, task));
                moved += 1;
            }
        }
        assert!(before.all_fit() || !now.all_fit());
        plans += 1;
        fit += u64::from(now.all_fit());
        fitted += u64::from(before.all_fit() && !now.all_fit());
    }
    assert!(
        plans > 4000 && moved > 1000 && fell > 50 && fit > 500 && fitted > 10,
        "{} plans, {} rows moved, {} of them from fits to late; {} plans fit, {} did before and do not now",
        plans,
        moved,
        fell,
        fit,
        fitted
    );
}
