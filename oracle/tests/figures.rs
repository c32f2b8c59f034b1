//! The figures on hand-made plans, and the statement of the search.

mod common;

use common::{plan, spaced, text, worked};
use oracle::figures::{
    ght, global_locks, global_sections, load, local_blocking, longest_global, overrun, preemption,
    response, task_demand, up, vcpu_demand, vcpu_start, wait_demand, wait_start, Demand,
};
use oracle::generate::{valid_plan, VALID};
use oracle::plan::{Overrun, Plan, Policy, Task, Vcpu};
use oracle::search::{search, Found};
use oracle::verdict::{judge, listing, verdict_text, Answer};

fn lines(text_of_plan: &str) -> Vec<String> {
    let out = verdict_text(&text(text_of_plan));
    spaced(&out).lines().map(|l| l.to_string()).collect()
}

#[test]
fn division_rounds_up() {
    assert_eq!([up(0, 3), up(1, 3), up(3, 3), up(4, 3)], [0, 1, 1, 2]);
}

#[test]
fn local_blocking_and_ceilings() {
    let source =
        "plan 1/policy D N/vcpu 1 1 0 10 10/mutex 1 L 1/mutex 2 L 1/mutex 3 G/mutex 4 L 1/\
                  open 3 1/guest 1/\
                  task 1 1 1000/run 1/lock 1 5/run 0/lock 2 9/run 0/lock 3 4/run 0/\
                  task 1 2 50/run 2/lock 1 3/run 0/\
                  task 1 3 100/run 1/lock 1 2/run 0/lock 3 1/run 0/end/";
    let p = plan(source);
    let of = |n| local_blocking(&p, p.task(1, n).unwrap());
    // Ceilings: 1 is locked by n = 1, 2 and 3, 2 by n = 1 alone, 4 by nobody.
    // (1, 1): nobody is lower, 0.
    // (1, 2): below it (1, 1), 5 on mutex 1 with ceiling 3, not the 9 on mutex 2 with ceiling 1;
    //   and 4 on the global one. No global section of its own: (5 + 4) * 1 = 9.
    // (1, 3): below it (1, 1) and (1, 2), 5 and 3 on mutex 1, whose ceiling is 3 itself, the longest is 5;
    //   and 4 on the global one. One global section of its own: (5 + 4) * 2 = 18.
    assert_eq!([1, 2, 4].map(|m| p.ceiling(m)), [3, 1, 0]);
    assert_eq!([of(1), of(2), of(3)], [0, 9, 18]);
    assert_eq!(ght(&p, 1), 5);
    assert_eq!(overrun(&p, 1), 0);
    assert_eq!(load(&p, 1, 1, 4), 5);
    // Every tick is the VCPU's, and nobody else locks mutex 3: gap and waits are 0.
    // (1, 1): 19 of its own, and one job of 5 of (1, 2) and one of 4 of (1, 3): 28, and 28 again.
    // (1, 2): 5 + 9 and one job of 4 of (1, 3): 18, and 18 again.
    // (1, 3): 4 + 18 = 22, and 22 again.
    assert_eq!(
        lines(source),
        [
            "verdict 1",
            "vcpu 1 fits 10 1",
            "wait 1 1 3 0 1",
            "task 1 1 fits 28 2",
            "task 1 2 fits 18 2",
            "wait 1 3 2 0 1",
            "task 1 3 fits 22 2",
            "all fits",
        ]
    );
}

#[test]
fn local_sections_are_not_in_ght() {
    let p = plan(
        "plan 1/policy D O/vcpu 1 1 0 10 10/mutex 1 L 1/mutex 2 G/open 2 1/guest 1/\
         task 1 1 100/run 0/lock 1 500/run 0/lock 2 3/run 0/lock 2 2/run 0/end/",
    );
    assert_eq!((ght(&p, 1), overrun(&p, 1)), (3, 3));
}

#[test]
fn sections_count_each_by_itself_and_never_on_the_own_vcpu() {
    // VCPU 2 has two sections of one task on mutex 1, responses 2 and 3; period 10.
    let source = "plan 1/policy D O/vcpu 1 1 0 9 9/vcpu 2 2 1 9 9/mutex 1 G/open 1 1/open 1 2/\
                  guest 1/task 1 1 100/run 0/lock 1 7/run 0/task 1 2 100/run 0/lock 1 1/run 0/\
                  guest 2/task 2 1 10/run 0/lock 1 2/run 0/lock 1 3/run 0/end/";
    let p = plan(source);
    let s = global_sections(&p);
    let responses: Vec<u64> = s.iter().map(|s| s.response).collect();
    assert_eq!(responses, [8, 1, 2, 3]);
    assert_eq!(wait_start(&s, 1, 1), 0);
    let d = wait_demand(&s, 1, 1);
    assert_eq!([d.at(0), d.at(1), d.at(10), d.at(11)], [5, 10, 10, 15]);
    assert_eq!(wait_start(&s, 2, 1), 8);
    assert_eq!(wait_demand(&s, 2, 1).at(1000), 8);
}

#[test]
fn a_wait_nobody_competes_for_and_a_start_above_the_limit() {
    let source = "plan 1/policy D O/vcpu 1 1 0 9 9/vcpu 2 2 1 9 9/mutex 1 G/mutex 2 G/open 1 1/\
                  open 1 2/open 2 1/guest 1/task 1 1 100/run 0/lock 2 60/run 0/\
                  guest 2/task 2 1 10/run 11/end/";
    let out = lines(source);
    assert_eq!(out[3], "wait 1 1 1 0 1");
    // Own lengths already above the period: late after no round.
    assert_eq!(out[5], "task 2 1 late - 0");
    // Budget + O above the period.
    assert_eq!(out[1], "vcpu 1 late - 0");
    let late = source.replace("task 2 1 10/run 11/", "task 2 1 10/run 0/lock 1 1/run 0/");
    let late = late.replace("lock 2 60/", "lock 1 60/");
    assert_eq!(lines(&late)[5], "wait 2 1 1 none 0");
    assert_eq!(lines(&late)[6], "task 2 1 nowait - 0");
}

#[test]
fn nowait_and_held() {
    let source = "plan 1/policy D O/vcpu 1 1 0 10 10/vcpu 2 2 1 10 10/mutex 1 G/open 1 1/open 1 2/\
                  guest 1/task 1 1 900/run 0/lock 1 100/run 0/\
                  guest 2/task 2 1 40/run 0/lock 1 1/run 0/task 2 2 1000/run 0/lock 1 1/run 0/\
                  task 2 3 50/run 1/lock 1 1/run 0/task 2 4 1000/run 3/end/";
    let out = lines(source);
    assert_eq!(
        out[5..],
        [
            "wait 2 1 1 none 0",
            "task 2 1 nowait - 0",
            "wait 2 2 1 100 1",
            "task 2 2 held - 0",
            "wait 2 3 1 none 0",
            "task 2 3 nowait - 0",
            "task 2 4 fits 6 2",
            "all late",
        ]
    );
    // A late higher task holds nobody.
    let late = source
        .replace("task 2 3 50/run 1/lock 1 1/run 0/", "task 2 3 50/run 51/")
        .replace("task 2 1 40", "task 2 1 1000");
    assert!(lines(&late).contains(&"task 2 3 late - 0".to_string()));
    assert!(!lines(&late).iter().any(|l| l.contains("held")));
}

#[test]
fn the_listing_sorts_over_the_whole_plan() {
    let out = lines(
        "plan 1/policy P N/vcpu 1 2 0 1 1/vcpu 2 1 0 1 1/vcpu 3 2 1 1 1/guest 1/task 2 1 5/run 1/\
         guest 2/task 1 4 5/run 1/task 3 1 5/run 0/end/",
    );
    assert_eq!(
        out,
        [
            "verdict 1",
            "vcpu 1 late - 1",
            "vcpu 2 fits 1 1",
            "vcpu 3 fits 1 1",
            "task 1 4 fits 1 1",
            "task 2 1 fits 1 1",
            "task 3 1 fits 0 1",
            "all late",
        ]
    );
}

#[test]
fn places_count_local_locks_too() {
    let out = lines(
        "plan 1/policy P N/vcpu 1 1 0 1 1/mutex 1 L 1/mutex 2 G/open 2 1/guest 1/task 1 1 50/run 0/\
         lock 1 1/run 0/lock 2 1/run 0/lock 1 1/run 0/lock 2 1/run 0/end/",
    );
    assert_eq!(out[2], "wait 1 1 2 0 1");
    assert_eq!(out[3], "wait 1 1 4 0 1");
}

#[test]
fn responses_by_policy() {
    let responses = |policy: &str| -> Vec<u64> {
        global_sections(&plan(&worked(policy)))
            .iter()
            .map(|s| s.response)
            .collect()
    };
    assert_eq!(responses("D O"), [3, 2]);
    assert_eq!(responses("P O"), [20, 10]);
    assert_eq!(responses("D N"), [20, 10]);
    assert_eq!(responses("P N"), [20, 10]);
}

#[test]
fn a_wrapped_sum_does_not_pass() {
    for index in 0..60 {
        let p = valid_plan(11, index, "wrap").unwrap();
        let s = global_sections(&p);
        let middle = p.vcpus[1].v;
        let start = wait_start(&s, middle, 9);
        let demand = wait_demand(&s, middle, 9).at(u64::try_from(start).unwrap());
        assert!(demand > u128::from(u64::MAX));
        let verdict = judge(&p);
        let rows = verdict.waits.iter().filter(|w| w.v == middle);
        assert!(rows.clone().count() > 0);
        for row in rows {
            assert_eq!((row.ticks, row.rounds), (None, 1));
        }
    }
    let wraps = (0..60).filter(|index| {
        let p = valid_plan(11, *index, "wrap").unwrap();
        let s = global_sections(&p);
        let start = wait_start(&s, p.vcpus[1].v, 9);
        let demand = wait_demand(&s, p.vcpus[1].v, 9).at(u64::try_from(start).unwrap());
        demand - start == 1 << 64
    });
    assert!(wraps.count() > 20);
}

#[test]
fn demands_pass_64_bits() {
    let passing = (0..40).filter(|index| {
        let p = valid_plan(3, *index, "huge").unwrap();
        let s = global_sections(&p);
        wait_demand(&s, 1, 5).at(1_000_000) > u128::from(u64::MAX)
    });
    assert!(passing.count() > 20);
}

/// The smallest number from 0 to the limit whose demand is not above it, tried in turn.
fn smallest(limit: u64, demand: &Demand) -> Option<u64> {
    (0..=limit).find(|w| demand.at(*w) <= u128::from(*w))
}

fn check(start: u128, limit: u64, demand: &Demand) -> Found {
    let found = search(start, limit, demand);
    assert_eq!(found.w, smallest(limit, demand));
    match u64::try_from(start) {
        Ok(start) if start <= limit => {
            assert!(found.rounds >= 1 && found.rounds <= limit - start + 1)
        }
        _ => assert_eq!(found.rounds, 0),
    }
    found
}

#[test]
fn w_is_the_smallest_number() {
    let (mut fits, mut late) = (0, 0);
    for kind in ["minimal", "edge", "locals", "stalls", "zero", "mixed"] {
        for index in 0..60 {
            let p = valid_plan(5, index, kind).unwrap();
            let verdict = judge(&p);
            for (c, row) in p.vcpus.iter().zip(&verdict.vcpus) {
                let found = check(vcpu_start(&p, c), c.period, &vcpu_demand(&p, c));
                let answer = found.w.map_or(Answer::Late, Answer::Fits);
                assert_eq!((row.v, row.answer, row.rounds), (c.v, answer, found.rounds));
            }
            let s = global_sections(&p);
            for (x, row) in s.iter().zip(&verdict.waits) {
                if x.period <= 3000 {
                    let d = wait_demand(&s, x.v, x.m);
                    let found = check(wait_start(&s, x.v, x.m), x.period, &d);
                    assert_eq!((row.ticks, row.rounds), (found.w, found.rounds));
                }
            }
            let waits = |v, n| -> u64 {
                let own = verdict.waits.iter().filter(|w| (w.v, w.n) == (v, n));
                own.filter_map(|w| w.ticks).sum()
            };
            for row in &verdict.tasks {
                let t = p.task(row.v, row.n).unwrap();
                if t.period > 3000 || matches!(row.answer, Answer::NoWait | Answer::Held) {
                    continue;
                }
                let blocking = local_blocking(&p, t);
                let d = task_demand(&p, p.vcpu(t.v).unwrap(), t, blocking, &waits);
                let found = check(u128::from(t.lengths()), t.period, &d);
                let answer = found.w.map_or(Answer::Late, Answer::Fits);
                assert_eq!((row.answer, row.rounds), (answer, found.rounds));
                match answer {
                    Answer::Fits(_) => fits += 1,
                    _ => late += 1,
                }
            }
        }
    }
    assert!(fits > 100 && late > 100, "{} fits, {} late", fits, late);
}

#[test]
fn the_greatest_number_of_rounds_is_reached() {
    let source = "plan 1/policy D O/vcpu 1 1 0 1 1/vcpu 2 2 1 1 1/mutex 1 G/open 1 1/open 1 2/\
                  guest 1/task 1 1 500/run 0/lock 1 1/run 0/\
                  guest 2/task 2 1 1/run 0/lock 1 1/run 0/end/";
    assert_eq!(lines(source)[3], "wait 1 1 1 none 501");
}

/// Equation 5 word by word.
fn plain_vcpu_demand(p: &Plan, c: &Vcpu, t: u64) -> u128 {
    let mut sum = c.budget + overrun(p, c.v);
    for low in p.vcpus.iter().filter(|x| x.core == c.core && x.v < c.v) {
        if p.policy == Policy::Periodic {
            sum += ght(p, low.v);
        } else {
            for task in p.tasks_of(low.v) {
                let sections: u64 = global_locks(p, task).map(|l| l.t).sum();
                sum += (up(t, task.period) + 1) * sections;
            }
        }
    }
    for high in p.vcpus.iter().filter(|x| x.core == c.core && x.v > c.v) {
        let j = if p.policy == Policy::Periodic {
            0
        } else {
            high.period - high.budget
        };
        sum += up(t + j, high.period) * (high.budget + overrun(p, high.v));
    }
    u128::from(sum)
}

/// Equations 12 to 16 word by word.
fn plain_response(p: &Plan, task: &Task, length: u64) -> u64 {
    let c = p.vcpu(task.v).unwrap();
    let gap = c.period - c.budget;
    let mut load = length;
    for h in p.tasks_of(task.v).filter(|h| h.n > task.n) {
        load += longest_global(p, h);
    }
    let mut over = 0;
    for h in p.vcpus.iter().filter(|h| h.core == c.core && h.v > c.v) {
        over += ght(p, h.v);
    }
    assert_eq!(over, preemption(p, c));
    let out = match (p.policy, p.overrun) {
        (Policy::Periodic, Overrun::With) => gap + load + over,
        (Policy::Deferrable, Overrun::With) => load + over,
        _ => up(load, c.budget) * gap + load + over,
    };
    assert_eq!(out, response(p, c, task.n, length));
    out
}

/// Equation 11 word by word.
fn plain_wait_demand(p: &Plan, v: u64, m: u64, t: u64) -> u128 {
    let mut first = 0;
    let mut sum = 0u128;
    for task in p.tasks() {
        for lock in task.locks.iter().filter(|l| l.m == m) {
            let r = plain_response(p, task, lock.t);
            if task.v < v {
                first = first.max(r);
            }
            if task.v > v {
                sum += u128::from(up(t, task.period) + 1) * u128::from(r);
            }
        }
    }
    u128::from(first) + sum
}

/// Equations 7 to 9 word by word, a ceiling that is at least n counting.
fn plain_local_blocking(p: &Plan, task: &Task) -> u64 {
    let mut longest = 0;
    let mut globals = 0;
    for low in p.tasks_of(task.v).filter(|low| low.n < task.n) {
        globals += longest_global(p, low);
        for lock in low.locks.iter().filter(|l| !p.is_global(l.m)) {
            let users = p.tasks().filter(|t| t.lists(lock.m));
            let ceiling = users.map(|t| t.n).max().unwrap_or(0);
            if ceiling >= task.n {
                longest = longest.max(lock.t);
            }
        }
    }
    let own = task.locks.iter().filter(|l| p.is_global(l.m)).count() as u64;
    (longest + globals) * (own + 1)
}

/// Equation 6 word by word.
fn plain_task_demand(p: &Plan, task: &Task, waits: &dyn Fn(u64, u64) -> u64, w: u64) -> u128 {
    let c = p.vcpu(task.v).unwrap();
    let gap = c.period - c.budget;
    let mut sum = task.lengths() + plain_local_blocking(p, task) + waits(task.v, task.n);
    for h in p.tasks_of(task.v).filter(|h| h.n > task.n) {
        sum += up(w + gap + waits(h.v, h.n), h.period) * h.lengths();
    }
    sum += up(w + c.budget, c.period) * gap;
    u128::from(sum)
}

#[test]
fn demands_are_the_equations() {
    for kind in VALID.iter().filter(|k| **k != "full" && **k != "slowest") {
        for index in 0..12 {
            let p = valid_plan(21, index, kind).unwrap();
            let s = global_sections(&p);
            let waits = |v: u64, n: u64| v * 7 + n;
            for t in [0, 1, 2, 5, 17, 99, 100, 1000, 524_287, 999_999, 1_000_000] {
                for c in &p.vcpus {
                    assert_eq!(vcpu_demand(&p, c).at(t), plain_vcpu_demand(&p, c, t));
                }
                for task in p.tasks() {
                    for lock in global_locks(&p, task) {
                        let d = wait_demand(&s, task.v, lock.m);
                        assert_eq!(d.at(t), plain_wait_demand(&p, task.v, lock.m, t));
                    }
                    let blocking = local_blocking(&p, task);
                    let d = task_demand(&p, p.vcpu(task.v).unwrap(), task, blocking, &waits);
                    assert_eq!(d.at(t), plain_task_demand(&p, task, &waits, t));
                }
            }
        }
    }
}

#[test]
fn slow_searches_are_slow() {
    let (mut vcpus, mut waits, mut tasks) = (0, 0, 0);
    for index in 0..60 {
        let verdict = judge(&valid_plan(2, index, "slow").unwrap());
        vcpus += verdict.vcpus.iter().filter(|r| r.rounds > 1000).count();
        waits += verdict.waits.iter().filter(|r| r.rounds > 1000).count();
        tasks += verdict.tasks.iter().filter(|r| r.rounds > 300).count();
    }
    assert!(
        vcpus > 5 && waits > 3 && tasks > 3,
        "{} {} {}",
        vcpus,
        waits,
        tasks
    );
}

#[test]
fn listings_end_in_their_summary() {
    for index in 0..200 {
        let p = valid_plan(8, index, "edge").unwrap();
        let out = spaced(&listing(&p));
        let any_late = out
            .lines()
            .any(|l| (l.starts_with("vcpu") || l.starts_with("task")) && !l.contains(" fits "));
        let last = if any_late { "all late\n" } else { "all fits\n" };
        assert!(out.ends_with(last));
    }
}
