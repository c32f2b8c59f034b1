//! Plans to be watched on a clock: most fit, many with no tick to spare; and small changes of a plan.

use super::runs::{empty_some, pace, shape};
use super::shapes::{draw, within, Shape};
use super::Chance;
use crate::limits::{LOCKS, TOP_CORE};
use crate::plan::{Lock, Plan, Task, Vcpu};
use crate::verdict::{former_judge, judge, Answer, Verdict};

/// Periods and lengths are kept up to these, so that a run shows many jobs.
const LONGEST_PERIOD: u64 = 2000;
const LONGEST_PIECE: u64 = 200;

/// An accepted plan. One in four is led by the former local blocking, so that some fit with that alone.
pub fn watched_plan(chance: &mut Chance) -> Plan {
    let sizes = sizes(chance);
    let mut plan = draw(chance, &sizes);
    share_cores(chance, &mut plan);
    empty_some(chance, &mut plan);
    pace(chance, &mut plan);
    let rows = if chance.one_in(4) {
        former_judge
    } else {
        judge
    };
    ease(chance, &mut plan, rows);
    tighten(chance, &mut plan, rows);
    plan
}

/// The sizes of runs, most of them with few VCPUs whose tasks share local or global mutexes.
fn sizes(chance: &mut Chance) -> Shape {
    let any = shape(chance);
    match chance.below(5) {
        0 | 1 => Shape {
            vcpus: (1, 3),
            tasks: (2, 4),
            globals: (0, 2),
            locals: (1, 3),
            locks: (1, 3),
            bare: 0,
            ..any
        },
        2 | 3 => Shape {
            vcpus: (2, 4),
            cores: TOP_CORE + 1,
            tasks: (1, 3),
            globals: (1, 2),
            locals: (0, 2),
            locks: (1, 4),
            bare: 0,
            ..any
        },
        _ => any,
    }
}

/// A VCPU that is alone on its core may have every tick of it; others have their share of their budgets.
fn share_cores(chance: &mut Chance, plan: &mut Plan) {
    let whole = chance.percent(50);
    let before = plan.clone();
    for vcpu in plan.vcpus.iter_mut() {
        let beside = before.vcpus.iter().filter(|c| c.core == vcpu.core).count() as u64;
        if beside > 1 {
            vcpu.budget = (vcpu.budget / beside).max(1);
        } else if whole {
            vcpu.budget = vcpu.period;
        }
    }
}

fn tasks_mut(plan: &mut Plan) -> impl Iterator<Item = &mut Task> {
    plan.sections.iter_mut().flat_map(|s| s.tasks.iter_mut())
}

fn set_period(plan: &mut Plan, v: u64, n: u64, period: u64) {
    for task in tasks_mut(plan).filter(|t| (t.v, t.n) == (v, n)) {
        task.period = period;
    }
}

/// Longer periods or smaller budgets for what does not fit, until all does or stays as it is.
fn ease(chance: &mut Chance, plan: &mut Plan, rows: fn(&Plan) -> Verdict) {
    for _ in 0..16 {
        let verdict = rows(plan);
        if verdict.all_fit() {
            return;
        }
        for row in verdict.vcpus.iter().filter(|r| r.answer == Answer::Late) {
            for vcpu in plan.vcpus.iter_mut().filter(|c| c.v == row.v) {
                if chance.percent(50) {
                    vcpu.budget -= vcpu.budget / 3;
                } else {
                    vcpu.period = longer(chance, vcpu.period);
                }
            }
        }
        for task in tasks_mut(plan) {
            let late = verdict.tasks.iter().any(|r| {
                (r.v, r.n) == (task.v, task.n) && matches!(r.answer, Answer::Late | Answer::NoWait)
            });
            if late {
                task.period = longer(chance, task.period);
            }
        }
    }
}

fn longer(chance: &mut Chance, period: u64) -> u64 {
    let longer = period + period / 2 + chance.between(1, 4);
    longer.min(LONGEST_PERIOD.max(period))
}

/// Tasks' periods set to their times, or just above, one by one where all still fits.
fn tighten(chance: &mut Chance, plan: &mut Plan, rows: fn(&Plan) -> Verdict) {
    let mut verdict = rows(plan);
    if !verdict.all_fit() {
        return;
    }
    for _ in 0..chance.below(2 * verdict.tasks.len() as u64 + 1) {
        let (v, n, w) = match chance.pick(&verdict.tasks) {
            Some(row) => match row.answer {
                Answer::Fits(w) => (row.v, row.n, w),
                _ => continue,
            },
            None => return,
        };
        let mut tight = plan.clone();
        set_period(&mut tight, v, n, (w + chance.spread(0, 3)).max(1));
        let now = rows(&tight);
        if now.all_fit() {
            *plan = tight;
            verdict = now;
        }
    }
}

/// The plan with one small change: a length, a period, a budget, a lock's mutex, or a lock more or less.
/// At times it is the plan itself.
pub fn changed(chance: &mut Chance, plan: &Plan) -> Plan {
    let mut plan = plan.clone();
    let choice = chance.below(12);
    if choice < 2 {
        let at = chance.place(plan.vcpus.len());
        if let Some(vcpu) = plan.vcpus.get_mut(at) {
            change_vcpu(chance, vcpu, choice == 0);
        }
        return plan;
    }
    let before = plan.clone();
    let at = chance.place(before.tasks().count());
    let task = match tasks_mut(&mut plan).nth(at) {
        Some(task) => task,
        None => return before,
    };
    let within = before
        .vcpu(task.v)
        .map_or_else(Vec::new, |vcpu| within(&before, vcpu));
    let place = chance.place(task.locks.len());
    match choice {
        2 | 3 => task.period = near(chance, task.period, 1, LONGEST_PERIOD),
        4 => task.first = near(chance, task.first, 0, LONGEST_PIECE),
        5 | 6 => {
            if let Some(lock) = task.locks.get_mut(place) {
                lock.t = near(chance, lock.t, 1, LONGEST_PIECE);
            }
        }
        7 => {
            if let Some(lock) = task.locks.get_mut(place) {
                lock.run = near(chance, lock.run, 0, LONGEST_PIECE);
            }
        }
        8 => {
            if let (Some(lock), Some(m)) = (task.locks.get_mut(place), chance.pick(&within)) {
                lock.m = *m;
            }
        }
        9 | 10 => {
            if let (Some(m), true) = (chance.pick(&within), task.locks.len() < LOCKS) {
                let lock = Lock {
                    m: *m,
                    t: chance.between(1, 6),
                    run: chance.below(3),
                };
                task.locks.insert(place, lock);
            }
        }
        _ => {
            if place < task.locks.len() {
                task.locks.remove(place);
            }
        }
    }
    plan
}

/// Another budget, or another period: one that is all budget stays so.
fn change_vcpu(chance: &mut Chance, vcpu: &mut Vcpu, budget: bool) {
    if budget {
        vcpu.budget = near(chance, vcpu.budget, 1, vcpu.period);
    } else {
        let whole = vcpu.budget == vcpu.period;
        vcpu.period = near(chance, vcpu.period, 1, LONGEST_PERIOD);
        vcpu.budget = if whole {
            vcpu.period
        } else {
            vcpu.budget.min(vcpu.period)
        };
    }
}

/// A little more or less, at times the half or the double.
fn near(chance: &mut Chance, number: u64, low: u64, high: u64) -> u64 {
    let near = match chance.below(10) {
        0 => number / 2,
        1 => number * 2,
        2 | 3 => number + chance.between(2, 5),
        4 | 5 => number.saturating_sub(chance.between(2, 5)),
        6 | 7 => number + 1,
        _ => number.saturating_sub(1),
    };
    near.clamp(low, high)
}
