//! Plans to be run on a clock, each with the line of its horizon.

use super::shapes::{draw, valid, Shape};
use super::{damage, Chance};
use crate::clock::{run, Outcome};
use crate::limits::{INPUT_BYTES, LOCKS, TICKS, TOP_CORE};
use crate::plan::{Overrun, Plan, Policy};

/// A plan file (None where it is absent) and the line for standard input.
#[derive(Clone, PartialEq, Eq, Debug)]
pub struct ClockCase {
    pub plan: Option<Vec<u8>>,
    pub horizon: Vec<u8>,
}

/// A plan file (None where it is absent) and the horizon as a number, for the function for C.
#[derive(Clone, PartialEq, Eq, Debug)]
pub struct RunCase {
    pub plan: Option<Vec<u8>>,
    pub horizon: u64,
}

/// Case `index`: mostly an accepted plan and a good line, at times damaged ones, or no plan.
pub fn clock_case(seed: u64, index: u64) -> ClockCase {
    let chance = &mut Chance::new(seed, index, 4);
    let (plan, ticks) = case_plan(chance);
    let horizon = if chance.one_in(25) {
        damaged_line(chance, ticks)
    } else {
        format!("horizon\t{}\n", ticks).into_bytes()
    };
    ClockCase { plan, horizon }
}

/// Case `index`: plans as in `clock_case`; the horizon is up to twenty times as far, and at times out of range.
pub fn run_case(seed: u64, index: u64) -> RunCase {
    let chance = &mut Chance::new(seed, index, 5);
    let (plan, ticks) = case_plan(chance);
    let horizon = match chance.below(60) {
        0 => 0,
        1 => TICKS + 1,
        2 => u64::MAX,
        _ => (ticks * chance.between(1, 20)).min(TICKS),
    };
    RunCase { plan, horizon }
}

/// The plan's bytes, and how many ticks of it are worth watching.
fn case_plan(chance: &mut Chance) -> (Option<Vec<u8>>, u64) {
    let (plan, ticks) = clock_plan(chance);
    let text = match chance.below(60) {
        0 => Some(damage::damaged(chance, "twolines")),
        1 => Some(damage::damaged(chance, "torn")),
        2 => None,
        _ => Some(plan.text()),
    };
    let text = if chance.one_in(400) {
        Some(damage::damaged(chance, "oversize"))
    } else {
        text
    };
    (text, ticks)
}

/// An accepted plan and how many ticks are worth watching.
pub fn clock_plan(chance: &mut Chance) -> (Plan, u64) {
    let (mut plan, ticks) = match chance.below(24) {
        0 => (valid(chance, "minimal"), 60),
        1 => (valid(chance, "zero"), 100),
        2 => (valid(chance, "mixed"), 300),
        _ => (None, 0),
    };
    let mut plan = match plan.take() {
        Some(plan) => return (plan, chance.between(1, ticks)),
        None => {
            let sizes = shape(chance);
            draw(chance, &sizes)
        }
    };
    if chance.percent(25) {
        plan.policy = Policy::Periodic;
        plan.overrun = Overrun::With;
    }
    empty_some(chance, &mut plan);
    pace(chance, &mut plan);
    let together = chance.percent(12);
    if together {
        // many jobs are due in one tick, and several of them late
        let period = chance.between(4, 60);
        for task in plan.sections.iter_mut().flat_map(|s| s.tasks.iter_mut()) {
            task.period = period * chance.between(1, 2);
        }
    }
    let ticks = match chance.below(30) {
        0 => chance.between(1, 5),
        1 => chance.between(400, 1500),
        _ => chance.between(60, 500),
    };
    // Longer periods for the tasks that are late, until the run is long enough or stays as it is.
    let tries = if together { 0 } else { chance.between(0, 12) };
    for _ in 0..tries {
        match run(&plan, ticks, &mut |_| {}) {
            Outcome::Missed { v, n, .. } => {
                for task in plan.sections.iter_mut().flat_map(|s| s.tasks.iter_mut()) {
                    if (task.v, task.n) == (v, n) {
                        let longer = task.period * 2 + chance.below(5);
                        task.period = longer.min(TICKS);
                    }
                }
            }
            Outcome::Ended => break,
        }
    }
    (plan, ticks)
}

/// Sizes that favour waits between cores, waits in one VCPU, crowds, or nothing.
pub(super) fn shape(chance: &mut Chance) -> Shape {
    let small = Shape {
        cores: chance.between(1, TOP_CORE + 1),
        vcpu_period: (4, 60),
        share: (20, 90),
        task_period: (2, 60),
        run: (0, 3),
        lock: (1, 5),
        locks: (0, 4),
        bare: 8,
        opened: 92,
        ..Shape::board()
    };
    match chance.below(10) {
        0..=3 => Shape {
            vcpus: (2, 8),
            cores: TOP_CORE + 1,
            tasks: (1, 3),
            globals: (1, 2),
            locals: (0, 2),
            locks: (1, 3),
            ..small
        },
        4..=6 => Shape {
            vcpus: (1, 4),
            tasks: (2, 8),
            globals: (0, 1),
            locals: (2, 6),
            locks: (1, 4),
            lock: (2, 6),
            share: (50, 100),
            ..small
        },
        7 => Shape {
            vcpus: (6, 16),
            cores: TOP_CORE + 1,
            tasks: (1, 4),
            globals: (1, 5),
            locals: (0, 6),
            locks: (0, 8),
            ..small
        },
        8 => Shape {
            // sections that outlast the budgets
            vcpus: (2, 5),
            globals: (1, 2),
            share: (5, 40),
            lock: (2, 9),
            locks: (1, 2),
            ..small
        },
        _ => small,
    }
}

/// Some tasks have no length at all, or none between their sections.
pub(super) fn empty_some(chance: &mut Chance, plan: &mut Plan) {
    for task in plan.sections.iter_mut().flat_map(|s| s.tasks.iter_mut()) {
        match chance.below(16) {
            0 => {
                task.first = 0;
                task.locks.clear();
            }
            1 | 2 => {
                task.first = 0;
                for lock in task.locks.iter_mut() {
                    lock.run = 0;
                }
            }
            3 => {
                // a section's mutex once more, right after it
                if let Some(lock) = task.locks.last_mut() {
                    lock.run = 0;
                    let again = lock.clone();
                    if task.locks.len() < LOCKS {
                        task.locks.push(again);
                    }
                }
            }
            _ => {}
        }
    }
}

/// Periods that the lengths of a task may fit in, given its VCPU's share and its other tasks.
pub(super) fn pace(chance: &mut Chance, plan: &mut Plan) {
    let ease = chance.between(50, 160);
    let before = plan.clone();
    for task in plan.sections.iter_mut().flat_map(|s| s.tasks.iter_mut()) {
        if task.lengths() == 0 {
            task.period = chance.between(1, 20);
            continue;
        }
        let beside = before.tasks_of(task.v).count() as u64;
        if let Some(vcpu) = before.vcpu(task.v) {
            let spread = chance.between(50, 150);
            let needed = task.lengths() * beside * vcpu.period / vcpu.budget;
            let period = needed * ease * spread / 10_000 + chance.between(0, vcpu.period);
            task.period = period.clamp(1, TICKS);
        }
    }
}

fn damaged_line(chance: &mut Chance, ticks: u64) -> Vec<u8> {
    let good = format!("horizon\t{}\n", ticks);
    let number = |text: &str| format!("horizon\t{}\n", text);
    let line = match chance.below(20) {
        0 => String::new(),
        1 => "\n".to_string(),
        2 => good.trim_end().to_string(),
        3 => format!("{}\n", good),
        4 => format!("{}x", good),
        5 => format!("{}{}", good, good),
        6 => good.replace('\t', " "),
        7 => good.replace('\t', "\t\t"),
        8 => good.replace('\n', "\t\n"),
        9 => good.replace('\n', "\t1\n"),
        10 => good.replace('\n', "\r\n"),
        11 => good.replace('h', "H"),
        12 => "horizon\n".to_string(),
        13 => format!("top\t{}\n", ticks),
        14 => number(&format!("0{}", ticks)),
        15 => number(&format!("+{}", ticks)),
        16 => number(&format!("{}", chance.between(10_000_000, 99_999_999))),
        17 => number("0"),
        18 => number(&format!("{}", chance.between(1_000_001, 9_999_999))),
        _ => number("1000001"),
    };
    let mut line = line.into_bytes();
    match chance.below(12) {
        0 => {
            let at = chance.place(line.len());
            if let Some(byte) = line.get_mut(at) {
                *byte = chance.below(256) as u8;
            }
        }
        1 => {
            // two faults: the form or the range, and the shape
            line.push(b'x');
        }
        2 => {
            let more = chance.below(3) as usize;
            line.resize(INPUT_BYTES + more, b'\n');
        }
        _ => {}
    }
    line
}
