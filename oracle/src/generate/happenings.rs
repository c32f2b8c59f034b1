//! Event lists, led by a board so that most of them mean something.

use super::shapes::{draw, valid, Shape};
use super::{damage, Chance};
use crate::board::{Board, Event};
use crate::events::{event, event_text};
use crate::limits::{GUESTS, INPUT_BYTES, MUTEXES, PLACES, TICKS, TOP_CORE, VCPUS};
use crate::plan::{Lock, Mutex, Open, Overrun, Owner, Plan, Policy, Section, Task, Vcpu};

/// A plan file (None where it is absent) and the events for it.
#[derive(Clone, PartialEq, Eq, Debug)]
pub struct BoardCase {
    pub plan: Option<Vec<u8>>,
    pub events: Vec<u8>,
}

/// Case `index`: mostly an accepted plan, at times a damaged or an absent one.
pub fn board_case(seed: u64, index: u64) -> BoardCase {
    let chance = &mut Chance::new(seed, index, 3);
    let sizes = shape(chance);
    let mut plan = match chance.below(12) {
        0 => valid(chance, "locals"),
        1 => valid(chance, "mixed"),
        2 | 3 => Some(ladder(chance)),
        _ => None,
    }
    .unwrap_or_else(|| draw(chance, &sizes));
    if chance.percent(50) {
        share(chance, &mut plan);
    }
    if chance.percent(25) {
        plan.policy = Policy::Periodic;
        plan.overrun = Overrun::With;
    }
    let mut events = events_for(chance, &plan);
    if chance.one_in(200) {
        let more = chance.below(3) as usize;
        while events.len() < INPUT_BYTES {
            events.extend_from_slice(b"show\t1\t1\n");
        }
        events.truncate(INPUT_BYTES + more);
    }
    let text = match chance.below(40) {
        0 => Some(damage::damaged(chance, "twolines")),
        1 => Some(damage::damaged(chance, "torn")),
        2 => None,
        _ => Some(plan.text()),
    };
    let text = if chance.one_in(300) {
        Some(damage::damaged(chance, "oversize"))
    } else {
        text
    };
    BoardCase { plan: text, events }
}

/// Sizes that favour hand-overs in one case and ceilings in another.
fn shape(chance: &mut Chance) -> Shape {
    match chance.below(3) {
        0 => Shape {
            vcpus: (2, 5),
            globals: (1, 2),
            locals: (0, 1),
            ..Shape::board()
        },
        1 => Shape {
            vcpus: (1, 2),
            tasks: (3, 8),
            globals: (0, 2),
            locals: (2, 5),
            locks: (1, 5),
            ..Shape::board()
        },
        _ => Shape::board(),
    }
}

/// One VCPU whose local mutexes are shared by bands of tasks, so that several are held at
/// once and waiters stand above the ceilings of some of them.
fn ladder(chance: &mut Chance) -> Plan {
    let budget = chance.between(4, 30);
    let mut plan = Plan::empty(Policy::Deferrable, Overrun::With);
    plan.vcpus.push(Vcpu {
        v: chance.between(1, VCPUS),
        guest: chance.between(1, GUESTS),
        core: chance.between(0, TOP_CORE),
        budget,
        period: budget + chance.between(0, 10),
    });
    let (v, guest) = plan.vcpus.first().map_or((1, 1), |c| (c.v, c.guest));
    let count = chance.between(2, 5);
    let mutexes = chance.some_of(1, MUTEXES, count + 1);
    let bands: Vec<(u64, u64, u64)> = mutexes
        .iter()
        .skip(1)
        .map(|m| {
            let low = chance.between(1, PLACES - 1);
            let high = chance.between(low + 1, (low + 3).min(PLACES));
            (*m, low, high)
        })
        .collect();
    let global = mutexes.first().copied().unwrap_or(1);
    plan.mutexes = mutexes
        .iter()
        .map(|m| Mutex {
            m: *m,
            owner: if *m == global {
                Owner::Global
            } else {
                Owner::Local(v)
            },
        })
        .collect();
    plan.opens.push(Open { m: global, guest });
    let lock = |m: u64| Lock { m, t: 1, run: 0 };
    let tasks = (1..=PLACES)
        .map(|n| {
            let within = bands
                .iter()
                .filter(|(_, low, high)| *low <= n && n <= *high);
            let mut locks: Vec<Lock> = within.map(|(m, _, _)| lock(*m)).collect();
            if chance.one_in(4) {
                locks.push(lock(global));
            }
            Task {
                v,
                n,
                period: 100,
                first: 1,
                locks,
            }
        })
        .collect();
    plan.sections.push(Section { guest, tasks });
    plan
}

/// Every task with locks gets one more on a mutex that another task of its VCPU locks.
fn share(chance: &mut Chance, plan: &mut Plan) {
    let before = plan.clone();
    for section in plan.sections.iter_mut() {
        for task in section.tasks.iter_mut() {
            let known: Vec<_> = before
                .tasks_of(task.v)
                .flat_map(|t| t.locks.iter().cloned())
                .collect();
            if task.locks.len() < 4 {
                if let Some(lock) = chance.pick(&known) {
                    task.locks.push(lock.clone());
                }
            }
        }
    }
}

/// The tasks of a plan and the mutexes each lists.
fn sheets(plan: &Plan) -> Vec<(u64, u64, Vec<u64>)> {
    plan.tasks()
        .map(|t| (t.v, t.n, t.locks.iter().map(|l| l.m).collect()))
        .collect()
}

fn events_for(chance: &mut Chance, plan: &Plan) -> Vec<u8> {
    let mut board = Board::fresh(plan);
    let mut out = Vec::new();
    let count = match chance.below(20) {
        0 => 0,
        1 => chance.between(100, 300),
        _ => chance.between(5, 80),
    };
    for _ in 0..count {
        let line = next_line(chance, plan, &board);
        if let Ok(asked) = event(&line) {
            board.apply(plan, asked);
        }
        out.extend_from_slice(&line);
        out.push(b'\n');
    }
    match chance.below(12) {
        0 => {
            out.pop();
        }
        1 => out.extend_from_slice(b"show\t1\t1"),
        2 => out.push(b'\n'),
        _ => {}
    }
    out
}

fn written(event: Event) -> Vec<u8> {
    event_text(event).into_bytes()
}

/// A line without its LF.
fn next_line(chance: &mut Chance, plan: &Plan, board: &Board) -> Vec<u8> {
    match chance.below(100) {
        0..=35 => written(ask(chance, plan, board)),
        36..=53 => written(free(chance, plan, board)),
        54..=63 => written(take(chance, plan, board)),
        64..=68 => written(drain(chance, plan, board)),
        69..=74 => written(top(chance, plan, board)),
        75..=87 => written(show(chance, plan, board)),
        88..=94 => written(stray(chance, plan)),
        _ => malformed(chance, plan, board),
    }
}

fn some_vcpu(chance: &mut Chance, plan: &Plan) -> u64 {
    chance.pick(&plan.vcpus).map_or(1, |c| c.v)
}

/// A task, a holder or a waiter more often than others.
fn some_task(chance: &mut Chance, plan: &Plan, board: &Board) -> (u64, u64) {
    let tasks: Vec<(u64, u64)> = plan.tasks().map(|t| (t.v, t.n)).collect();
    let busy: Vec<(u64, u64)> = tasks
        .iter()
        .copied()
        .filter(|t| is_busy(board, *t))
        .collect();
    let from = if chance.percent(50) && !busy.is_empty() {
        &busy
    } else {
        &tasks
    };
    chance.pick(from).copied().unwrap_or((1, 1))
}

fn is_busy(board: &Board, task: (u64, u64)) -> bool {
    board.wait_of(task.0, task.1).is_some()
        || (1..=MUTEXES).any(|m| board.holder_of(m) == Some(task))
}

/// Mostly a task that is idle and awake, and a mutex it lists.
fn ask(chance: &mut Chance, plan: &Plan, board: &Board) -> Event {
    let all: Vec<(u64, u64, u64)> = sheets(plan)
        .into_iter()
        .flat_map(|(v, n, ms)| ms.into_iter().map(move |m| (v, n, m)))
        .collect();
    let ready: Vec<(u64, u64, u64)> = all
        .iter()
        .copied()
        .filter(|(v, n, _)| !is_busy(board, (*v, *n)) && board.supply(plan, *v) > 0)
        .collect();
    // A mutex that is held already makes a waiter.
    let contended: Vec<(u64, u64, u64)> = ready
        .iter()
        .copied()
        .filter(|(_, _, m)| board.holder_of(*m).is_some())
        .collect();
    // A second local mutex held, or a waiter above the ceiling of a held one.
    let climbing: Vec<(u64, u64, u64)> = ready
        .iter()
        .copied()
        .filter(|(v, n, m)| plan.is_local_of(*m, *v) && above_some(plan, board, *v, *n))
        .collect();
    let lowest: Vec<(u64, u64, u64)> = ready
        .iter()
        .copied()
        .filter(|(v, _, m)| plan.is_local_of(*m, *v))
        .min_by_key(|(_, n, m)| (*n, *m))
        .into_iter()
        .collect();
    let from = if chance.percent(30) && !contended.is_empty() {
        &contended
    } else if chance.percent(30) && !climbing.is_empty() {
        &climbing
    } else if chance.percent(10) && !lowest.is_empty() {
        &lowest
    } else if chance.percent(85) && !ready.is_empty() {
        &ready
    } else {
        &all
    };
    match chance.pick(from).copied() {
        Some((v, n, m)) => Event::Ask { v, n, m },
        None => stray(chance, plan),
    }
}

/// n is above the ceiling of a held local mutex of v.
fn above_some(plan: &Plan, board: &Board, v: u64, n: u64) -> bool {
    plan.mutexes
        .iter()
        .filter(|x| x.owner == Owner::Local(v) && board.holder_of(x.m).is_some())
        .any(|x| n > plan.ceiling(x.m))
}

/// Often a local holder whose mutex has a ceiling below a local waiter.
fn show(chance: &mut Chance, plan: &Plan, board: &Board) -> Event {
    let waiters: Vec<(u64, u64)> = plan
        .tasks()
        .filter(|t| {
            board
                .wait_of(t.v, t.n)
                .map_or(false, |m| plan.is_local_of(m, t.v))
        })
        .map(|t| (t.v, t.n))
        .collect();
    let passed: Vec<(u64, u64)> = plan
        .mutexes
        .iter()
        .filter_map(|x| board.holder_of(x.m).map(|holder| (x, holder)))
        .filter(|(x, (v, _))| {
            x.owner == Owner::Local(*v)
                && waiters.iter().any(|w| w.0 == *v && w.1 > plan.ceiling(x.m))
        })
        .map(|(_, holder)| holder)
        .collect();
    let (v, n) = match chance.pick(&passed).copied() {
        Some(holder) if chance.percent(60) => holder,
        _ => some_task(chance, plan, board),
    };
    Event::Show { v, n }
}

/// Mostly a holder and its mutex.
fn free(chance: &mut Chance, plan: &Plan, board: &Board) -> Event {
    let held: Vec<(u64, u64, u64)> = (1..=MUTEXES)
        .filter_map(|m| board.holder_of(m).map(|(v, n)| (v, n, m)))
        .collect();
    match chance.pick(&held).copied() {
        Some((v, n, m)) if chance.percent(92) => Event::Free { v, n, m },
        _ => {
            let (v, n) = some_task(chance, plan, board);
            let m = chance.pick(&plan.mutexes).map_or(1, |x| x.m);
            Event::Free { v, n, m }
        }
    }
}

/// Ticks down to exactly nothing, one too many, or a few.
fn take(chance: &mut Chance, plan: &Plan, board: &Board) -> Event {
    let holders: Vec<u64> = plan
        .vcpus
        .iter()
        .map(|c| c.v)
        .filter(|v| board.holds_global(plan, *v))
        .collect();
    let v = match chance.pick(&holders).copied() {
        Some(v) if chance.percent(50) => v,
        _ => some_vcpu(chance, plan),
    };
    let supply = board.supply(plan, v);
    let left = board.budget_left(v);
    let t = match chance.below(8) {
        0 | 1 => left,
        2 => supply,
        3 => supply + 1,
        4 => left + 1,
        5 => chance.between(0, 2),
        _ => chance.between(1, (supply / 2).max(1)),
    };
    Event::Use {
        v,
        t: t.min(9_999_999),
    }
}

/// The whole budget of a VCPU with a waiter, which under P stops it before its lock comes.
fn drain(chance: &mut Chance, plan: &Plan, board: &Board) -> Event {
    let waiting: Vec<u64> = plan
        .tasks()
        .filter(|t| board.wait_of(t.v, t.n).map_or(false, |m| plan.is_global(m)))
        .map(|t| t.v)
        .filter(|v| board.budget_left(*v) > 0 && !board.holds_global(plan, *v))
        .collect();
    match chance.pick(&waiting).copied() {
        Some(v) => Event::Use {
            v,
            t: board.budget_left(v),
        },
        None => free(chance, plan, board),
    }
}

/// Mostly a VCPU that has no budget left.
fn top(chance: &mut Chance, plan: &Plan, board: &Board) -> Event {
    let spent: Vec<u64> = plan
        .vcpus
        .iter()
        .map(|c| c.v)
        .filter(|v| board.budget_left(*v) == 0)
        .collect();
    match chance.pick(&spent).copied() {
        Some(v) if chance.percent(70) => Event::Top { v },
        _ => Event::Top {
            v: some_vcpu(chance, plan),
        },
    }
}

/// An event that names what the plan may lack, or ticks out of range.
fn stray(chance: &mut Chance, plan: &Plan) -> Event {
    let odd = |chance: &mut Chance, top: u64| match chance.below(6) {
        0 => 0,
        1 => top + 1,
        2 => 9_999_999,
        _ => chance.between(1, top),
    };
    let v = if chance.percent(60) {
        some_vcpu(chance, plan)
    } else {
        odd(chance, VCPUS)
    };
    let n = odd(chance, PLACES);
    let m = odd(chance, MUTEXES);
    let t = odd(chance, TICKS);
    match chance.below(6) {
        0 | 1 => {
            // A task of the plan and a mutex it may not list.
            let task = chance.pick(&sheets(plan)).map_or((1, 1), |s| (s.0, s.1));
            let m = chance.pick(&plan.mutexes).map_or(m, |x| x.m);
            Event::Ask {
                v: task.0,
                n: task.1,
                m,
            }
        }
        2 => Event::Ask { v, n, m },
        3 => Event::Free { v, n, m },
        4 => Event::Use { v, t },
        _ => {
            if chance.percent(50) {
                Event::Show { v, n }
            } else {
                Event::Top { v }
            }
        }
    }
}

fn malformed(chance: &mut Chance, plan: &Plan, board: &Board) -> Vec<u8> {
    let good = match chance.below(3) {
        0 => ask(chance, plan, board),
        1 => free(chance, plan, board),
        _ => take(chance, plan, board),
    };
    let mut line = written(good);
    match chance.below(12) {
        0 => line.clear(),
        1 => line.push(b'\r'),
        2 => line.push(b'\t'),
        3 => line.extend_from_slice(b"\t1"),
        4 => {
            let at = line.iter().rposition(|b| *b == b'\t').unwrap_or(0);
            line.truncate(at);
        }
        5 => {
            let at = line.iter().position(|b| *b == b'\t').unwrap_or(0);
            line.insert(at, b'\t');
        }
        6 => {
            let at = line.iter().position(|b| *b == b'\t').unwrap_or(0);
            line.insert(at + 1, b'0');
        }
        7 => line.extend_from_slice(b"0000000"),
        8 => line.push(b'x'),
        9 => {
            if let Some(first) = line.first_mut() {
                first.make_ascii_uppercase();
            }
        }
        10 => {
            for b in line.iter_mut().filter(|b| **b == b'\t') {
                *b = b' ';
            }
        }
        _ => line.insert(0, chance.below(256) as u8),
    }
    line.retain(|b| *b != b'\n');
    line
}
