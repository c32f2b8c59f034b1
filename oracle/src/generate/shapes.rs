//! Plans that are accepted.

use super::Chance;
use crate::limits::{GUESTS, LOCKS, MUTEXES, PLACES, TASKS, TICKS, TOP_CORE, VCPUS};
use crate::plan::{Lock, Mutex, Open, Overrun, Owner, Plan, Policy, Section, Task, Vcpu};
use crate::verdict::{judge, Answer};

/// The sizes a random plan is drawn from; each pair is the least and the greatest.
#[derive(Clone, Debug)]
pub struct Shape {
    pub vcpus: (u64, u64),
    pub cores: u64,
    pub tasks: (u64, u64),
    pub globals: (u64, u64),
    pub locals: (u64, u64),
    pub locks: (u64, u64),
    pub vcpu_period: (u64, u64),
    /// Budget in percent of the period.
    pub share: (u64, u64),
    pub task_period: (u64, u64),
    pub run: (u64, u64),
    pub lock: (u64, u64),
    /// VCPUs without tasks, in percent.
    pub bare: u64,
    /// Guests a global mutex is opened to, in percent.
    pub opened: u64,
}

impl Shape {
    pub fn mixed() -> Shape {
        Shape {
            vcpus: (1, 6),
            cores: TOP_CORE + 1,
            tasks: (1, 4),
            globals: (0, 4),
            locals: (0, 4),
            locks: (0, 4),
            vcpu_period: (1, 1000),
            share: (1, 100),
            task_period: (1, 100_000),
            run: (0, 2000),
            lock: (1, 300),
            bare: 15,
            opened: 75,
        }
    }

    /// Small budgets and mutexes that many tasks share.
    pub fn board() -> Shape {
        Shape {
            vcpus: (1, 5),
            cores: 2,
            tasks: (1, 4),
            globals: (1, 3),
            locals: (0, 4),
            locks: (1, 4),
            vcpu_period: (5, 40),
            share: (10, 60),
            task_period: (10, 500),
            run: (0, 5),
            lock: (1, 5),
            bare: 5,
            opened: 95,
        }
    }
}

fn policy(chance: &mut Chance) -> (Policy, Overrun) {
    let policy = if chance.percent(50) {
        Policy::Periodic
    } else {
        Policy::Deferrable
    };
    let overrun = if chance.percent(50) {
        Overrun::With
    } else {
        Overrun::Without
    };
    (policy, overrun)
}

fn of(chance: &mut Chance, pair: (u64, u64)) -> u64 {
    chance.between(pair.0, pair.1)
}

/// Owners of the VCPUs in blocks, in turn, or in any pattern.
fn owners(chance: &mut Chance, count: u64) -> Vec<u64> {
    let guests = chance.between(1, GUESTS);
    let names = chance.some_of(1, GUESTS, guests);
    let pattern = chance.below(3);
    (0..count)
        .map(|i| {
            let at = match pattern {
                0 => i * guests / count.max(1),
                1 => i % guests,
                _ => chance.below(guests),
            };
            names.get(at as usize).copied().unwrap_or(1)
        })
        .collect()
}

/// A random plan of a shape.
pub fn draw(chance: &mut Chance, shape: &Shape) -> Plan {
    let (p, o) = policy(chance);
    let mut plan = Plan::empty(p, o);

    let count = of(chance, shape.vcpus);
    let owner = owners(chance, count);
    for (v, guest) in chance.some_of(1, VCPUS, count).into_iter().zip(owner) {
        let period = chance.spread(shape.vcpu_period.0, shape.vcpu_period.1);
        let share = of(chance, shape.share);
        plan.vcpus.push(Vcpu {
            v,
            guest,
            core: chance.below(shape.cores),
            budget: (period * share / 100).clamp(1, period),
            period,
        });
    }

    let globals = of(chance, shape.globals);
    let locals = of(chance, shape.locals);
    for m in chance.some_of(1, MUTEXES, globals + locals) {
        let local = chance.below(globals + locals) >= globals;
        let owner = match chance.pick(&plan.vcpus) {
            Some(vcpu) if local => Owner::Local(vcpu.v),
            _ => Owner::Global,
        };
        plan.mutexes.push(Mutex { m, owner });
    }
    for mutex in plan.mutexes.clone() {
        for guest in 1..=GUESTS {
            if mutex.owner == Owner::Global
                && plan.guest_has_vcpu(guest)
                && chance.percent(shape.opened)
            {
                plan.opens.push(Open { m: mutex.m, guest });
            }
        }
    }

    add_sections(chance, shape, &mut plan);
    plan
}

fn add_sections(chance: &mut Chance, shape: &Shape, plan: &mut Plan) {
    let mut room = TASKS as u64;
    for guest in 1..=GUESTS {
        let mut tasks = Vec::new();
        for vcpu in plan.vcpus.clone() {
            if vcpu.guest != guest || chance.percent(shape.bare) {
                continue;
            }
            let count = of(chance, shape.tasks).min(room);
            room -= count;
            for n in chance.some_of(1, PLACES, count) {
                tasks.push(task(chance, shape, plan, &vcpu, n));
            }
        }
        if !tasks.is_empty() {
            plan.sections.push(Section { guest, tasks });
        }
    }
    if plan.sections.is_empty() {
        if let Some(vcpu) = plan.vcpus.first().cloned() {
            let n = chance.between(1, PLACES);
            let only = task(chance, shape, plan, &vcpu, n);
            plan.sections.push(Section {
                guest: vcpu.guest,
                tasks: vec![only],
            });
        }
    }
}

/// The mutexes that tasks of a VCPU may lock.
pub fn within(plan: &Plan, vcpu: &Vcpu) -> Vec<u64> {
    plan.mutexes
        .iter()
        .filter(|x| match x.owner {
            Owner::Global => plan.is_open(x.m, vcpu.guest),
            Owner::Local(v) => v == vcpu.v,
        })
        .map(|x| x.m)
        .collect()
}

fn task(chance: &mut Chance, shape: &Shape, plan: &Plan, vcpu: &Vcpu, n: u64) -> Task {
    let within = within(plan, vcpu);
    let count = if within.is_empty() {
        0
    } else {
        of(chance, shape.locks).min(LOCKS as u64)
    };
    let mut locks = Vec::new();
    for _ in 0..count {
        if let Some(m) = chance.pick(&within) {
            locks.push(Lock {
                m: *m,
                t: chance.spread(shape.lock.0, shape.lock.1),
                run: chance.spread(shape.run.0, shape.run.1),
            });
        }
    }
    Task {
        v: vcpu.v,
        n,
        period: chance.spread(shape.task_period.0, shape.task_period.1),
        first: chance.spread(shape.run.0, shape.run.1),
        locks,
    }
}

/// The plan of a valid kind, None for other kinds.
pub fn valid(chance: &mut Chance, kind: &str) -> Option<Plan> {
    let plan = match kind {
        "minimal" => minimal(chance),
        "mixed" => draw(chance, &Shape::mixed()),
        "edge" => edge(chance),
        "locals" => locals(chance),
        "stalls" => stalls(chance),
        "zero" => zero(chance),
        "slow" => {
            let limit = if chance.one_in(40) {
                chance.between(60_000, TICKS)
            } else {
                chance.between(500, 60_000)
            };
            slow(chance, limit)
        }
        "slowest" => {
            let limit = chance.between(900_000, TICKS);
            slow(chance, limit)
        }
        "huge" => huge(chance),
        "wrap" => wrap(chance),
        "full" => full(chance),
        _ => return None,
    };
    Some(plan)
}

fn minimal(chance: &mut Chance) -> Plan {
    draw(
        chance,
        &Shape {
            vcpus: (1, 1),
            tasks: (1, 1),
            globals: (0, 1),
            locals: (0, 1),
            locks: (0, 1),
            vcpu_period: (1, 4),
            task_period: (1, 12),
            run: (0, 3),
            lock: (1, 2),
            bare: 0,
            ..Shape::mixed()
        },
    )
}

/// Moderate loads; then one task's period is set to its w, to w - 1 or near it.
fn edge(chance: &mut Chance) -> Plan {
    let run = chance.between(10, 300);
    let cores = chance.between(1, TOP_CORE + 1);
    let longest = chance.between(1000, 6000);
    let shape = Shape {
        vcpus: (1, 5),
        cores,
        tasks: (1, 3),
        globals: (0, 3),
        locals: (0, 3),
        locks: (0, 3),
        vcpu_period: (8, 120),
        share: (15, 50),
        task_period: (100, 8000),
        run: (run / 4, run),
        lock: (1, 5),
        bare: 10,
        ..Shape::mixed()
    };
    let mut plan = draw(chance, &shape);
    for t in plan.sections.iter_mut().flat_map(|s| s.tasks.iter_mut()) {
        t.period = chance.between(100, longest);
    }
    for _ in 0..chance.below(4) {
        sharpen(chance, &mut plan);
    }
    plan
}

/// Sets a task's period beside its answer or its wait's, or a VCPU's beside its answer.
fn sharpen(chance: &mut Chance, plan: &mut Plan) {
    let verdict = judge(plan);
    let choice = chance.below(10);
    if choice < 7 {
        let fitting: Vec<(u64, u64, u64)> = if choice < 5 {
            verdict
                .tasks
                .iter()
                .filter_map(|r| match r.answer {
                    Answer::Fits(w) => Some((r.v, r.n, w)),
                    _ => None,
                })
                .collect()
        } else {
            verdict
                .waits
                .iter()
                .filter_map(|r| r.ticks.map(|ticks| (r.v, r.n, ticks)))
                .collect()
        };
        if let Some((v, n, w)) = chance.pick(&fitting).copied() {
            let period = (w + chance.below(3)).saturating_sub(1).clamp(1, TICKS);
            for t in plan.sections.iter_mut().flat_map(|s| s.tasks.iter_mut()) {
                if (t.v, t.n) == (v, n) {
                    t.period = period;
                }
            }
        }
    } else {
        let fitting: Vec<(u64, u64)> = verdict
            .vcpus
            .iter()
            .filter_map(|r| match r.answer {
                Answer::Fits(w) => Some((r.v, w)),
                _ => None,
            })
            .collect();
        if let Some((v, w)) = chance.pick(&fitting).copied() {
            let period = (w + chance.below(3)).saturating_sub(1);
            for c in plan.vcpus.iter_mut().filter(|c| c.v == v) {
                c.period = period.clamp(c.budget, TICKS);
            }
        }
    }
}

fn locals(chance: &mut Chance) -> Plan {
    draw(
        chance,
        &Shape {
            vcpus: (1, 3),
            tasks: (2, 8),
            globals: (0, 2),
            locals: (2, 8),
            locks: (1, 5),
            vcpu_period: (5, 60),
            share: (30, 100),
            task_period: (200, 20_000),
            run: (0, 6),
            lock: (1, 9),
            ..Shape::mixed()
        },
    )
}

/// Short periods beside long sections: waits without an answer.
fn stalls(chance: &mut Chance) -> Plan {
    let shape = Shape {
        vcpus: (2, 5),
        tasks: (1, 5),
        globals: (1, 3),
        locals: (0, 2),
        locks: (0, 3),
        vcpu_period: (4, 60),
        share: (20, 100),
        task_period: (200, 20_000),
        run: (0, 8),
        lock: (1, 6),
        opened: 90,
        bare: 5,
        ..Shape::mixed()
    };
    let mut plan = draw(chance, &shape);
    for t in plan.sections.iter_mut().flat_map(|s| s.tasks.iter_mut()) {
        t.period = if chance.percent(15) {
            chance.between(1, 40)
        } else {
            chance.between(500, 20_000)
        };
    }
    plan
}

fn zero(chance: &mut Chance) -> Plan {
    let locks = u64::from(chance.percent(30));
    let run = u64::from(chance.percent(30));
    draw(
        chance,
        &Shape {
            tasks: (1, 3),
            globals: (0, 1),
            locals: (0, 1),
            locks: (0, locks),
            share: (20, 100),
            run: (0, run),
            bare: 40,
            ..Shape::mixed()
        },
    )
}

fn vcpu(v: u64, guest: u64, core: u64, budget: u64, period: u64) -> Vcpu {
    Vcpu {
        v,
        guest,
        core,
        budget,
        period,
    }
}

fn plain_task(v: u64, n: u64, period: u64, first: u64) -> Task {
    Task {
        v,
        n,
        period,
        first,
        locks: Vec::new(),
    }
}

/// A task of one VCPU that locks m `times` times for t ticks each, never running.
fn locking_task(v: u64, n: u64, period: u64, m: u64, t: u64, times: u64) -> Task {
    Task {
        v,
        n,
        period,
        first: 0,
        locks: (0..times).map(|_| Lock { m, t, run: 0 }).collect(),
    }
}

/// One guest per VCPU, in order; mutex m global and opened to all of them.
fn with_global(policy: Policy, overrun: Overrun, m: u64, vcpus: Vec<(Vcpu, Vec<Task>)>) -> Plan {
    let mut plan = Plan::empty(policy, overrun);
    plan.mutexes.push(Mutex {
        m,
        owner: Owner::Global,
    });
    for (c, tasks) in vcpus {
        plan.opens.push(Open { m, guest: c.guest });
        plan.sections.push(Section {
            guest: c.guest,
            tasks,
        });
        plan.vcpus.push(c);
    }
    plan
}

/// Recurrences that climb slowly towards `limit`.
fn slow(chance: &mut Chance, limit: u64) -> Plan {
    let (p, o) = policy(chance);
    match chance.below(4) {
        0 => {
            // The higher VCPU takes the whole core, so each round adds the lower budget.
            let period = chance.between(1, 3);
            let low = vcpu(1, 1, 0, chance.between(1, 3).min(limit), limit);
            let high = vcpu(2, 2, 0, period, period);
            let idle = |v| vec![plain_task(v, 1, 10, 0)];
            with_global(p, o, 1, vec![(low, idle(1)), (high, idle(2))])
        }
        1 => {
            // The higher VCPU leaves almost nothing of the core.
            let period = chance.between(20, 200);
            let low = vcpu(3, 1, 1, chance.between(1, 40).min(limit), limit);
            let high = vcpu(5, 3, 1, period - 1, period);
            let higher = vcpu(9, 4, 1, 1, chance.between(period * period, TICKS));
            let idle = |v| vec![plain_task(v, 2, 10, 0)];
            with_global(
                p,
                o,
                7,
                vec![(low, idle(3)), (high, idle(5)), (higher, idle(9))],
            )
        }
        2 => {
            // Half of the time is the gap's; the higher task takes nearly the other half.
            let period = 2 * chance.between(5, 60);
            let c = vcpu(4, 2, 3, 1, 2);
            let high = plain_task(4, 7, period, period / 2 - chance.between(0, 1));
            let low = plain_task(4, 3, limit, chance.between(0, 40));
            with_global(p, o, 2, vec![(c, vec![low, high])])
        }
        _ => {
            // A higher task of period 1 with a section of response 1.
            let low = vcpu(1, 1, 0, 1, 1);
            let high = vcpu(2, 2, 1, 1, 1);
            let waiting = locking_task(1, 1, limit, 3, 1, 1);
            let asking = locking_task(2, 1, chance.between(1, 2), 3, 1, 1);
            with_global(p, o, 3, vec![(low, vec![waiting]), (high, vec![asking])])
        }
    }
}

/// Long sections on tiny budgets above waiters with long periods.
fn huge(chance: &mut Chance) -> Plan {
    let mut vcpus = Vec::new();
    let waiters = chance.between(1, 2);
    for i in 0..waiters {
        let c = vcpu(1 + i, 1 + i, i, 1, 1);
        let mut tasks = Vec::new();
        for n in 1..=chance.between(1, 3) {
            let t = chance.between(1, 900_000);
            let period = chance.between(900_000, TICKS);
            tasks.push(locking_task(c.v, n, period, 5, t, chance.between(1, 2)));
        }
        vcpus.push((c, tasks));
    }
    for i in waiters..GUESTS {
        let period = chance.between(500_000, TICKS);
        let c = vcpu(3 + 3 * i, 1 + i, i % 4, 1, period);
        let mut tasks = Vec::new();
        for n in 1..=PLACES {
            let t = chance.between(500_000, TICKS);
            let pace = if chance.percent(80) { 1 } else { 7 };
            tasks.push(locking_task(c.v, n, pace, 5, t, chance.between(1, 8)));
        }
        vcpus.push((c, tasks));
    }
    let p = policy(chance).0;
    with_global(p, Overrun::Without, 5, vcpus)
}

/// A wait whose demand at its start is the start plus 2^64 exactly, or beside it.
///
/// With budget 1 a response is load * period, so the k-th task from the top of the high
/// VCPU has response k * 2^b * 2^a; its locks are counted so that the sum is 2^(a+b+d).
/// At t = 2^c - 1 and period 1 each counts 2^c times, and a + b + c + d = 64.
fn wrap(chance: &mut Chance) -> Plan {
    let choices = [
        (19, 19, 19, 7),
        (19, 19, 18, 8),
        (19, 18, 19, 8),
        (18, 19, 19, 8),
    ];
    let (a, b, c, d) = chance.pick(&choices).copied().unwrap_or((19, 19, 19, 7));
    let start = (1u64 << c) - 1;
    let off = if chance.percent(70) {
        0
    } else {
        chance.below(3)
    };
    let low = vcpu(chance.between(1, 5), 1, 0, 1, 1);
    let middle = vcpu(chance.between(6, 10), 2, 1, 1, 1);
    let high = vcpu(
        chance.between(11, VCPUS),
        3,
        chance.between(1, TOP_CORE),
        1,
        1 << a,
    );
    let first = locking_task(low.v, 1, TICKS, 9, start + off, 1);
    let mut waiting = Vec::new();
    for n in 1..=chance.between(1, 3) {
        let period = chance.between(start + off, TICKS);
        waiting.push(locking_task(middle.v, n, period, 9, 1, 1));
    }
    let mut rest = (1u64 << d) - (1..=PLACES).sum::<u64>();
    let mut asking = Vec::new();
    for k in (1..=PLACES).rev() {
        let more = (rest / k).min(LOCKS as u64 - 1);
        rest -= more * k;
        let n = PLACES + 1 - k;
        asking.push(locking_task(high.v, n, 1, 9, 1 << b, 1 + more));
    }
    let p = policy(chance).0;
    with_global(
        p,
        Overrun::Without,
        9,
        vec![(low, vec![first]), (middle, waiting), (high, asking)],
    )
}

/// 64 tasks, most with 8 locks.
fn full(chance: &mut Chance) -> Plan {
    let wide = chance.percent(50);
    let large = chance.percent(25);
    let shape = Shape {
        vcpus: if wide { (16, 16) } else { (9, 12) },
        tasks: if wide { (4, 8) } else { (8, 8) },
        globals: (2, 16),
        locals: (4, 16),
        locks: (7, 8),
        vcpu_period: if large { (1, TICKS) } else { (2, 50) },
        share: if large { (5, 100) } else { (40, 100) },
        task_period: (1, TICKS),
        run: if large { (0, TICKS) } else { (0, 3) },
        lock: if large { (1, TICKS) } else { (1, 3) },
        bare: 0,
        ..Shape::mixed()
    };
    let mut plan = draw(chance, &shape);
    if !large {
        let least = chance.spread(100, 400_000);
        for t in plan.sections.iter_mut().flat_map(|s| s.tasks.iter_mut()) {
            t.period = chance.between(least, least + 200_000);
            t.first = chance.spread(0, least / 10);
        }
    }
    plan
}
