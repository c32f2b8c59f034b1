//! The lock board: its state, its events and the conditions it keeps.

use crate::figures::overrun;
use crate::limits::{MUTEXES, PLACES, TICKS, VCPUS};
use crate::plan::{Overrun, Owner, Plan, Policy};

pub const RANGE: u32 = 3;
pub const UNKNOWN: u32 = 10;
pub const UNLISTED: u32 = 11;
pub const ASLEEP: u32 = 12;
pub const BUSY: u32 = 13;
pub const NOT_HOLDER: u32 = 14;
pub const SUPPLY: u32 = 15;

/// Rows for every VCPU, task and mutex number, those of the plan or not.
#[derive(Clone, PartialEq, Eq, Debug)]
pub struct Board {
    /// Budget left, by v - 1.
    pub b: [u64; VCPUS as usize],
    /// Overrun left, by v - 1.
    pub o: [u64; VCPUS as usize],
    /// The stopped marks, by v - 1.
    pub stopped: [bool; VCPUS as usize],
    /// The task (v, n) holding a mutex, by m - 1.
    pub holder: [Option<(u64, u64)>; MUTEXES as usize],
    /// The mutex a task waits for, 0 if none, by v - 1 and n - 1.
    pub waits: [[u64; PLACES as usize]; VCPUS as usize],
}

#[derive(Clone, Copy, PartialEq, Eq, Debug)]
pub enum Event {
    Ask { v: u64, n: u64, m: u64 },
    Free { v: u64, n: u64, m: u64 },
    Use { v: u64, t: u64 },
    Top { v: u64 },
    Show { v: u64, n: u64 },
}

#[derive(Clone, Copy, PartialEq, Eq, Debug)]
pub enum Reply {
    Granted,
    Waits,
    Freed(Option<(u64, u64)>),
    Left { b: u64, o: u64 },
    Show { task: u64, vcpu: u64 },
    Refused(u32),
}

/// The row of a number counted from 1; beyond every table for 0.
fn row(number: u64) -> usize {
    usize::try_from(number.wrapping_sub(1)).unwrap_or(usize::MAX)
}

impl Board {
    /// At first b = budget, o = O, no mark, holder or wait.
    pub fn fresh(plan: &Plan) -> Board {
        let mut board = Board {
            b: [0; VCPUS as usize],
            o: [0; VCPUS as usize],
            stopped: [false; VCPUS as usize],
            holder: [None; MUTEXES as usize],
            waits: [[0; PLACES as usize]; VCPUS as usize],
        };
        for vcpu in &plan.vcpus {
            board.set_left(vcpu.v, vcpu.budget, overrun(plan, vcpu.v));
        }
        board
    }

    pub fn budget_left(&self, v: u64) -> u64 {
        self.b.get(row(v)).copied().unwrap_or(0)
    }

    pub fn overrun_left(&self, v: u64) -> u64 {
        self.o.get(row(v)).copied().unwrap_or(0)
    }

    pub fn is_stopped(&self, v: u64) -> bool {
        self.stopped.get(row(v)).copied().unwrap_or(false)
    }

    pub fn holder_of(&self, m: u64) -> Option<(u64, u64)> {
        self.holder.get(row(m)).copied().flatten()
    }

    /// The mutex that task (v, n) waits for.
    pub fn wait_of(&self, v: u64, n: u64) -> Option<u64> {
        self.waits
            .get(row(v))
            .and_then(|places| places.get(row(n)))
            .copied()
            .filter(|m| *m != 0)
    }

    fn set_left(&mut self, v: u64, b: u64, o: u64) {
        if let Some(place) = self.b.get_mut(row(v)) {
            *place = b;
        }
        if let Some(place) = self.o.get_mut(row(v)) {
            *place = o;
        }
    }

    fn set_stopped(&mut self, v: u64, mark: bool) {
        if let Some(place) = self.stopped.get_mut(row(v)) {
            *place = mark;
        }
    }

    fn set_holder(&mut self, m: u64, holder: Option<(u64, u64)>) {
        if let Some(place) = self.holder.get_mut(row(m)) {
            *place = holder;
        }
    }

    fn set_wait(&mut self, v: u64, n: u64, m: u64) {
        if let Some(place) = self
            .waits
            .get_mut(row(v))
            .and_then(|places| places.get_mut(row(n)))
        {
            *place = m;
        }
    }

    /// The mutexes that task (v, n) holds.
    fn held_by(&self, v: u64, n: u64) -> Vec<u64> {
        (1..=MUTEXES)
            .filter(|m| self.holder_of(*m) == Some((v, n)))
            .collect()
    }

    /// A task of v holds a global mutex.
    pub fn holds_global(&self, plan: &Plan, v: u64) -> bool {
        (1..=MUTEXES).any(|m| {
            plan.is_global(m) && self.holder_of(m).map_or(false, |(holder, _)| holder == v)
        })
    }

    /// b, plus o under policy O while v's tasks hold a global mutex and v is not stopped.
    pub fn supply(&self, plan: &Plan, v: u64) -> u64 {
        let open =
            plan.overrun == Overrun::With && self.holds_global(plan, v) && !self.is_stopped(v);
        self.budget_left(v)
            .saturating_add(if open { self.overrun_left(v) } else { 0 })
    }

    /// n is above the ceiling of every local mutex of v held by other tasks.
    pub fn passes(&self, plan: &Plan, v: u64, n: u64) -> bool {
        plan.mutexes
            .iter()
            .filter(|x| x.owner == Owner::Local(v))
            .filter(|x| self.holder_of(x.m).map_or(false, |h| h != (v, n)))
            .all(|x| n > plan.ceiling(x.m))
    }

    /// The task numbers of v that wait for a local mutex.
    fn local_waiters(&self, plan: &Plan, v: u64) -> Vec<u64> {
        (1..=PLACES)
            .filter(|n| {
                self.wait_of(v, *n)
                    .map_or(false, |m| plan.is_local_of(m, v))
            })
            .collect()
    }

    /// The tasks waiting for m.
    fn waiters(&self, m: u64) -> Vec<(u64, u64)> {
        let mut out = Vec::new();
        for v in 1..=VCPUS {
            for n in 1..=PLACES {
                if self.wait_of(v, n) == Some(m) {
                    out.push((v, n));
                }
            }
        }
        out
    }

    /// The rule of P that sets a mark: b = 0 and no global mutex held by v's own tasks.
    fn must_stop(&self, plan: &Plan, v: u64) -> bool {
        plan.policy == Policy::Periodic && self.budget_left(v) == 0 && !self.holds_global(plan, v)
    }

    /// One event; a refused one leaves the board as it was.
    pub fn apply(&mut self, plan: &Plan, event: Event) -> Reply {
        let done = match event {
            Event::Ask { v, n, m } => self.ask(plan, v, n, m),
            Event::Free { v, n, m } => self.free(plan, v, n, m),
            Event::Use { v, t } => self.take(plan, v, t),
            Event::Top { v } => self.top(plan, v),
            Event::Show { v, n } => self.show(plan, v, n),
        };
        match done {
            Ok(reply) => {
                for vcpu in &plan.vcpus {
                    if self.must_stop(plan, vcpu.v) {
                        self.set_stopped(vcpu.v, true);
                    }
                }
                reply
            }
            Err(number) => Reply::Refused(number),
        }
    }

    fn ask(&mut self, plan: &Plan, v: u64, n: u64, m: u64) -> Result<Reply, u32> {
        let task = plan.task(v, n).ok_or(UNKNOWN)?;
        let mutex = plan.mutex(m).ok_or(UNKNOWN)?;
        if !task.lists(m) {
            return Err(UNLISTED);
        }
        if self.supply(plan, v) == 0 {
            return Err(ASLEEP);
        }
        if self.wait_of(v, n).is_some() || !self.held_by(v, n).is_empty() {
            return Err(BUSY);
        }
        let granted = match mutex.owner {
            Owner::Global => self.holder_of(m).is_none(),
            Owner::Local(_) => self.passes(plan, v, n),
        };
        if granted {
            self.set_holder(m, Some((v, n)));
            Ok(Reply::Granted)
        } else {
            self.set_wait(v, n, m);
            Ok(Reply::Waits)
        }
    }

    fn free(&mut self, plan: &Plan, v: u64, n: u64, m: u64) -> Result<Reply, u32> {
        plan.task(v, n).ok_or(UNKNOWN)?;
        let mutex = plan.mutex(m).ok_or(UNKNOWN)?;
        if self.holder_of(m) != Some((v, n)) {
            return Err(NOT_HOLDER);
        }
        self.set_holder(m, None);
        let next = match mutex.owner {
            Owner::Global => self.waiters(m).into_iter().max(),
            Owner::Local(home) => self
                .local_waiters(plan, home)
                .into_iter()
                .max()
                .filter(|high| self.passes(plan, home, *high))
                .map(|high| (home, high)),
        };
        if let Some((to_v, to_n)) = next {
            if let Some(wanted) = self.wait_of(to_v, to_n) {
                self.set_holder(wanted, next);
                self.set_wait(to_v, to_n, 0);
            }
        }
        Ok(Reply::Freed(next))
    }

    fn take(&mut self, plan: &Plan, v: u64, t: u64) -> Result<Reply, u32> {
        plan.vcpu(v).ok_or(UNKNOWN)?;
        if !(1..=TICKS).contains(&t) {
            return Err(RANGE);
        }
        let supply = self.supply(plan, v);
        if supply == 0 {
            return Err(ASLEEP);
        }
        if t > supply {
            return Err(SUPPLY);
        }
        let (b, o) = (self.budget_left(v), self.overrun_left(v));
        let from_b = t.min(b);
        let from_o = t - from_b;
        self.set_left(v, b - from_b, o.saturating_sub(from_o));
        Ok(self.left(v))
    }

    fn top(&mut self, plan: &Plan, v: u64) -> Result<Reply, u32> {
        let vcpu = plan.vcpu(v).ok_or(UNKNOWN)?;
        self.set_left(v, vcpu.budget, overrun(plan, v));
        self.set_stopped(v, false);
        Ok(self.left(v))
    }

    fn left(&self, v: u64) -> Reply {
        Reply::Left {
            b: self.budget_left(v),
            o: self.overrun_left(v),
        }
    }

    /// What a `show` answers; it changes nothing.
    pub fn show(&self, plan: &Plan, v: u64, n: u64) -> Result<Reply, u32> {
        plan.task(v, n).ok_or(UNKNOWN)?;
        let held = self.held_by(v, n);
        let task = if held.iter().any(|m| plan.is_global(*m)) {
            8 + n
        } else {
            let ceiling = held.iter().map(|m| plan.ceiling(*m)).max().unwrap_or(0);
            self.local_waiters(plan, v)
                .into_iter()
                .filter(|waiter| *waiter <= ceiling)
                .fold(n, u64::max)
        };
        let vcpu = if self.holds_global(plan, v) {
            16 + v
        } else {
            v
        };
        Ok(Reply::Show { task, vcpu })
    }
}

/// The conditions for 9: true of every board that events make from a fresh one.
pub fn good(plan: &Plan, board: &Board) -> bool {
    (1..=VCPUS).all(|v| good_vcpu(plan, board, v))
        && (1..=VCPUS).all(|v| (1..=PLACES).all(|n| good_task(plan, board, v, n)))
        && (1..=MUTEXES).all(|m| good_mutex(plan, board, m))
}

fn good_vcpu(plan: &Plan, board: &Board, v: u64) -> bool {
    let (b, o) = (board.budget_left(v), board.overrun_left(v));
    let stopped = board.is_stopped(v);
    match plan.vcpu(v) {
        None => b == 0 && o == 0 && !stopped,
        Some(vcpu) => {
            let full = overrun(plan, v);
            b <= vcpu.budget
                && o <= full
                && (o == full || b == 0)
                && (!stopped || (plan.policy == Policy::Periodic && b == 0))
                && (stopped || !board.must_stop(plan, v))
        }
    }
}

fn good_task(plan: &Plan, board: &Board, v: u64, n: u64) -> bool {
    let held = board.held_by(v, n);
    let wait = board.wait_of(v, n);
    match plan.task(v, n) {
        None => held.is_empty() && wait.is_none(),
        Some(task) => {
            let waits_well = match wait {
                None => true,
                Some(m) if plan.is_global(m) => board.holder_of(m).map_or(false, |h| h != (v, n)),
                Some(_) => !board.passes(plan, v, n),
            };
            held.len() + usize::from(wait.is_some()) <= 1
                && held.iter().chain(wait.iter()).all(|m| task.lists(*m))
                && waits_well
        }
    }
}

fn good_mutex(plan: &Plan, board: &Board, m: u64) -> bool {
    match board.holder_of(m) {
        None => true,
        Some((v, n)) => {
            plan.mutex(m).is_some() && plan.task(v, n).map_or(false, |task| task.lists(m))
        }
    }
}
