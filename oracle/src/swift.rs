//! The run of a plan on a clock, without its events, written for speed: what the plain clock is measured
//! by, and what a proved one is timed beside. It goes tick by tick as the plain one does, skips none, and
//! is held to it by a test.
//!
//! What the board of a run would show is kept as numbers and marks in fixed arrays, by VCPU (v - 1), by
//! task (in rising (v, n)) and by mutex (m - 1): nothing is lent or divided while the clock goes.

use crate::clock::Outcome;
use crate::figures::overrun;
use crate::limits::{LOCKS, MUTEXES, PLACES, TASKS, TICKS, TOP_CORE, VCPUS};
use crate::plan::{Overrun, Plan, Policy};

const V: usize = VCPUS as usize;
const N: usize = PLACES as usize;
const M: usize = MUTEXES as usize;
const CORES: usize = TOP_CORE as usize + 1;
const PIECES: usize = TASKS * (2 * LOCKS + 1);
/// The place of a piece that locks nothing.
const NONE: u8 = M as u8;

/// A stretch of a sheet that has a length, and the row of its mutex.
#[derive(Clone, Copy)]
struct Piece {
    mutex: u8,
    length: u32,
}

/// A task: where its sheet is, and what is left of its job.
#[derive(Clone, Copy)]
struct Row {
    v: u8,
    n: u8,
    /// It holds the mutex of the piece it is at.
    holds: bool,
    period: u32,
    first: u16,
    end: u16,
    at: u16,
    left: u32,
}

/// A VCPU; sets of its tasks are marks by n - 1.
#[derive(Clone, Copy)]
struct Seat {
    b: u32,
    o: u32,
    budget: u32,
    full: u32,
    period: u32,
    ready: u8,
    global_holders: u8,
    local_holders: u8,
    local_waiters: u8,
    /// By n - 1: the ceiling of the local mutex held, and the row of the local one waited for.
    ceiling: [u8; N],
    wanted: [u8; N],
    task: [u8; N],
}

/// A mutex: its users are marks by n - 1 for each v - 1.
#[derive(Clone, Copy)]
struct Latch {
    held: bool,
    global: bool,
    ceiling: u8,
    /// The VCPUs with a waiter.
    vcpus: u16,
    waiters: [u8; V],
}

struct Swift {
    pieces: [Piece; PIECES],
    rows: [Row; TASKS],
    seats: [Seat; V],
    latches: [Latch; M],
    cores: [u16; CORES],
    top_at: [u32; V],
    release_at: [u32; TASKS],
    tasks: usize,
    vcpus: u16,
    periodic: bool,
    overrun: bool,
    /// Sets of VCPUs by v - 1: b is not 0; o would count; a task is ready; a task holds a global mutex.
    has_b: u16,
    has_o: u16,
    ready: u16,
    holds: u16,
    /// Tasks whose job has length left.
    live: u64,
}

/// The number of the highest mark.
fn high16(marks: u16) -> usize {
    15 - (marks.leading_zeros() as usize & 15)
}

fn high8(marks: u8) -> usize {
    7 - (marks.leading_zeros() as usize & 7)
}

/// Runs an accepted plan from tick 0 to before the horizon, at most a million.
pub fn run(plan: &Plan, horizon: u64) -> Outcome {
    Swift::new(plan).run(horizon.min(TICKS) as u32, |_, _, _| {})
}

/// The same, and each VCPU's budget and overrun left at the end, by v - 1.
pub fn run_and_left(plan: &Plan, horizon: u64) -> (Outcome, [(u64, u64); V]) {
    let mut swift = Swift::new(plan);
    let outcome = swift.run(horizon.min(TICKS) as u32, |_, _, _| {});
    let left = swift.seats.map(|s| (u64::from(s.b), u64::from(s.o)));
    (outcome, left)
}

/// The jobs of a task that ended in a run.
#[derive(Clone, Copy, PartialEq, Eq, Debug, Default)]
pub struct Jobs {
    pub v: u64,
    pub n: u64,
    /// How many; those of no length are not counted.
    pub ended: u64,
    /// The longest time of one, from its release to the end of the tick of its last use, 0 if none.
    pub time: u64,
    /// The release of the first that took so long.
    pub release: u64,
}

/// The same, and the jobs of each task, (v, n) rising.
pub fn run_and_jobs(plan: &Plan, horizon: u64) -> (Outcome, Vec<Jobs>) {
    let mut swift = Swift::new(plan);
    let mut jobs: Vec<Jobs> = swift
        .rows
        .iter()
        .take(swift.tasks)
        .map(|row| Jobs {
            v: u64::from(row.v) + 1,
            n: u64::from(row.n) + 1,
            ..Jobs::default()
        })
        .collect();
    let outcome = swift.run(horizon.min(TICKS) as u32, |s, tick, mut ended| {
        while ended != 0 {
            let at = ended.trailing_zeros() as usize & 63;
            ended &= ended - 1;
            let release = s.release_at[at] - s.rows[at].period;
            let time = u64::from(tick + 1 - release);
            let job = &mut jobs[at];
            job.ended += 1;
            if time > job.time {
                job.time = time;
                job.release = u64::from(release);
            }
        }
    });
    (outcome, jobs)
}

impl Swift {
    fn new(plan: &Plan) -> Swift {
        let mut s = Swift {
            pieces: [Piece {
                mutex: NONE,
                length: 0,
            }; PIECES],
            rows: [Row {
                v: 0,
                n: 0,
                holds: false,
                period: 1,
                first: 0,
                end: 0,
                at: 0,
                left: 0,
            }; TASKS],
            seats: [Seat {
                b: 0,
                o: 0,
                budget: 0,
                full: 0,
                period: 1,
                ready: 0,
                global_holders: 0,
                local_holders: 0,
                local_waiters: 0,
                ceiling: [0; N],
                wanted: [0; N],
                task: [0; N],
            }; V],
            latches: [Latch {
                held: false,
                global: false,
                ceiling: 0,
                vcpus: 0,
                waiters: [0; V],
            }; M],
            cores: [0; CORES],
            top_at: [u32::MAX; V],
            release_at: [u32::MAX; TASKS],
            tasks: 0,
            vcpus: 0,
            periodic: plan.policy == Policy::Periodic,
            overrun: plan.overrun == Overrun::With,
            has_b: 0,
            has_o: 0,
            ready: 0,
            holds: 0,
            live: 0,
        };
        for vcpu in &plan.vcpus {
            let v = (vcpu.v - 1) as usize;
            s.vcpus |= 1 << v;
            s.cores[vcpu.core as usize] |= 1 << v;
            s.top_at[v] = 0;
            let seat = &mut s.seats[v];
            seat.budget = vcpu.budget as u32;
            seat.full = overrun(plan, vcpu.v) as u32;
            seat.period = vcpu.period as u32;
        }
        for x in &plan.mutexes {
            let latch = &mut s.latches[(x.m - 1) as usize];
            latch.global = plan.is_global(x.m);
            latch.ceiling = plan.ceiling(x.m) as u8;
        }
        let mut piece = 0;
        for (at, task) in plan.tasks_rising().into_iter().enumerate() {
            let first = piece;
            let mut add = |mutex: u8, length: u64| {
                if length > 0 {
                    s.pieces[piece] = Piece {
                        mutex,
                        length: length as u32,
                    };
                    piece += 1;
                }
            };
            add(NONE, task.first);
            for lock in &task.locks {
                add((lock.m - 1) as u8, lock.t);
                add(NONE, lock.run);
            }
            let (v, n) = ((task.v - 1) as usize, (task.n - 1) as usize);
            s.rows[at] = Row {
                v: v as u8,
                n: n as u8,
                holds: false,
                period: task.period as u32,
                first: first as u16,
                end: piece as u16,
                at: piece as u16,
                left: 0,
            };
            s.seats[v].task[n] = at as u8;
            s.release_at[at] = 0;
            s.tasks += 1;
        }
        s
    }

    /// `ended` is shown each tick and the jobs that ended in it, as marks.
    fn run(&mut self, horizon: u32, mut ended: impl FnMut(&Swift, u32, u64)) -> Outcome {
        let mut next_top = 0;
        let mut next_release = 0;
        for tick in 0..horizon {
            if tick == next_top {
                next_top = self.tops(tick);
            }
            if tick == next_release {
                match self.releases(tick) {
                    Ok(next) => next_release = next,
                    Err(row) => {
                        return Outcome::Missed {
                            tick: u64::from(tick),
                            v: u64::from(row.v) + 1,
                            n: u64::from(row.n) + 1,
                        }
                    }
                }
            }
            let live = self.live;
            for core in self.cores {
                if core != 0 {
                    self.turn(core);
                }
            }
            ended(self, tick, live & !self.live);
        }
        Outcome::Ended
    }

    /// The tops that are due; the tick of the next ones.
    fn tops(&mut self, tick: u32) -> u32 {
        let mut next = u32::MAX;
        let mut rest = self.vcpus;
        while rest != 0 {
            let v = high16(rest);
            rest &= !(1 << v);
            if self.top_at[v] == tick {
                let seat = &mut self.seats[v];
                seat.b = seat.budget;
                seat.o = seat.full;
                self.top_at[v] = tick + seat.period;
                self.has_b |= 1 << v;
                if self.overrun && seat.full > 0 {
                    self.has_o |= 1 << v;
                }
            }
            next = next.min(self.top_at[v]);
        }
        next
    }

    /// The releases that are due and the tick of the next ones, or the lowest task that is late.
    fn releases(&mut self, tick: u32) -> Result<u32, Row> {
        let mut due: u64 = 0;
        for (at, when) in self.release_at.iter().enumerate() {
            due |= u64::from(*when == tick) << at;
        }
        let late = due & self.live;
        if late != 0 {
            return Err(self.rows[late.trailing_zeros() as usize & 63]);
        }
        while due != 0 {
            let at = due.trailing_zeros() as usize & 63;
            due &= due - 1;
            let row = &mut self.rows[at];
            self.release_at[at] = tick + row.period;
            if row.first < row.end {
                row.at = row.first;
                row.left = self.pieces[row.first as usize].length;
                self.live |= 1 << at;
                let v = row.v as usize & 15;
                self.seats[v].ready |= 1 << (row.n & 7);
                self.ready |= 1 << v;
            }
        }
        let next = self.release_at.iter().take(self.tasks).min();
        Ok(next.copied().unwrap_or(u32::MAX))
    }

    #[inline]
    fn turn(&mut self, core: u16) {
        let mut picked = None;
        loop {
            let awake = core & self.ready & (self.has_b | (self.has_o & self.holds));
            if awake == 0 {
                break;
            }
            let raised = awake & self.holds;
            let v = high16(if raised != 0 { raised } else { awake });
            let at = self.highest(v);
            let row = &self.rows[at];
            let piece = self.pieces[row.at as usize];
            if piece.mutex == NONE || row.holds || self.ask(at, piece.mutex) {
                picked = Some((v, at, piece.mutex));
                break;
            }
        }
        if self.periodic {
            let mut idle = core & self.has_b & !self.ready;
            while idle != 0 {
                let v = high16(idle);
                idle &= !(1 << v);
                let seat = &mut self.seats[v];
                seat.b -= 1;
                if seat.b == 0 {
                    // it holds nothing, so it is stopped
                    self.has_b &= !(1 << v);
                    self.has_o &= !(1 << v);
                }
            }
        }
        if let Some((v, at, mutex)) = picked {
            self.work(v, at, mutex);
        }
    }

    /// The highest ready task of a VCPU that has one.
    #[inline]
    fn highest(&self, v: usize) -> usize {
        let seat = &self.seats[v];
        let n = if seat.global_holders != 0 {
            high8(seat.global_holders)
        } else {
            let mut best = high8(seat.ready);
            if seat.local_holders != 0 && seat.local_waiters != 0 {
                let mut high = best;
                let mut rest = seat.local_holders;
                while rest != 0 {
                    let n = high8(rest);
                    rest &= !(1 << n);
                    // the waiters not above the ceiling, which counts from 1
                    let below = ((1u16 << seat.ceiling[n]) - 1) as u8;
                    let raising = seat.local_waiters & below;
                    if raising != 0 && high8(raising) > high {
                        high = high8(raising);
                        best = n;
                    }
                }
            }
            best
        };
        seat.task[n] as usize & 63
    }

    /// Is it granted? Where it is not, the task waits.
    fn ask(&mut self, at: usize, mutex: u8) -> bool {
        let row = &mut self.rows[at];
        let (v, n) = (row.v as usize & 15, row.n as usize & 7);
        let m = mutex as usize & 31;
        let latch = &mut self.latches[m];
        let seat = &mut self.seats[v];
        let granted = if latch.global {
            !latch.held
        } else {
            n as u8 + 1 > ceiling_of(seat)
        };
        if granted {
            row.holds = true;
            self.grant(v, n, m);
            return true;
        }
        if latch.global {
            latch.vcpus |= 1 << v;
            latch.waiters[v] |= 1 << n;
        } else {
            seat.local_waiters |= 1 << n;
            seat.wanted[n] = mutex;
        }
        seat.ready &= !(1 << n);
        if seat.ready == 0 {
            self.ready &= !(1 << v);
        }
        false
    }

    fn grant(&mut self, v: usize, n: usize, m: usize) {
        let latch = &mut self.latches[m];
        let seat = &mut self.seats[v];
        latch.held = true;
        if latch.global {
            seat.global_holders |= 1 << n;
            self.holds |= 1 << v;
        } else {
            seat.local_holders |= 1 << n;
            seat.ceiling[n] = latch.ceiling;
        }
    }

    #[inline]
    fn work(&mut self, v: usize, at: usize, mutex: u8) {
        let seat = &mut self.seats[v];
        if seat.b > 0 {
            seat.b -= 1;
            if seat.b == 0 {
                self.has_b &= !(1 << v);
                self.stop(v);
            }
        } else {
            seat.o -= 1;
            if seat.o == 0 {
                self.has_o &= !(1 << v);
            }
        }
        let row = &mut self.rows[at];
        row.left -= 1;
        if row.left > 0 {
            return;
        }
        row.at += 1;
        let n = row.n as usize & 7;
        if row.at < row.end {
            row.left = self.pieces[row.at as usize].length;
        } else {
            self.live &= !(1 << at);
            let seat = &mut self.seats[v];
            seat.ready &= !(1 << n);
            if seat.ready == 0 {
                self.ready &= !(1 << v);
            }
        }
        if mutex != NONE {
            self.rows[at].holds = false;
            self.free(v, n, mutex as usize & 31);
        }
    }

    /// Under P a VCPU at b = 0 that holds no global mutex is stopped: its overrun counts no more.
    fn stop(&mut self, v: usize) {
        if self.periodic && (self.has_b | self.holds) & (1 << v) == 0 {
            self.has_o &= !(1 << v);
        }
    }

    fn free(&mut self, v: usize, n: usize, m: usize) {
        let latch = &mut self.latches[m];
        latch.held = false;
        let next = if latch.global {
            let seat = &mut self.seats[v];
            seat.global_holders &= !(1 << n);
            if seat.global_holders == 0 {
                self.holds &= !(1 << v);
            }
            if latch.vcpus == 0 {
                None
            } else {
                let to = high16(latch.vcpus);
                let place = high8(latch.waiters[to]);
                latch.waiters[to] &= !(1 << place);
                if latch.waiters[to] == 0 {
                    latch.vcpus &= !(1 << to);
                }
                Some((to, place, m))
            }
        } else {
            let seat = &mut self.seats[v];
            seat.local_holders &= !(1 << n);
            if seat.local_waiters == 0 {
                None
            } else {
                let place = high8(seat.local_waiters);
                if place as u8 + 1 > ceiling_of(seat) {
                    seat.local_waiters &= !(1 << place);
                    Some((v, place, seat.wanted[place] as usize & 31))
                } else {
                    None
                }
            }
        };
        if let Some((to, place, wanted)) = next {
            self.grant(to, place, wanted);
            let seat = &mut self.seats[to];
            seat.ready |= 1 << place;
            self.ready |= 1 << to;
            self.rows[seat.task[place] as usize & 63].holds = true;
        }
        self.stop(v);
    }
}

/// The highest ceiling of the local mutexes that are held, 0 where none is.
fn ceiling_of(seat: &Seat) -> u8 {
    let mut high = 0;
    let mut rest = seat.local_holders;
    while rest != 0 {
        let n = high8(rest);
        rest &= !(1 << n);
        high = high.max(seat.ceiling[n]);
    }
    high
}
