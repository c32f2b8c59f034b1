//! A plan run on a clock, document 02 (i): plain steps, each one written as its sentence says.
//!
//! The order of a tick: `top` of every VCPU whose period begins, v rising; job releases; cores 0 to 3.
//! A core's turn: it picks, and makes the asks that are due, until a picked task need not wait; then,
//! under P, the losses of its idle VCPUs, v rising; then the use of the picked task; then its `free`.
//!
//! Where the text leaves a doubt, this is how it is read:
//!
//! - "Start every VCPU and task at tick 0", and 0 is a multiple of every period: tick 0 is a tick like
//!   any other, with a `top` of every VCPU and a release of every task. Those `top` events change nothing
//!   on a fresh board; they are steps of the run all the same.
//! - "Asks due": a task can ask only when it is picked, since nobody else runs. So the ask that is due is
//!   the picked task's, where its next tick is the first of a section that it does not hold already. A
//!   task that was handed its mutex holds it and asks no more.
//! - "a wait means picking again": the core starts over with all its VCPUs. A grant picks nobody else: it
//!   raises the one that was picked and lowers none.
//! - "Ready": the task has a job with length left, and waits for no mutex. Whether its VCPU is awake is a
//!   question of its own, so a VCPU with a ready task that is not its turn keeps its budget.
//! - "a VCPU with budget": b above 0. It has no ready task, so it holds nothing and its supply is b.
//! - "after the pick": after the last one of that turn, so a VCPU whose only ready task has just been
//!   told to wait loses a tick; and a core that picks nobody has made its pick as well. A lock handed on by
//!   a lower core in the same tick has made its task ready by then; one handed on by a higher core, or by
//!   the same core's use, comes too late.
//! - "A job with no length left ends at once": from the moment on when what is left of its lengths is 0,
//!   at its release or with its last tick. A section's `free` belongs to its last tick, so nothing is
//!   held by a job that has ended.
//! - "unfinished when its next is released": all jobs due in the tick are judged before one is replaced,
//!   and before anything of the cores; the `top` events of that tick have been made. The releases of the
//!   horizon's own tick are not judged, since the run ends before that tick.

use crate::board::{Board, Event, Reply};
use crate::events::{event_text, reply_text};
use crate::limits::{INPUT_BYTES, TICKS, TOP_CORE};
use crate::plan::{Plan, Policy, Task};
use crate::reading::{cut_line, numbers, read, RANGE, SHAPE};
use crate::verdict::{refused, TOO_LONG};

/// How a run came to its end.
#[derive(Clone, Copy, PartialEq, Eq, Debug)]
pub enum Outcome {
    /// Before the tick of the horizon.
    Ended,
    /// The job of (v, n) was unfinished at this tick, when its next was released.
    Missed { tick: u64, v: u64, n: u64 },
}

/// One board event of a run and its answer.
#[derive(Clone, Copy, PartialEq, Eq, Debug)]
pub struct Step {
    pub tick: u64,
    pub event: Event,
    pub reply: Reply,
    /// A `use` by which an idle VCPU loses its budget.
    pub idle: bool,
}

/// A stretch of a task's sheet: a run, or a section on a mutex.
#[derive(Clone, Copy, PartialEq, Eq, Debug)]
struct Piece {
    mutex: Option<u64>,
    /// The ticks of the job before it, and with it.
    from: u64,
    to: u64,
}

/// The sheet of a task, piece by piece; pieces of no length are left out.
fn sheet(task: &Task) -> Vec<Piece> {
    let mut lengths = vec![(None, task.first)];
    for lock in &task.locks {
        lengths.push((Some(lock.m), lock.t));
        lengths.push((None, lock.run));
    }
    let mut pieces = Vec::new();
    let mut from = 0;
    for (mutex, length) in lengths {
        if length > 0 {
            pieces.push(Piece {
                mutex,
                from,
                to: from + length,
            });
        }
        from += length;
    }
    pieces
}

/// A task and how many ticks its job has run; all of them where the job has ended.
struct Job<'a> {
    task: &'a Task,
    pieces: Vec<Piece>,
    ran: u64,
}

impl Job<'_> {
    /// The piece that the job's next tick belongs to; None where it has no length left.
    fn piece(&self) -> Option<Piece> {
        self.pieces.iter().copied().find(|p| self.ran < p.to)
    }

    fn has_ended(&self) -> bool {
        self.piece().is_none()
    }
}

struct Clock<'a> {
    plan: &'a Plan,
    board: Board,
    /// (v, n) rising.
    jobs: Vec<Job<'a>>,
    tick: u64,
    seen: &'a mut dyn FnMut(Step),
    ended: &'a mut dyn FnMut(u64, &Task),
}

/// Runs an accepted plan from tick 0 to before the horizon, and shows every board event.
pub fn run(plan: &Plan, horizon: u64, seen: &mut dyn FnMut(Step)) -> Outcome {
    run_and_ends(plan, horizon, seen, &mut |_, _| {})
}

/// The same, and shows for every job with a length the tick of its last use, and its task.
pub fn run_and_ends(
    plan: &Plan,
    horizon: u64,
    seen: &mut dyn FnMut(Step),
    ended: &mut dyn FnMut(u64, &Task),
) -> Outcome {
    let jobs = plan
        .tasks_rising()
        .into_iter()
        .map(|task| Job {
            task,
            pieces: sheet(task),
            ran: task.lengths(),
        })
        .collect();
    let mut clock = Clock {
        plan,
        board: Board::fresh(plan),
        jobs,
        tick: 0,
        seen,
        ended,
    };
    while clock.tick < horizon {
        clock.tops();
        if let Some((v, n)) = clock.releases() {
            let tick = clock.tick;
            return Outcome::Missed { tick, v, n };
        }
        for core in 0..=TOP_CORE {
            clock.turn(core);
        }
        clock.tick += 1;
    }
    Outcome::Ended
}

impl Clock<'_> {
    /// A board event of this tick; the run makes none that the board refuses.
    fn event(&mut self, event: Event, idle: bool) -> Reply {
        let reply = self.board.apply(self.plan, event);
        assert!(
            !matches!(reply, Reply::Refused(_)),
            "{:?} at tick {}: {:?}",
            event,
            self.tick,
            reply
        );
        (self.seen)(Step {
            tick: self.tick,
            event,
            reply,
            idle,
        });
        reply
    }

    fn tops(&mut self) {
        for vcpu in &self.plan.vcpus {
            if self.tick % vcpu.period == 0 {
                self.event(Event::Top { v: vcpu.v }, false);
            }
        }
    }

    /// The lowest task with an unfinished job that is due anew; where there is none, the due jobs begin.
    fn releases(&mut self) -> Option<(u64, u64)> {
        let tick = self.tick;
        let is_due = |job: &Job| tick % job.task.period == 0;
        let late = self.jobs.iter().find(|job| is_due(job) && !job.has_ended());
        if let Some(job) = late {
            return Some((job.task.v, job.task.n));
        }
        for job in self.jobs.iter_mut().filter(|job| is_due(job)) {
            job.ran = 0;
        }
        None
    }

    fn turn(&mut self, core: u64) {
        let mut picked = self.pick(core);
        while let Some(ask) = picked.and_then(|at| self.ask_due(at)) {
            if self.event(ask, false) == Reply::Granted {
                assert_eq!(self.pick(core), picked, "a grant picks nobody else");
            }
            picked = self.pick(core);
        }
        if self.plan.policy == Policy::Periodic {
            for vcpu in self.plan.vcpus.iter().filter(|c| c.core == core) {
                if self.board.budget_left(vcpu.v) > 0 && !self.has_ready_task(vcpu.v) {
                    self.event(Event::Use { v: vcpu.v, t: 1 }, true);
                }
            }
        }
        if let Some(at) = picked {
            self.work(at);
        }
    }

    /// The place of the task that the core picks: of its awake VCPUs with a ready task the highest, and
    /// in it the highest task.
    fn pick(&self, core: u64) -> Option<usize> {
        let mut best: Option<((u64, u64), usize)> = None;
        let mut tie = false;
        for (at, job) in self.jobs.iter().enumerate() {
            let (v, n) = (job.task.v, job.task.n);
            let on_core = self.plan.vcpu(v).map_or(false, |c| c.core == core);
            if !on_core || !self.is_ready(job) || self.board.supply(self.plan, v) == 0 {
                continue;
            }
            let height = match self.board.show(self.plan, v, n) {
                Ok(Reply::Show { task, vcpu }) => (vcpu, task),
                other => panic!("show {} {}: {:?}", v, n, other),
            };
            match best {
                Some((high, _)) if high > height => {}
                Some((high, _)) if high == height => tie = true,
                _ => {
                    best = Some((height, at));
                    tie = false;
                }
            }
        }
        assert!(!tie, "two tasks are highest at tick {}", self.tick);
        best.map(|(_, at)| at)
    }

    fn is_ready(&self, job: &Job) -> bool {
        !job.has_ended() && self.board.wait_of(job.task.v, job.task.n).is_none()
    }

    fn has_ready_task(&self, v: u64) -> bool {
        self.jobs
            .iter()
            .any(|job| job.task.v == v && self.is_ready(job))
    }

    /// The ask that a picked task has to make before its next tick.
    fn ask_due(&self, at: usize) -> Option<Event> {
        let job = self.jobs.get(at)?;
        let (v, n) = (job.task.v, job.task.n);
        let piece = job.piece()?;
        let m = piece.mutex?;
        let holds = self.board.holder_of(m) == Some((v, n));
        assert!(holds || job.ran == piece.from, "a section begun is held");
        if holds {
            None
        } else {
            Some(Event::Ask { v, n, m })
        }
    }

    /// The picked task's tick, and the `free` of a section that it finishes.
    fn work(&mut self, at: usize) {
        let (v, n, piece) = match self.jobs.get(at).map(|job| (job.task, job.piece())) {
            Some((task, Some(piece))) => (task.v, task.n, piece),
            _ => return,
        };
        self.event(Event::Use { v, t: 1 }, false);
        let mut ran = 0;
        if let Some(job) = self.jobs.get_mut(at) {
            job.ran += 1;
            ran = job.ran;
            if job.has_ended() {
                (self.ended)(self.tick, job.task);
            }
        }
        if let (Some(m), true) = (piece.mutex, ran == piece.to) {
            self.event(Event::Free { v, n, m }, false);
        }
    }
}

/// The one line of standard input: 1 for its shape, then 2 for the number's form, then 3 for its range.
pub fn horizon(input: &[u8]) -> Result<u64, u32> {
    let line = match cut_line(input) {
        Some((line, [])) => line,
        _ => return Err(SHAPE),
    };
    let fields: Vec<&[u8]> = line.split(|b| *b == b'\t').collect();
    let numbers_of = match fields.split_first() {
        Some((word, rest)) if *word == b"horizon" => rest,
        _ => return Err(SHAPE),
    };
    let [h] = numbers::<1>(numbers_of).map_err(|fault| fault.number)?;
    if (1..=TICKS).contains(&h) {
        Ok(h)
    } else {
        Err(RANGE)
    }
}

/// Exactly what program `clock` prints; `seen` is shown every step of the run.
pub fn clock_text_of(plan: &[u8], input: &[u8], seen: &mut dyn FnMut(Step)) -> Vec<u8> {
    if plan.len() > INPUT_BYTES || input.len() > INPUT_BYTES {
        return refused(TOO_LONG);
    }
    let plan = match read(plan) {
        Ok(plan) => plan,
        Err(refusal) => return refused(refusal),
    };
    let horizon = match horizon(input) {
        Ok(horizon) => horizon,
        Err(number) => return reply_text(Reply::Refused(number)).into_bytes(),
    };
    let mut out = Vec::new();
    let outcome = run(&plan, horizon, &mut |step| {
        let event = event_text(step.event);
        let answer = reply_text(step.reply);
        out.extend_from_slice(format!("{}\t{}\t{}", step.tick, event, answer).as_bytes());
        seen(step);
    });
    let last = match outcome {
        Outcome::Ended => format!("end\t{}\n", horizon),
        Outcome::Missed { tick, v, n } => format!("missed\t{}\t{}\t{}\n", tick, v, n),
    };
    out.extend_from_slice(last.as_bytes());
    out
}

/// How the run ends, as the function for C answers it: what it returns, and where that is 1 the tick, v and n.
pub fn end_text(plan: &[u8], horizon: u64) -> Vec<u8> {
    if plan.len() > INPUT_BYTES {
        return format!("-{}\n", TOO_LONG.number).into_bytes();
    }
    let plan = match read(plan) {
        Ok(plan) => plan,
        Err(refusal) => return format!("-{}\n", refusal.number).into_bytes(),
    };
    if !(1..=TICKS).contains(&horizon) {
        return b"-3\n".to_vec();
    }
    match run(&plan, horizon, &mut |_| {}) {
        Outcome::Ended => b"0\n".to_vec(),
        Outcome::Missed { tick, v, n } => format!("1\t{}\t{}\t{}\n", tick, v, n).into_bytes(),
    }
}

/// Exactly what program `clock` prints.
pub fn clock_text(plan: &[u8], input: &[u8]) -> Vec<u8> {
    clock_text_of(plan, input, &mut |_| {})
}
