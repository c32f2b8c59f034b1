//! Plans that fit, run on the clock: a job that is missed, or that takes longer than its row's w.

use std::collections::BTreeMap;
use std::fmt;

use crate::clock::Outcome;
use crate::generate::{changed, watched_plan, Chance};
use crate::limits::TICKS;
use crate::plan::Plan;
use crate::reading::read;
use crate::swift::{run_and_jobs, Jobs};
use crate::verdict::{former_judge, judge, Answer, Verdict};

/// A run goes no farther than this, unless twice the longest period does.
const FAR: u64 = 20_000;

/// A climb begins at the first of so many plans that fits.
const TRIES: u64 = 100;

/// Which local blocking every row fits with.
#[derive(Clone, Copy, PartialEq, Eq, Debug)]
pub enum Fits {
    /// That of the verdict.
    Mended,
    /// The former one alone, so it is late.
    Former,
    Neither,
}

#[derive(Clone, Copy, PartialEq, Eq, Debug)]
pub enum Finding {
    /// The job of (v, n) was unfinished at this tick, when its next was released.
    Missed { tick: u64, v: u64, n: u64 },
    /// A job of (v, n), released at this tick, took longer than its row's w.
    Longer {
        v: u64,
        n: u64,
        time: u64,
        w: u64,
        release: u64,
    },
}

/// A task's jobs beside its row.
#[derive(Clone, Copy, PartialEq, Eq, Debug)]
pub struct Row {
    pub jobs: Jobs,
    pub w: u64,
    /// The task's own lengths.
    pub own: u64,
}

/// What the run of a plan showed; a plan that fits with neither is not run.
#[derive(Clone, PartialEq, Eq, Debug)]
pub struct Watched {
    pub fits: Fits,
    pub ticks: u64,
    /// (v, n) rising.
    pub rows: Vec<Row>,
    /// A miss first, then each task with a longer job.
    pub findings: Vec<Finding>,
}

/// All periods come together after their least common multiple; so far, but at most `FAR`, and at least
/// twice the longest period. One tick more, so that the jobs due there are judged.
pub fn default_horizon(plan: &Plan) -> u64 {
    let vcpus = plan.vcpus.iter().map(|c| c.period);
    let (mut multiple, mut longest) = (1, 1);
    for period in vcpus.chain(plan.tasks().map(|t| t.period)) {
        longest = longest.max(period);
        multiple = least_common_multiple(multiple, period).min(FAR);
    }
    (multiple.max(2 * longest) + 1).min(TICKS)
}

fn least_common_multiple(a: u64, b: u64) -> u64 {
    let (mut divisor, mut rest) = (a, b);
    while rest != 0 {
        let next = divisor % rest;
        divisor = rest;
        rest = next;
    }
    a / divisor.max(1) * b
}

/// Runs an accepted plan that fits, to the horizon or the default one.
pub fn watch(plan: &Plan, horizon: Option<u64>) -> Watched {
    let mended = judge(plan);
    if mended.all_fit() {
        return run(plan, horizon, Fits::Mended, &mended);
    }
    let former = former_judge(plan);
    if former.all_fit() {
        return run(plan, horizon, Fits::Former, &former);
    }
    Watched {
        fits: Fits::Neither,
        ticks: 0,
        rows: Vec::new(),
        findings: Vec::new(),
    }
}

fn run(plan: &Plan, horizon: Option<u64>, fits: Fits, verdict: &Verdict) -> Watched {
    let horizon = horizon.unwrap_or_else(|| default_horizon(plan));
    let (outcome, jobs) = run_and_jobs(plan, horizon);
    let mut findings = Vec::new();
    let ticks = match outcome {
        Outcome::Ended => horizon,
        Outcome::Missed { tick, v, n } => {
            findings.push(Finding::Missed { tick, v, n });
            tick
        }
    };
    let mut rows = Vec::new();
    for ((jobs, row), task) in jobs
        .into_iter()
        .zip(&verdict.tasks)
        .zip(plan.tasks_rising())
    {
        let w = match row.answer {
            Answer::Fits(w) => w,
            other => panic!("({}, {}) fits and is {:?}", row.v, row.n, other),
        };
        assert_eq!((jobs.v, jobs.n), (row.v, row.n));
        if jobs.time > w {
            findings.push(Finding::Longer {
                v: row.v,
                n: row.n,
                time: jobs.time,
                w,
                release: jobs.release,
            });
        }
        rows.push(Row {
            jobs,
            w,
            own: task.lengths(),
        });
    }
    Watched {
        fits,
        ticks,
        rows,
        findings,
    }
}

impl Watched {
    pub fn has_missed(&self) -> bool {
        let missed = |f: &Finding| matches!(f, Finding::Missed { .. });
        self.findings.iter().any(missed)
    }

    pub fn has_longer(&self) -> bool {
        let longer = |f: &Finding| matches!(f, Finding::Longer { .. });
        self.findings.iter().any(longer)
    }

    /// The greatest time of a job over its row's w, as these two, of all tasks or of one. A row that
    /// counts nothing but its task's own lengths is reached by every job, so it tells nothing.
    pub fn height(&self, of: Option<(u64, u64)>) -> (u64, u64) {
        let of_interest = |r: &&Row| match of {
            Some(task) => task == (r.jobs.v, r.jobs.n),
            None => r.w > r.own || r.jobs.time > r.w,
        };
        self.rows
            .iter()
            .filter(of_interest)
            .map(|r| (r.jobs.time, r.w))
            .fold((0, 1), |a, b| if is_below(a, b) { b } else { a })
    }
}

fn is_below(a: (u64, u64), b: (u64, u64)) -> bool {
    a.0 * b.1 < b.0 * a.1
}

/// What was watched, of one policy.
#[derive(Clone, Copy, PartialEq, Eq, Debug, Default)]
pub struct Count {
    pub plans: u64,
    pub accepted: u64,
    pub fit: u64,
    /// Of all runs, and jobs with a length.
    pub ticks: u64,
    pub jobs: u64,
    /// Plans that fit, with a miss and with a longer job.
    pub missed: u64,
    pub longer: u64,
    /// Plans that fit with the former local blocking alone, with a miss, and with a longer job.
    pub former: u64,
    pub former_missed: u64,
    pub former_longer: u64,
}

impl Count {
    fn add(&mut self, other: &Count) {
        self.plans += other.plans;
        self.accepted += other.accepted;
        self.fit += other.fit;
        self.ticks += other.ticks;
        self.jobs += other.jobs;
        self.missed += other.missed;
        self.longer += other.longer;
        self.former += other.former;
        self.former_missed += other.former_missed;
        self.former_longer += other.former_longer;
    }
}

impl fmt::Display for Count {
    fn fmt(&self, f: &mut fmt::Formatter<'_>) -> fmt::Result {
        write!(
            f,
            "{} plans, {} accepted, {} fit, {} ticks run, {} jobs measured; \
             of those that fit {} with a miss, {} with a longer job; \
             {} fit by the former figure alone, of them {} with a miss, {} with a longer job",
            self.plans,
            self.accepted,
            self.fit,
            self.ticks,
            self.jobs,
            self.missed,
            self.longer,
            self.former,
            self.former_missed,
            self.former_longer
        )
    }
}

/// What was watched, by policy.
#[derive(Clone, PartialEq, Eq, Debug, Default)]
pub struct Summary(pub BTreeMap<&'static str, Count>);

impl Summary {
    /// Watches one more plan; None where it is refused.
    pub fn watch(&mut self, plan: &Plan, horizon: Option<u64>) -> Option<Watched> {
        let count = self.0.entry(plan.policy_letters()).or_default();
        count.plans += 1;
        if read(&plan.text()).as_ref() != Ok(plan) {
            return None;
        }
        count.accepted += 1;
        let watched = watch(plan, horizon);
        let (missed, longer) = (watched.has_missed(), watched.has_longer());
        count.ticks += watched.ticks;
        count.jobs += watched.rows.iter().map(|r| r.jobs.ended).sum::<u64>();
        match watched.fits {
            Fits::Mended => {
                count.fit += 1;
                count.missed += u64::from(missed);
                count.longer += u64::from(longer);
            }
            Fits::Former => {
                count.former += 1;
                count.former_missed += u64::from(missed);
                count.former_longer += u64::from(longer);
            }
            Fits::Neither => {}
        }
        Some(watched)
    }

    pub fn all(&self) -> Count {
        let mut all = Count::default();
        for count in self.0.values() {
            all.add(count);
        }
        all
    }
}

impl fmt::Display for Summary {
    fn fmt(&self, f: &mut fmt::Formatter<'_>) -> fmt::Result {
        for (letters, count) in &self.0 {
            writeln!(f, "{}: {}", letters, count)?;
        }
        writeln!(f, "all: {}", self.all())
    }
}

/// Plan `index` of a seed, to be watched.
pub fn plan_of(seed: u64, index: u64) -> Plan {
    watched_plan(&mut Chance::new(seed, index, 6))
}

/// A plan that fits, changed step by step towards a miss: a change is kept where the plan still fits and its
/// height has not fallen, and a miss ends the climb. Every other climb looks at one task alone. None where
/// no plan was found that fits.
pub fn climb(
    seed: u64,
    index: u64,
    steps: u64,
    horizon: Option<u64>,
    summary: &mut Summary,
) -> Option<(Plan, Watched)> {
    let chance = &mut Chance::new(seed, index, 7);
    let mut top = (0..TRIES).find_map(|_| {
        let plan = watched_plan(chance);
        let watched = summary.watch(&plan, horizon)?;
        (watched.fits == Fits::Mended).then_some((plan, watched))
    })?;
    let rows: Vec<&Row> = top.1.rows.iter().filter(|r| r.w > r.own).collect();
    let one = chance.pick(&rows).map(|r| (r.jobs.v, r.jobs.n));
    let one = one.filter(|_| index % 2 == 1);
    for _ in 0..steps {
        if top.1.has_missed() {
            break;
        }
        let plan = changed(chance, &top.0);
        if plan == top.0 {
            continue;
        }
        if let Some(watched) = summary.watch(&plan, horizon) {
            let fits = watched.fits == Fits::Mended;
            if fits && (watched.has_missed() || !is_below(watched.height(one), top.1.height(one))) {
                top = (plan, watched);
            }
        }
    }
    Some(top)
}
