//! The figures: equations 1 to 5, 7 to 9, 11 to 16 and 6.
//!
//! How large they get: a load is at most 8 locks of a million, 8e6; a response without
//! overrun at most 8e6 gaps of a million plus 8e6 and 128 locks of preemption, below 8.1e12.
//! A plan has at most 512 global sections and a wait's demand is asked at t up to a million,
//! so equation 11 stays below 512 * 1,000,001 * 8.1e12 + 8.1e12 < 5e21, far below 2^128.

use crate::plan::{Lock, Overrun, Plan, Policy, Task, Vcpu};

/// a / b rounded up.
pub fn up(a: u64, b: u64) -> u64 {
    let b = b.max(1);
    a / b + u64::from(a % b != 0)
}

/// `each` for every started period of the window t + ahead.
#[derive(Clone, PartialEq, Eq, Debug)]
pub struct Step {
    pub ahead: u64,
    pub period: u64,
    pub each: u128,
}

/// A demand: a fixed part and steps that grow with the window.
#[derive(Clone, PartialEq, Eq, Debug, Default)]
pub struct Demand {
    pub fixed: u128,
    pub steps: Vec<Step>,
}

impl Demand {
    /// Steps of equal period and lead are kept as one.
    pub fn add_step(&mut self, ahead: u64, period: u64, each: u128) {
        if each == 0 {
            return;
        }
        let same = self
            .steps
            .iter_mut()
            .find(|s| s.ahead == ahead && s.period == period);
        match same {
            Some(step) => step.each += each,
            None => self.steps.push(Step {
                ahead,
                period,
                each,
            }),
        }
    }

    /// The demand in a window of t ticks.
    pub fn at(&self, t: u64) -> u128 {
        self.steps.iter().fold(self.fixed, |sum, s| {
            sum + u128::from(up(t + s.ahead, s.period)) * s.each
        })
    }
}

/// The locks of a task on global mutexes.
pub fn global_locks<'a>(plan: &'a Plan, task: &'a Task) -> impl Iterator<Item = &'a Lock> {
    task.locks.iter().filter(move |l| plan.is_global(l.m))
}

/// A task's longest global section, 0 if none.
pub fn longest_global(plan: &Plan, task: &Task) -> u64 {
    global_locks(plan, task).map(|l| l.t).max().unwrap_or(0)
}

/// Equation 1.
pub fn ght(plan: &Plan, v: u64) -> u64 {
    plan.tasks_of(v).map(|t| longest_global(plan, t)).sum()
}

/// O(v): ght(v) with overrun, else 0.
pub fn overrun(plan: &Plan, v: u64) -> u64 {
    match plan.overrun {
        Overrun::With => ght(plan, v),
        Overrun::Without => 0,
    }
}

/// Lower VCPUs on the same core.
fn lower_on_core<'a>(plan: &'a Plan, vcpu: &'a Vcpu) -> impl Iterator<Item = &'a Vcpu> {
    plan.vcpus
        .iter()
        .filter(move |c| c.core == vcpu.core && c.v < vcpu.v)
}

/// Higher VCPUs on the same core.
fn higher_on_core<'a>(plan: &'a Plan, vcpu: &'a Vcpu) -> impl Iterator<Item = &'a Vcpu> {
    plan.vcpus
        .iter()
        .filter(move |c| c.core == vcpu.core && c.v > vcpu.v)
}

/// Higher tasks of the same VCPU.
fn higher_tasks(plan: &Plan, v: u64, n: u64) -> impl Iterator<Item = &Task> {
    plan.tasks_of(v).filter(move |t| t.n > n)
}

/// Lower tasks of the same VCPU.
fn lower_tasks(plan: &Plan, v: u64, n: u64) -> impl Iterator<Item = &Task> {
    plan.tasks_of(v).filter(move |t| t.n < n)
}

/// Where a VCPU's search starts: budget + O.
pub fn vcpu_start(plan: &Plan, vcpu: &Vcpu) -> u128 {
    u128::from(vcpu.budget) + u128::from(overrun(plan, vcpu.v))
}

/// Equations 2 to 5.
pub fn vcpu_demand(plan: &Plan, vcpu: &Vcpu) -> Demand {
    let mut demand = Demand {
        fixed: vcpu_start(plan, vcpu),
        steps: Vec::new(),
    };
    for low in lower_on_core(plan, vcpu) {
        match plan.policy {
            Policy::Periodic => demand.fixed += u128::from(ght(plan, low.v)),
            Policy::Deferrable => {
                for task in plan.tasks_of(low.v) {
                    let sum: u64 = global_locks(plan, task).map(|l| l.t).sum();
                    demand.fixed += u128::from(sum);
                    demand.add_step(0, task.period, u128::from(sum));
                }
            }
        }
    }
    for high in higher_on_core(plan, vcpu) {
        let lead = match plan.policy {
            Policy::Periodic => 0,
            Policy::Deferrable => high.gap(),
        };
        demand.add_step(lead, high.period, vcpu_start(plan, high));
    }
    demand
}

/// One global section of the plan with its response.
#[derive(Clone, PartialEq, Eq, Debug)]
pub struct GlobalSection {
    pub v: u64,
    pub n: u64,
    /// Lock place in the task, all its locks counted, from 1.
    pub place: u64,
    pub m: u64,
    /// The period of the section's task.
    pub period: u64,
    pub response: u64,
}

/// Equation 12: the length plus each higher task's longest global section.
pub fn load(plan: &Plan, v: u64, n: u64, length: u64) -> u64 {
    length
        + higher_tasks(plan, v, n)
            .map(|h| longest_global(plan, h))
            .sum::<u64>()
}

/// Equation 13: ght over higher VCPUs on the same core.
pub fn preemption(plan: &Plan, vcpu: &Vcpu) -> u64 {
    higher_on_core(plan, vcpu).map(|h| ght(plan, h.v)).sum()
}

/// Equations 14 to 16.
pub fn response(plan: &Plan, vcpu: &Vcpu, n: u64, length: u64) -> u64 {
    let load = load(plan, vcpu.v, n, length);
    let base = load + preemption(plan, vcpu);
    match (plan.overrun, plan.policy) {
        (Overrun::With, Policy::Periodic) => vcpu.gap() + base,
        (Overrun::With, Policy::Deferrable) => base,
        (Overrun::Without, _) => up(load, vcpu.budget) * vcpu.gap() + base,
    }
}

/// Every global section of the plan, (v, n, place) rising.
pub fn global_sections(plan: &Plan) -> Vec<GlobalSection> {
    let mut out = Vec::new();
    for task in plan.tasks_rising() {
        if let Some(vcpu) = plan.vcpu(task.v) {
            for (place, lock) in (1..).zip(&task.locks) {
                if plan.is_global(lock.m) {
                    out.push(GlobalSection {
                        v: task.v,
                        n: task.n,
                        place,
                        m: lock.m,
                        period: task.period,
                        response: response(plan, vcpu, task.n, lock.t),
                    });
                }
            }
        }
    }
    out
}

/// Equation 11's first term: the greatest response on m by lower VCPUs, any core.
pub fn wait_start(sections: &[GlobalSection], v: u64, m: u64) -> u128 {
    let greatest = sections
        .iter()
        .filter(|s| s.m == m && s.v < v)
        .map(|s| s.response)
        .max();
    u128::from(greatest.unwrap_or(0))
}

/// Equation 11, every section of a higher VCPU counted by itself.
pub fn wait_demand(sections: &[GlobalSection], v: u64, m: u64) -> Demand {
    let mut demand = Demand {
        fixed: wait_start(sections, v, m),
        steps: Vec::new(),
    };
    for s in sections.iter().filter(|s| s.m == m && s.v > v) {
        demand.fixed += u128::from(s.response);
        demand.add_step(0, s.period, u128::from(s.response));
    }
    demand
}

/// Equations 7 to 9, with the lower tasks' sections on those local mutexes whose ceiling counts.
fn blocking(plan: &Plan, task: &Task, counts: impl Fn(u64) -> bool) -> u64 {
    let local = lower_tasks(plan, task.v, task.n)
        .flat_map(|low| low.locks.iter())
        .filter(|l| plan.is_local_of(l.m, task.v) && counts(plan.ceiling(l.m)))
        .map(|l| l.t)
        .max()
        .unwrap_or(0);
    let global: u64 = lower_tasks(plan, task.v, task.n)
        .map(|low| longest_global(plan, low))
        .sum();
    let times = global_locks(plan, task).count() as u64 + 1;
    (local + global) * times
}

/// Local blocking: a ceiling counts that is at least n, document 02 (iii).
pub fn local_blocking(plan: &Plan, task: &Task) -> u64 {
    blocking(plan, task, |ceiling| ceiling >= task.n)
}

/// Local blocking as equation 7 and document 01 have it: a ceiling counts that is greater than n.
/// No listing has it; the mended figure is compared with it.
pub fn former_local_blocking(plan: &Plan, task: &Task) -> u64 {
    blocking(plan, task, |ceiling| ceiling > task.n)
}

/// Equation 6; `blocking` is the task's local blocking, and `waits` gives the sum of a task's remote
/// waits by its (v, n).
pub fn task_demand(
    plan: &Plan,
    vcpu: &Vcpu,
    task: &Task,
    blocking: u64,
    waits: &dyn Fn(u64, u64) -> u64,
) -> Demand {
    let own = task.lengths() + blocking + waits(task.v, task.n);
    let mut demand = Demand {
        fixed: u128::from(own),
        steps: Vec::new(),
    };
    for high in higher_tasks(plan, task.v, task.n) {
        let ahead = vcpu.gap() + waits(high.v, high.n);
        demand.add_step(ahead, high.period, u128::from(high.lengths()));
    }
    demand.add_step(vcpu.budget, vcpu.period, u128::from(vcpu.gap()));
    demand
}
