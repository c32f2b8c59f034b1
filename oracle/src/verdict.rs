//! The rows of a plan's verdict and the listing.

use crate::figures::{
    former_local_blocking, global_sections, local_blocking, task_demand, vcpu_demand, vcpu_start,
    wait_demand, wait_start,
};
use crate::limits::INPUT_BYTES;
use crate::plan::{Plan, Task};
use crate::reading::{read, Refusal};
use crate::search::{search, Found};

#[derive(Clone, Copy, PartialEq, Eq, Debug)]
pub enum Answer {
    Fits(u64),
    Late,
    NoWait,
    Held,
}

#[derive(Clone, PartialEq, Eq, Debug)]
pub struct VcpuRow {
    pub v: u64,
    pub answer: Answer,
    pub rounds: u64,
}

#[derive(Clone, PartialEq, Eq, Debug)]
pub struct WaitRow {
    pub v: u64,
    pub n: u64,
    pub place: u64,
    pub ticks: Option<u64>,
    pub rounds: u64,
}

#[derive(Clone, PartialEq, Eq, Debug)]
pub struct TaskRow {
    pub v: u64,
    pub n: u64,
    pub answer: Answer,
    pub rounds: u64,
}

#[derive(Clone, PartialEq, Eq, Debug)]
pub struct Verdict {
    pub vcpus: Vec<VcpuRow>,
    pub waits: Vec<WaitRow>,
    pub tasks: Vec<TaskRow>,
}

fn answer(found: Found) -> Answer {
    match found.w {
        Some(w) => Answer::Fits(w),
        None => Answer::Late,
    }
}

/// Every row of an accepted plan, each kind rising.
pub fn judge(plan: &Plan) -> Verdict {
    judge_by(plan, local_blocking)
}

/// The rows with the former local blocking, for what is compared with it.
pub fn former_judge(plan: &Plan) -> Verdict {
    judge_by(plan, former_local_blocking)
}

fn judge_by(plan: &Plan, blocking: fn(&Plan, &Task) -> u64) -> Verdict {
    let mut vcpus = Vec::new();
    for vcpu in &plan.vcpus {
        let demand = vcpu_demand(plan, vcpu);
        let found = search(vcpu_start(plan, vcpu), vcpu.period, &demand);
        vcpus.push(VcpuRow {
            v: vcpu.v,
            answer: answer(found),
            rounds: found.rounds,
        });
    }

    let sections = global_sections(plan);
    let mut waits = Vec::new();
    for s in &sections {
        let start = wait_start(&sections, s.v, s.m);
        let found = search(start, s.period, &wait_demand(&sections, s.v, s.m));
        waits.push(WaitRow {
            v: s.v,
            n: s.n,
            place: s.place,
            ticks: found.w,
            rounds: found.rounds,
        });
    }

    let unanswered = |v: u64, n: u64| {
        waits
            .iter()
            .any(|w: &WaitRow| w.v == v && w.n == n && w.ticks.is_none())
    };
    let sum = |v: u64, n: u64| -> u64 {
        waits
            .iter()
            .filter(|w| w.v == v && w.n == n)
            .filter_map(|w| w.ticks)
            .sum()
    };
    let mut tasks = Vec::new();
    for task in plan.tasks_rising() {
        let held = plan
            .tasks_of(task.v)
            .any(|h| h.n > task.n && unanswered(h.v, h.n));
        let (answer, rounds) = if unanswered(task.v, task.n) {
            (Answer::NoWait, 0)
        } else if held {
            (Answer::Held, 0)
        } else if let Some(vcpu) = plan.vcpu(task.v) {
            let demand = task_demand(plan, vcpu, task, blocking(plan, task), &sum);
            let found = search(u128::from(task.lengths()), task.period, &demand);
            (answer(found), found.rounds)
        } else {
            (Answer::Late, 0)
        };
        tasks.push(TaskRow {
            v: task.v,
            n: task.n,
            answer,
            rounds,
        });
    }
    Verdict {
        vcpus,
        waits,
        tasks,
    }
}

impl Verdict {
    /// Every vcpu and every task fits.
    pub fn all_fit(&self) -> bool {
        let fits = |a: &Answer| matches!(a, Answer::Fits(_));
        self.vcpus.iter().all(|r| fits(&r.answer)) && self.tasks.iter().all(|r| fits(&r.answer))
    }
}

/// The answer's word and w, `-` where w is lacking.
fn words(answer: Answer) -> (&'static str, String) {
    match answer {
        Answer::Fits(w) => ("fits", w.to_string()),
        Answer::Late => ("late", "-".to_string()),
        Answer::NoWait => ("nowait", "-".to_string()),
        Answer::Held => ("held", "-".to_string()),
    }
}

/// The listing of an accepted plan.
pub fn listing(plan: &Plan) -> Vec<u8> {
    let verdict = judge(plan);
    let mut out = String::from("verdict\t1\n");
    for r in &verdict.vcpus {
        let (word, w) = words(r.answer);
        out.push_str(&format!("vcpu\t{}\t{}\t{}\t{}\n", r.v, word, w, r.rounds));
    }
    for r in &verdict.tasks {
        for w in verdict.waits.iter().filter(|w| w.v == r.v && w.n == r.n) {
            let ticks = w
                .ticks
                .map_or_else(|| "none".to_string(), |t| t.to_string());
            out.push_str(&format!(
                "wait\t{}\t{}\t{}\t{}\t{}\n",
                w.v, w.n, w.place, ticks, w.rounds
            ));
        }
        let (word, w) = words(r.answer);
        out.push_str(&format!(
            "task\t{}\t{}\t{}\t{}\t{}\n",
            r.v, r.n, word, w, r.rounds
        ));
    }
    let all = if verdict.all_fit() { "fits" } else { "late" };
    out.push_str(&format!("all\t{}\n", all));
    out.into_bytes()
}

/// `refused` number line field.
pub fn refused(refusal: Refusal) -> Vec<u8> {
    let Refusal {
        number,
        line,
        field,
    } = refusal;
    format!("refused\t{}\t{}\t{}\n", number, line, field).into_bytes()
}

/// The refusal of an input too long to be judged.
pub const TOO_LONG: Refusal = Refusal {
    number: 8,
    line: 0,
    field: 0,
};

/// Exactly what program `verdict` prints.
pub fn verdict_text(input: &[u8]) -> Vec<u8> {
    if input.len() > INPUT_BYTES {
        return refused(TOO_LONG);
    }
    match read(input) {
        Ok(plan) => listing(&plan),
        Err(refusal) => refused(refusal),
    }
}
