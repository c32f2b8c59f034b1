//! What a run of cases held: how many of each answer, and which corners they reached.

use std::collections::BTreeMap;
use std::fmt;

use crate::board::{Event, Reply};
use crate::clock::Step;
use crate::figures::{global_sections, wait_demand, wait_start};
use crate::limits::{INPUT_BYTES, LOCKS};
use crate::plan::Plan;
use crate::reading::{read, Refusal};
use crate::verdict::TOO_LONG;
use crate::write::{whole_refusal, write, Call};

/// A row of this many rounds counts as long.
pub const LONG: u64 = 1000;

#[derive(Clone, PartialEq, Eq, Debug, Default)]
pub struct Tally {
    /// Plans accepted.
    pub accepted: u64,
    /// Plans refused, by number, and by number and field.
    pub refused: BTreeMap<u64, u64>,
    pub fields: BTreeMap<(u64, u64), u64>,
    /// Accepted plans by the letters of their policy.
    pub policies: BTreeMap<&'static str, u64>,
    /// Accepted plans whose tasks do not stand in the order of the listing.
    pub interleaved: u64,
    /// Tasks with as many locks as a task may have.
    pub crowded: u64,
    /// Rows of LONG rounds or more, and the most rounds of a row.
    pub long: u64,
    pub most_rounds: u64,
    /// Waits with a demand of more than 64 bits on their way.
    pub beyond: u64,
    /// Rows of a listing by word and answer: `vcpu fits`, `wait none`, `task held` ..
    pub rows: BTreeMap<String, u64>,
    /// Listings by their last line.
    pub all: BTreeMap<String, u64>,
    /// Event lists, and the answers to their events: `granted`, `freed -`, `refused 12` ..
    pub lists: u64,
    pub answers: BTreeMap<String, u64>,
    /// Runs on a clock by how they came out: `ended`, `missed`, `horizon refused 2` ..
    pub runs: BTreeMap<String, u64>,
    /// The board events of those runs, and of them those of one sort: `waits`, `hand-ons` ..
    pub steps: u64,
    pub deeds: BTreeMap<&'static str, u64>,
    /// Plans read and written again, and the accepted ones that came back byte for byte.
    pub rewritten: u64,
    pub same: u64,
    /// Tables by their kind and by what came of them: `drawn written`, `cut refused 9` ..
    pub writes: BTreeMap<String, u64>,
}

/// What the steps of one run were, as they are seen.
#[derive(Clone, PartialEq, Eq, Debug, Default)]
pub struct Watch {
    steps: u64,
    deeds: BTreeMap<&'static str, u64>,
    /// Budget left, by v.
    left: BTreeMap<u64, u64>,
}

impl Watch {
    /// One more step of the run.
    pub fn see(&mut self, step: Step) {
        self.steps += 1;
        match (step.event, step.reply) {
            (Event::Ask { .. }, Reply::Granted) => self.deed("grants"),
            (Event::Ask { .. }, Reply::Waits) => self.deed("waits"),
            (Event::Free { v, .. }, Reply::Freed(Some((to, _)))) if v == to => {
                self.deed("hand-ons in a VCPU")
            }
            (Event::Free { .. }, Reply::Freed(Some(_))) => self.deed("hand-ons to another VCPU"),
            (Event::Free { .. }, _) => self.deed("frees to nobody"),
            (Event::Top { .. }, _) => self.deed("tops"),
            (Event::Use { .. }, _) if step.idle => self.deed("idle losses"),
            (Event::Use { v, .. }, _) if self.left.get(&v) == Some(&0) => {
                self.deed("overrun ticks")
            }
            (Event::Use { .. }, _) => self.deed("budget ticks"),
            _ => self.deed("others"),
        }
        if let (Event::Use { v, .. } | Event::Top { v }, Reply::Left { b, .. }) =
            (step.event, step.reply)
        {
            self.left.insert(v, b);
        }
    }

    fn deed(&mut self, name: &'static str) {
        one_more(&mut self.deeds, name);
    }
}

fn one_more<K: Ord>(counts: &mut BTreeMap<K, u64>, key: K) {
    *counts.entry(key).or_insert(0) += 1;
}

fn all_of<K: Ord + Clone>(counts: &mut BTreeMap<K, u64>, more: &BTreeMap<K, u64>) {
    for (key, count) in more {
        *counts.entry(key.clone()).or_insert(0) += count;
    }
}

impl Tally {
    /// All that another one held.
    pub fn add(&mut self, more: &Tally) {
        self.accepted += more.accepted;
        all_of(&mut self.refused, &more.refused);
        all_of(&mut self.fields, &more.fields);
        all_of(&mut self.policies, &more.policies);
        self.interleaved += more.interleaved;
        self.crowded += more.crowded;
        self.long += more.long;
        self.most_rounds = self.most_rounds.max(more.most_rounds);
        self.beyond += more.beyond;
        all_of(&mut self.rows, &more.rows);
        all_of(&mut self.all, &more.all);
        self.lists += more.lists;
        all_of(&mut self.answers, &more.answers);
        all_of(&mut self.runs, &more.runs);
        self.steps += more.steps;
        all_of(&mut self.deeds, &more.deeds);
        self.rewritten += more.rewritten;
        self.same += more.same;
        all_of(&mut self.writes, &more.writes);
    }

    /// A plan and the listing that it gives.
    pub fn add_listing(&mut self, plan: &[u8], listing: &[u8]) {
        self.add_plan(plan);
        for line in String::from_utf8_lossy(listing).lines() {
            let fields: Vec<&str> = line.split('\t').collect();
            match fields.as_slice() {
                [word @ ("vcpu" | "task"), .., answer, _, rounds] => {
                    one_more(&mut self.rows, format!("{} {}", word, answer));
                    self.add_rounds(rounds);
                }
                ["wait", _, _, _, ticks, rounds] => {
                    let answer = if *ticks == "none" { "none" } else { "fits" };
                    one_more(&mut self.rows, format!("wait {}", answer));
                    self.add_rounds(rounds);
                }
                ["all", answer] => one_more(&mut self.all, answer.to_string()),
                _ => {}
            }
        }
    }

    /// A plan, its events' size, and the answers to them.
    pub fn add_answers(&mut self, plan: &[u8], events: &[u8], answers: &[u8]) {
        self.lists += 1;
        if events.len() > INPUT_BYTES {
            self.add_refusal(TOO_LONG);
            return;
        }
        if !self.add_plan(plan) {
            return;
        }
        for line in String::from_utf8_lossy(answers).lines() {
            let fields: Vec<&str> = line.split('\t').collect();
            let key = match fields.as_slice() {
                ["freed", "-", "-"] => "freed to nobody".to_string(),
                ["refused", number] => format!("refused {}", number),
                [word, ..] => word.to_string(),
                [] => String::new(),
            };
            one_more(&mut self.answers, key);
        }
    }

    /// A plan, the horizon's line, what is printed for them, and the steps of the run.
    pub fn add_run(&mut self, plan: &[u8], horizon: &[u8], printed: &[u8], watch: &Watch) {
        self.steps += watch.steps;
        all_of(&mut self.deeds, &watch.deeds);
        let last = String::from_utf8_lossy(printed);
        let last: Vec<&str> = last.lines().last().unwrap_or("").split('\t').collect();
        let key = match last.as_slice() {
            ["end", _] => "ended".to_string(),
            ["missed", _, _, _] => "missed".to_string(),
            ["refused", number] => format!("horizon refused {}", number),
            _ => "plan or size refused".to_string(),
        };
        one_more(&mut self.runs, key);
        if horizon.len() > INPUT_BYTES {
            self.add_refusal(TOO_LONG);
        } else {
            self.add_plan(plan);
        }
    }

    /// A plan and how its run ends, as the function for C answers it.
    pub fn add_end(&mut self, plan: &[u8], end: &[u8]) {
        let key = match end.first() {
            Some(b'0') => "ended",
            Some(b'1') => "missed",
            _ => "plan, size or horizon refused",
        };
        one_more(&mut self.runs, key.to_string());
        self.add_plan(plan);
    }

    /// A plan and what a program prints that writes it again.
    pub fn add_rewrite(&mut self, plan: &[u8], printed: &[u8]) {
        self.rewritten += 1;
        let accepted = self.add_plan(plan);
        self.same += u64::from(accepted && printed == plan);
    }

    /// Tables of a kind and the room for their text; a text that is written counts as a plan.
    pub fn add_write(&mut self, kind: &str, call: &Call) {
        match write(&call.tables, call.room) {
            Ok(text) => {
                one_more(&mut self.writes, format!("{} written", kind));
                self.add_plan(&text);
            }
            Err(number) => {
                one_more(&mut self.writes, format!("{} refused {}", kind, number));
                self.add_refusal(whole_refusal(number));
            }
        }
    }

    /// Is the plan accepted?
    fn add_plan(&mut self, plan: &[u8]) -> bool {
        if plan.len() > INPUT_BYTES {
            self.add_refusal(TOO_LONG);
            return false;
        }
        match read(plan) {
            Ok(plan) => {
                self.accepted += 1;
                self.add_accepted(&plan);
                true
            }
            Err(refusal) => {
                self.add_refusal(refusal);
                false
            }
        }
    }

    fn add_refusal(&mut self, refusal: Refusal) {
        let number = u64::from(refusal.number);
        one_more(&mut self.refused, number);
        one_more(&mut self.fields, (number, refusal.field));
    }

    fn add_accepted(&mut self, plan: &Plan) {
        one_more(&mut self.policies, plan.policy_letters());
        let order: Vec<(u64, u64)> = plan.tasks().map(|t| (t.v, t.n)).collect();
        let rising = order.iter().zip(order.iter().skip(1)).all(|(a, b)| a < b);
        self.interleaved += u64::from(!rising);
        let full = plan.tasks().filter(|t| t.locks.len() == LOCKS);
        self.crowded += full.count() as u64;
        self.beyond += waits_beyond(plan);
    }

    fn add_rounds(&mut self, rounds: &str) {
        let rounds = rounds.parse().unwrap_or(0);
        self.long += u64::from(rounds >= LONG);
        self.most_rounds = self.most_rounds.max(rounds);
    }
}

/// Waits whose recurrence meets a demand of more than 64 bits, their first term among them.
fn waits_beyond(plan: &Plan) -> u64 {
    let sections = global_sections(plan);
    let mut count = 0;
    for s in &sections {
        let demand = wait_demand(&sections, s.v, s.m);
        let mut t = wait_start(&sections, s.v, s.m);
        while t <= u128::from(s.period) {
            let next = u64::try_from(t).map_or(u128::MAX, |t| demand.at(t));
            if next <= t {
                break;
            }
            t = next;
        }
        count += u64::from(t > u128::from(u64::MAX));
    }
    count
}

/// `a 1, b 2`, or `none`.
fn counted<K: fmt::Display>(counts: &BTreeMap<K, u64>) -> String {
    let parts: Vec<String> = counts.iter().map(|(k, n)| format!("{} {}", k, n)).collect();
    if parts.is_empty() {
        "none".to_string()
    } else {
        parts.join(", ")
    }
}

impl fmt::Display for Tally {
    fn fmt(&self, f: &mut fmt::Formatter) -> fmt::Result {
        let by_number: BTreeMap<String, u64> = self
            .refused
            .iter()
            .map(|(number, n)| (format!("by {}:", number), *n))
            .collect();
        let by_field: BTreeMap<String, u64> = self
            .fields
            .iter()
            .map(|((number, field), n)| (format!("{}:{}", number, field), *n))
            .collect();
        writeln!(f, "  plans accepted: {}", self.accepted)?;
        writeln!(f, "  plans refused: {}", counted(&by_number))?;
        writeln!(f, "  refused by number:field: {}", counted(&by_field))?;
        writeln!(
            f,
            "  policies of accepted plans: {}",
            counted(&self.policies)
        )?;
        writeln!(
            f,
            "  tasks out of the listing's order: {} plans; tasks with {} locks: {}",
            self.interleaved, LOCKS, self.crowded
        )?;
        if self.rewritten > 0 {
            return writeln!(f, "  came back byte for byte: {}", self.same);
        }
        if !self.writes.is_empty() {
            return writeln!(f, "  tables: {}", counted(&self.writes));
        }
        if !self.runs.is_empty() {
            let share = |n: u64| 100.0 * n as f64 / self.steps.max(1) as f64;
            writeln!(f, "  runs: {}", counted(&self.runs))?;
            if self.steps == 0 {
                return Ok(());
            }
            writeln!(f, "  events of runs: {}", self.steps)?;
            for (deed, n) in &self.deeds {
                writeln!(f, "    {}: {} ({:.1}%)", deed, n, share(*n))?;
            }
            return Ok(());
        }
        if self.lists > 0 {
            return writeln!(
                f,
                "  event lists: {}; answers: {}",
                self.lists,
                counted(&self.answers)
            );
        }
        writeln!(f, "  rows: {}", counted(&self.rows))?;
        writeln!(f, "  listings: {}", counted(&self.all))?;
        writeln!(
            f,
            "  rows of {} rounds or more: {}, most rounds: {}; waits with a demand over 64 bits: {}",
            LONG, self.long, self.most_rounds, self.beyond
        )
    }
}
