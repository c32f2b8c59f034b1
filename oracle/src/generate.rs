//! Seeded cases: the same seed and index give the same bytes for ever.

mod chance;
mod damage;
mod happenings;
mod lent;
mod runs;
mod shapes;
mod watched;

pub use chance::Chance;
pub use happenings::{board_case, BoardCase};
pub use lent::{table_case, TableCase, TABLE_KINDS};
pub use runs::{clock_case, clock_plan, run_case, ClockCase, RunCase};
pub use watched::{changed, watched_plan};

use crate::plan::Plan;

/// The kinds of plan cases: name, weight in the default mix, what it holds.
pub const KINDS: [(&str, u64, &str); 30] = [
    ("minimal", 2, "one VCPU, one task, small numbers"),
    ("mixed", 8, "any sizes, owners of VCPUs in any pattern"),
    (
        "edge",
        12,
        "near the edge of fitting, limits set to w or w - 1",
    ),
    ("locals", 5, "local mutexes, ceilings, some never locked"),
    ("stalls", 5, "nowait and held tasks"),
    (
        "zero",
        2,
        "tasks whose lengths sum to 0, VCPUs without tasks",
    ),
    ("slow", 2, "many rounds"),
    ("slowest", 0, "up to a million rounds"),
    ("huge", 3, "waits whose demand passes 64 bits"),
    (
        "wrap",
        2,
        "waits whose demand is a small number modulo 2^64",
    ),
    ("full", 1, "64 tasks, many with 8 locks"),
    ("refuse1", 5, "shape"),
    ("refuse2", 4, "number form"),
    ("refuse3", 4, "range"),
    ("refuse4", 4, "order"),
    ("refuse5", 4, "missing"),
    ("refuse6", 4, "outside"),
    ("refuse7", 2, "65th task or ninth lock"),
    (
        "sameline",
        7,
        "two faults in one line, the lower number decides",
    ),
    (
        "fields",
        8,
        "a fault in any field, often several of one number in a line",
    ),
    ("twolines", 4, "two faults in two lines"),
    (
        "toomany",
        2,
        "65th task or ninth lock, mostly with another fault",
    ),
    ("torn", 4, "cut anywhere"),
    (
        "spacing",
        4,
        "CR LF, NUL, doubled and trailing tabs, blanks",
    ),
    ("lines", 4, "lines missing, doubled, swapped or moved"),
    ("bytes", 4, "bytes changed, put in or taken out"),
    ("afterend", 2, "bytes after end"),
    ("empty", 1, "no byte at all, or nearly none"),
    ("noise", 1, "words, tabs and numbers in any order"),
    (
        "oversize",
        0,
        "over 65,536 bytes or just below; one in 200 of the mix",
    ),
];

/// Kinds that are accepted plans.
pub const VALID: [&str; 11] = [
    "minimal", "mixed", "edge", "locals", "stalls", "zero", "slow", "slowest", "huge", "wrap",
    "full",
];

/// One case in this many of the default mix is about the greatest size judged.
const OVERSIZE_IN: u64 = 200;

/// The kind of case `index` in the default mix.
pub fn kind_of(seed: u64, index: u64) -> &'static str {
    let mut chance = Chance::new(seed, index, 1);
    if chance.one_in(OVERSIZE_IN) {
        return "oversize";
    }
    weighed(&mut chance, &KINDS)
}

/// One of these kinds, by weight.
fn weighed(chance: &mut Chance, kinds: &[(&'static str, u64, &str)]) -> &'static str {
    let mut at = chance.below(kinds.iter().map(|k| k.1).sum());
    for (name, weight, _) in kinds {
        if at < *weight {
            return name;
        }
        at -= weight;
    }
    "mixed"
}

/// The bytes of case `index` of the default mix.
pub fn plan_case(seed: u64, index: u64) -> Vec<u8> {
    plan_case_of(seed, index, kind_of(seed, index)).unwrap_or_default()
}

/// The bytes of case `index` of one kind, None for an unknown kind.
pub fn plan_case_of(seed: u64, index: u64, kind: &str) -> Option<Vec<u8>> {
    let mut chance = Chance::new(seed, index, 2);
    if let Some(plan) = shapes::valid(&mut chance, kind) {
        return Some(plan.text());
    }
    if KINDS.iter().any(|k| k.0 == kind) {
        return Some(damage::damaged(&mut chance, kind));
    }
    None
}

/// The plan of a valid kind.
pub fn valid_plan(seed: u64, index: u64, kind: &str) -> Option<Plan> {
    shapes::valid(&mut Chance::new(seed, index, 2), kind)
}
