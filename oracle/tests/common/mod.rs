#![allow(dead_code)]

use oracle::plan::Plan;
use oracle::reading::read;

/// Blanks stand for tabs and `/` for LF.
pub fn text(spaced: &str) -> Vec<u8> {
    spaced
        .bytes()
        .map(|b| match b {
            b' ' => b'\t',
            b'/' => b'\n',
            other => other,
        })
        .collect()
}

pub fn plan(spaced: &str) -> Plan {
    read(&text(spaced)).expect("an accepted plan")
}

/// Output with tabs as blanks.
pub fn spaced(bytes: &[u8]) -> String {
    String::from_utf8_lossy(bytes).replace('\t', " ")
}

/// The worked plan with its policy line.
pub fn worked(policy: &str) -> String {
    format!(
        "plan 1/policy {}/vcpu 1 1 0 3 20/vcpu 2 2 0 2 10/mutex 1 G/open 1 1/open 1 2/\
         guest 1/task 1 1 100/run 2/lock 1 1/run 2/guest 2/task 2 1 50/run 1/lock 1 2/run 1/end/",
        policy
    )
}

/// Late by a ceiling equal to the task, and missed on the clock at 12.
pub const CEILING: &str =
    "plan 1/policy P O/vcpu 1 1 1 1 1/mutex 3 L 1/guest 1/task 1 1 60/run 0/lock 3 3/run 3/\
     task 1 2 6/run 1/lock 3 3/run 1/end/";

/// It fits, and is missed on the clock at 27.
pub const EQ11_DN: &str =
    "plan 1/policy D N/vcpu 1 1 0 1 1/vcpu 2 1 1 1 1/mutex 1 G/open 1 1/guest 1/\
     task 1 1 27/run 0/lock 1 1/run 0/task 1 2 92/run 0/lock 1 6/run 0/lock 1 6/run 0/lock 1 6/run 0/\
     task 2 1 11/run 0/lock 1 4/run 0/end/";

/// It fits, has local mutexes alone, and is missed on the clock at 28.
pub const HANDED_ON: &str =
    "plan 1/policy P O/vcpu 1 1 0 1 1/mutex 1 L 1/mutex 2 L 1/guest 1/task 1 1 60/run 8/lock 1 5/run 0/\
     task 1 2 20/run 0/lock 2 5/run 0/task 1 3 7/run 0/lock 1 1/run 0/lock 2 1/run 0/end/";

/// Each word of an event's answer, and each refusal by its number.
pub const ANSWERS: [&str; 14] = [
    "granted",
    "waits",
    "freed",
    "left",
    "show",
    "refused 1",
    "refused 2",
    "refused 3",
    "refused 10",
    "refused 11",
    "refused 12",
    "refused 13",
    "refused 14",
    "refused 15",
];

/// A plan with every kind of line and two of most.
pub const BASE: [&str; 22] = [
    "plan 1",
    "policy D O",
    "vcpu 1 1 0 3 20",
    "vcpu 2 2 0 2 10",
    "mutex 1 G",
    "mutex 2 L 1",
    "mutex 3 G",
    "open 1 1",
    "open 1 2",
    "guest 1",
    "task 1 1 100",
    "run 2",
    "lock 1 1",
    "run 2",
    "lock 2 1",
    "run 0",
    "guest 2",
    "task 2 1 50",
    "run 1",
    "lock 1 2",
    "run 1",
    "end",
];

/// FNV-1a over everything given.
pub fn mark(parts: impl Iterator<Item = Vec<u8>>) -> u64 {
    parts.flatten().fold(0xcbf2_9ce4_8422_2325, |h, b| {
        (h ^ u64::from(b)).wrapping_mul(0x0000_0100_0000_01b3)
    })
}

/// What a program prints, and its status.
pub fn ended(program: &str, args: &[&str]) -> (String, Option<i32>) {
    let out = std::process::Command::new(program)
        .args(args)
        .output()
        .expect("the program ends");
    let text = String::from_utf8_lossy(&out.stdout).into_owned();
    (text, out.status.code())
}
