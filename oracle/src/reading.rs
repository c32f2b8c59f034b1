//! The reading of a plan: bytes in, a plan or a refusal out.

use crate::limits::{DIGITS, GUESTS, LOCKS, MUTEXES, PLACES, TASKS, TICKS, TOP_CORE, VCPUS};
use crate::plan::{Lock, Mutex, Open, Overrun, Owner, Plan, Policy, Section, Task, Vcpu};

/// A plan's refusal: the number of document 01, the line, and the field of document 02. Lines and fields
/// are counted from 1; 0 stands for none.
#[derive(Clone, Copy, PartialEq, Eq, Debug)]
pub struct Refusal {
    pub number: u32,
    pub line: u64,
    pub field: u64,
}

/// What is wrong in a line: the number, and the field that has the fault. The word is field 1; field 0
/// where the fault is the whole line's.
#[derive(Clone, Copy, PartialEq, Eq, Debug)]
pub struct Fault {
    pub number: u32,
    pub field: u64,
}

/// A fault of the whole line: Shape, Order or TooMany.
pub fn whole(number: u32) -> Fault {
    Fault { number, field: 0 }
}

/// A fault of one field: Number, Range, Missing or Outside.
fn at(field: u64, number: u32) -> Fault {
    Fault { number, field }
}

pub const SHAPE: u32 = 1;
pub const NUMBER: u32 = 2;
pub const RANGE: u32 = 3;
pub const ORDER: u32 = 4;
pub const MISSING: u32 = 5;
pub const OUTSIDE: u32 = 6;
pub const TOO_MANY: u32 = 7;

/// What may stand in the next line, named by the line before it.
#[derive(Clone, Copy, PartialEq, Eq)]
enum After {
    Nothing,
    PlanLine,
    PolicyLine,
    Vcpu,
    Mutex,
    Open,
    Guest,
    Task,
    Run,
    Lock,
    End,
}

/// Accepts a faultless plan; else the first bad line from the top, its lowest number, and the leftmost
/// field with a fault of that number.
pub fn read(input: &[u8]) -> Result<Plan, Refusal> {
    let mut plan = Plan::empty(Policy::Periodic, Overrun::Without);
    let mut after = After::Nothing;
    let mut rest = input;
    let mut line: u64 = 0;
    loop {
        line += 1;
        let refuse = |fault: Fault| Refusal {
            number: fault.number,
            line,
            field: fault.field,
        };
        if after == After::End {
            return if rest.is_empty() {
                Ok(plan)
            } else {
                Err(refuse(whole(SHAPE)))
            };
        }
        let (this, next) = match cut_line(rest) {
            Some(parts) => parts,
            None => return Err(refuse(whole(SHAPE))),
        };
        let fields: Vec<&[u8]> = this.split(|b| *b == b'\t').collect();
        after = take_line(&mut plan, after, &fields).map_err(refuse)?;
        rest = next;
    }
}

/// The bytes before the first LF and those after it; None without an LF.
pub fn cut_line(input: &[u8]) -> Option<(&[u8], &[u8])> {
    let at = input.iter().position(|b| *b == b'\n')?;
    let this = input.get(..at)?;
    let next = input.get(at + 1..)?;
    Some((this, next))
}

/// The number in this field: 1 to 7 decimal digits, no leading zero, `0` itself allowed; else 2 and
/// the field.
pub fn number(field: u64, bytes: &[u8]) -> Result<u64, Fault> {
    let digits = bytes.iter().all(|b| b.is_ascii_digit());
    let padded = bytes.len() > 1 && bytes.first() == Some(&b'0');
    if bytes.is_empty() || bytes.len() > DIGITS || !digits || padded {
        return Err(at(field, NUMBER));
    }
    Ok(bytes
        .iter()
        .fold(0, |sum, b| sum * 10 + u64::from(b - b'0')))
}

/// Exactly K number fields after the word: 1 for another count, then 2 for the leftmost bad form.
pub fn numbers<const K: usize>(fields: &[&[u8]]) -> Result<[u64; K], Fault> {
    if fields.len() != K {
        return Err(whole(SHAPE));
    }
    let mut out = [0; K];
    for ((place, bytes), field) in out.iter_mut().zip(fields).zip(2..) {
        *place = number(field, bytes)?;
    }
    Ok(out)
}

fn require(holds: bool, otherwise: Fault) -> Result<(), Fault> {
    if holds {
        Ok(())
    } else {
        Err(otherwise)
    }
}

/// The number in this field is low to high, both included; else 3 and the field.
fn within(field: u64, x: u64, low: u64, high: u64) -> Result<(), Fault> {
    require(low <= x && x <= high, at(field, RANGE))
}

/// Each arm tests the faults in the order of their numbers over the whole line, those of one number
/// from left to right.
fn take_line(plan: &mut Plan, after: After, fields: &[&[u8]]) -> Result<After, Fault> {
    let (word, rest) = fields.split_first().ok_or(whole(SHAPE))?;
    let word: &[u8] = word;
    match (after, word) {
        (After::Nothing, b"plan") => {
            require(
                rest.len() == 1 && rest.first() == Some(&&b"1"[..]),
                whole(SHAPE),
            )?;
            Ok(After::PlanLine)
        }
        (After::PlanLine, b"policy") => take_policy(plan, rest),
        (After::PolicyLine, b"vcpu") | (After::Vcpu, b"vcpu") => take_vcpu(plan, rest),
        (After::Vcpu, b"mutex") | (After::Mutex, b"mutex") => take_mutex(plan, rest),
        (After::Vcpu, b"open") | (After::Mutex, b"open") | (After::Open, b"open") => {
            take_open(plan, rest)
        }
        (After::Vcpu, b"guest")
        | (After::Mutex, b"guest")
        | (After::Open, b"guest")
        | (After::Run, b"guest") => take_guest(plan, rest),
        (After::Guest, b"task") | (After::Run, b"task") => take_task(plan, rest),
        (After::Task, b"run") => {
            let t = take_run(rest)?;
            if let Some(task) = last_task(plan) {
                task.first = t;
            }
            Ok(After::Run)
        }
        (After::Lock, b"run") => {
            let t = take_run(rest)?;
            if let Some(lock) = last_task(plan).and_then(|task| task.locks.last_mut()) {
                lock.run = t;
            }
            Ok(After::Run)
        }
        (After::Run, b"lock") => take_lock(plan, rest),
        (After::Run, b"end") => {
            require(rest.is_empty(), whole(SHAPE))?;
            Ok(After::End)
        }
        _ => Err(whole(SHAPE)),
    }
}

fn last_task(plan: &mut Plan) -> Option<&mut Task> {
    plan.sections.last_mut().and_then(|s| s.tasks.last_mut())
}

fn take_policy(plan: &mut Plan, rest: &[&[u8]]) -> Result<After, Fault> {
    let (p, o) = match rest {
        [p, o] => (*p, *o),
        _ => return Err(whole(SHAPE)),
    };
    plan.policy = match p {
        b"P" => Policy::Periodic,
        b"D" => Policy::Deferrable,
        _ => return Err(whole(SHAPE)),
    };
    plan.overrun = match o {
        b"O" => Overrun::With,
        b"N" => Overrun::Without,
        _ => return Err(whole(SHAPE)),
    };
    Ok(After::PolicyLine)
}

fn take_vcpu(plan: &mut Plan, rest: &[&[u8]]) -> Result<After, Fault> {
    let [v, guest, core, budget, period] = numbers::<5>(rest)?;
    within(2, v, 1, VCPUS)?;
    within(3, guest, 1, GUESTS)?;
    within(4, core, 0, TOP_CORE)?;
    // The budget's range ends at its period as written, whatever that is.
    within(5, budget, 1, period)?;
    within(6, period, 1, TICKS)?;
    require(
        plan.vcpus.last().map_or(true, |last| last.v < v),
        whole(ORDER),
    )?;
    plan.vcpus.push(Vcpu {
        v,
        guest,
        core,
        budget,
        period,
    });
    Ok(After::Vcpu)
}

fn take_mutex(plan: &mut Plan, rest: &[&[u8]]) -> Result<After, Fault> {
    let (m, owner) = match rest {
        [m, letter] if *letter == b"G" => {
            let m = number(2, m)?;
            within(2, m, 1, MUTEXES)?;
            (m, Owner::Global)
        }
        [m, letter, v] if *letter == b"L" => {
            // The letter is field 3.
            let (m, v) = (number(2, m)?, number(4, v)?);
            within(2, m, 1, MUTEXES)?;
            within(4, v, 1, VCPUS)?;
            (m, Owner::Local(v))
        }
        _ => return Err(whole(SHAPE)),
    };
    require(
        plan.mutexes.last().map_or(true, |last| last.m < m),
        whole(ORDER),
    )?;
    if let Owner::Local(v) = owner {
        require(plan.vcpu(v).is_some(), at(4, MISSING))?;
    }
    plan.mutexes.push(Mutex { m, owner });
    Ok(After::Mutex)
}

fn take_open(plan: &mut Plan, rest: &[&[u8]]) -> Result<After, Fault> {
    let [m, guest] = numbers::<2>(rest)?;
    within(2, m, 1, MUTEXES)?;
    within(3, guest, 1, GUESTS)?;
    require(
        plan.opens
            .last()
            .map_or(true, |last| (last.m, last.guest) < (m, guest)),
        whole(ORDER),
    )?;
    require(plan.is_global(m), at(2, MISSING))?;
    require(plan.guest_has_vcpu(guest), at(3, MISSING))?;
    plan.opens.push(Open { m, guest });
    Ok(After::Open)
}

fn take_guest(plan: &mut Plan, rest: &[&[u8]]) -> Result<After, Fault> {
    let [guest] = numbers::<1>(rest)?;
    within(2, guest, 1, GUESTS)?;
    require(
        plan.sections.last().map_or(true, |last| last.guest < guest),
        whole(ORDER),
    )?;
    require(plan.guest_has_vcpu(guest), at(2, MISSING))?;
    plan.sections.push(Section {
        guest,
        tasks: Vec::new(),
    });
    Ok(After::Guest)
}

fn take_task(plan: &mut Plan, rest: &[&[u8]]) -> Result<After, Fault> {
    let [v, n, period] = numbers::<3>(rest)?;
    within(2, v, 1, VCPUS)?;
    within(3, n, 1, PLACES)?;
    within(4, period, 1, TICKS)?;
    let before = plan
        .sections
        .last()
        .and_then(|s| s.tasks.last())
        .map(|t| (t.v, t.n));
    require(before.map_or(true, |last| last < (v, n)), whole(ORDER))?;
    let owner = plan.vcpu(v).map(|c| c.guest).ok_or(at(2, MISSING))?;
    let count = plan.tasks().count();
    let section = plan.sections.last_mut().ok_or(whole(SHAPE))?;
    require(owner == section.guest, at(2, OUTSIDE))?;
    require(count < TASKS, whole(TOO_MANY))?;
    section.tasks.push(Task {
        v,
        n,
        period,
        first: 0,
        locks: Vec::new(),
    });
    Ok(After::Task)
}

fn take_run(rest: &[&[u8]]) -> Result<u64, Fault> {
    let [t] = numbers::<1>(rest)?;
    within(2, t, 0, TICKS)?;
    Ok(t)
}

fn take_lock(plan: &mut Plan, rest: &[&[u8]]) -> Result<After, Fault> {
    let [m, t] = numbers::<2>(rest)?;
    within(2, m, 1, MUTEXES)?;
    within(3, t, 1, TICKS)?;
    let owner = plan.mutex(m).map(|x| x.owner).ok_or(at(2, MISSING))?;
    let (guest, v, count) = plan
        .sections
        .last()
        .and_then(|s| s.tasks.last().map(|t| (s.guest, t.v, t.locks.len())))
        .ok_or(whole(SHAPE))?;
    let inside = match owner {
        Owner::Global => plan.is_open(m, guest),
        Owner::Local(home) => home == v,
    };
    require(inside, at(2, OUTSIDE))?;
    require(count < LOCKS, whole(TOO_MANY))?;
    if let Some(task) = last_task(plan) {
        task.locks.push(Lock { m, t, run: 0 });
    }
    Ok(After::Lock)
}
