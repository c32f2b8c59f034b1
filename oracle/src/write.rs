//! A plan as tables of numbers, and from tables the plan's text.

use crate::limits::{INPUT_BYTES, LOCKS};
use crate::plan::{Lock, Mutex, Open, Overrun, Owner, Plan, Policy, Section, Task, Vcpu};
use crate::reading::{read, Refusal};
use crate::verdict::{refused, TOO_LONG};

/// Room: the text is longer than the buffer.
pub const ROOM: u32 = 8;
/// Foreign: no accepted plan gives these tables.
pub const FOREIGN: u32 = 9;

/// The numbers of the record, and of a row of each table.
pub const RECORD: usize = 6;
pub const VCPU_ROW: usize = 5;
pub const MUTEX_ROW: usize = 2;
pub const OPEN_ROW: usize = 2;
pub const TASK_ROW: usize = TASK_HEAD + LOCKS * LOCK_PLACE;
/// `v n period first count`, before the places of a task's locks.
pub const TASK_HEAD: usize = 5;
/// `m ticks after`.
pub const LOCK_PLACE: usize = 3;

/// The record and the tables as they are lent. The record is policy (0 is P, 1 is D), overrun (0 is N, 1 is O), and how
/// many rows of vcpus, mutexes, opens and tasks there are; what a table has beyond them does not matter.
#[derive(Clone, PartialEq, Eq, Debug, Default)]
pub struct Tables {
    pub record: Vec<u64>,
    /// `v guest core budget period`
    pub vcpus: Vec<u64>,
    /// `m owner`: 0 where it is global, else the v it is local to
    pub mutexes: Vec<u64>,
    /// `m guest`
    pub opens: Vec<u64>,
    /// `v n period first count`, then a place for each of 8 locks, zeros where there is none
    pub tasks: Vec<u64>,
}

/// The tables that an accepted plan gives, without a number to spare.
pub fn tables(plan: &Plan) -> Tables {
    let counts = [
        plan.vcpus.len(),
        plan.mutexes.len(),
        plan.opens.len(),
        plan.tasks().count(),
    ];
    let mut out = Tables {
        record: vec![
            u64::from(plan.policy == Policy::Deferrable),
            u64::from(plan.overrun == Overrun::With),
        ],
        ..Tables::default()
    };
    out.record.extend(counts.iter().map(|count| *count as u64));
    for c in &plan.vcpus {
        out.vcpus.extend([c.v, c.guest, c.core, c.budget, c.period]);
    }
    for x in &plan.mutexes {
        let owner = match x.owner {
            Owner::Global => 0,
            Owner::Local(v) => v,
        };
        out.mutexes.extend([x.m, owner]);
    }
    for o in &plan.opens {
        out.opens.extend([o.m, o.guest]);
    }
    for t in plan.tasks() {
        out.tasks.extend(task_row(t));
    }
    out
}

fn task_row(task: &Task) -> Vec<u64> {
    let count = task.locks.len() as u64;
    let mut row = vec![task.v, task.n, task.period, task.first, count];
    for lock in &task.locks {
        row.extend([lock.m, lock.t, lock.run]);
    }
    row.resize(TASK_ROW, 0);
    row
}

/// The numbers of the first `count` rows; None where the table has fewer.
fn rows(table: &[u64], count: u64, width: usize) -> Option<&[u64]> {
    let size = usize::try_from(count).ok()?.checked_mul(width)?;
    table.get(..size)
}

impl Tables {
    /// The same without what lies beyond the rows; None for another record than of six numbers, and where a table is
    /// shorter than its rows.
    fn trimmed(&self) -> Option<Tables> {
        let counts = match self.record.as_slice() {
            [_, _, counts @ ..] if counts.len() + 2 == RECORD => counts,
            _ => return None,
        };
        let part = |at: usize, table: &[u64], width: usize| {
            rows(table, *counts.get(at)?, width).map(<[u64]>::to_vec)
        };
        Some(Tables {
            record: self.record.clone(),
            vcpus: part(0, &self.vcpus, VCPU_ROW)?,
            mutexes: part(1, &self.mutexes, MUTEX_ROW)?,
            opens: part(2, &self.opens, OPEN_ROW)?,
            tasks: part(3, &self.tasks, TASK_ROW)?,
        })
    }
}

/// The plan that gives these tables; None where there is none. It is judged by its text: rows are put together as a plan,
/// whatever their numbers, the reader reads that plan's text, and the plan it accepts must give these very tables. No
/// other plan could give them, since every line follows from the rows.
pub fn plan_of(tables_lent: &Tables) -> Option<Plan> {
    let rows = tables_lent.trimmed()?;
    let plan = read(&put_together(&rows).text()).ok()?;
    (tables(&plan) == rows).then_some(plan)
}

/// A plan with the numbers of these rows, faults and all.
fn put_together(rows: &Tables) -> Plan {
    let policy = match rows.record.first() {
        Some(0) => Policy::Periodic,
        _ => Policy::Deferrable,
    };
    let overrun = match rows.record.get(1) {
        Some(0) => Overrun::Without,
        _ => Overrun::With,
    };
    let mut plan = Plan::empty(policy, overrun);
    for row in rows.vcpus.chunks(VCPU_ROW) {
        if let [v, guest, core, budget, period] = *row {
            plan.vcpus.push(Vcpu {
                v,
                guest,
                core,
                budget,
                period,
            });
        }
    }
    for row in rows.mutexes.chunks(MUTEX_ROW) {
        if let [m, v] = *row {
            let owner = if v == 0 {
                Owner::Global
            } else {
                Owner::Local(v)
            };
            plan.mutexes.push(Mutex { m, owner });
        }
    }
    for row in rows.opens.chunks(OPEN_ROW) {
        if let [m, guest] = *row {
            plan.opens.push(Open { m, guest });
        }
    }
    for task in rows.tasks.chunks(TASK_ROW).filter_map(task_of) {
        put_task(&mut plan, task);
    }
    plan
}

/// The task of a row, with as many of its locks as have a place.
fn task_of(row: &[u64]) -> Option<Task> {
    let (v, n, period, first, count, places) = match row {
        [v, n, period, first, count, places @ ..] => (*v, *n, *period, *first, *count, places),
        _ => return None,
    };
    let places = places.chunks(LOCK_PLACE).zip(0..count);
    let locks = places.filter_map(|(place, _)| match *place {
        [m, t, run] => Some(Lock { m, t, run }),
        _ => None,
    });
    Some(Task {
        v,
        n,
        period,
        first,
        locks: locks.collect(),
    })
}

/// The task goes into the last section if that is its guest's, else into one more. An undeclared VCPU's guest is 0.
fn put_task(plan: &mut Plan, task: Task) {
    let guest = plan.vcpu(task.v).map_or(0, |c| c.guest);
    match plan.sections.last_mut() {
        Some(section) if section.guest == guest => section.tasks.push(task),
        _ => plan.sections.push(Section {
            guest,
            tasks: vec![task],
        }),
    }
}

/// The text of the plan that these tables are of, for a buffer of so many bytes: 9 where there is no such plan, then 8
/// where its text is longer.
pub fn write(tables: &Tables, room: usize) -> Result<Vec<u8>, u32> {
    let text = plan_of(tables).ok_or(FOREIGN)?.text();
    if text.len() > room {
        return Err(ROOM);
    }
    Ok(text)
}

/// What `rewrite` prints: an accepted plan, read into tables and written out again, or why it is refused.
pub fn rewrite_text(input: &[u8]) -> Vec<u8> {
    if input.len() > INPUT_BYTES {
        return refused(TOO_LONG);
    }
    let written =
        read(input).and_then(|plan| write(&tables(&plan), INPUT_BYTES).map_err(whole_refusal));
    written.unwrap_or_else(refused)
}

/// The refusal of no line.
pub fn whole_refusal(number: u32) -> Refusal {
    Refusal {
        number,
        line: 0,
        field: 0,
    }
}

/// One call of the function for C: what is lent to it.
#[derive(Clone, PartialEq, Eq, Debug)]
pub struct Call {
    pub tables: Tables,
    pub room: usize,
}

/// Bytes behind the buffer that are looked at too.
pub const BEHIND: usize = 64;

/// What byte `at` of the buffer is before the call; no byte of a text.
fn before(at: usize) -> u8 {
    128 + (at % 127) as u8
}

impl Call {
    /// The room, then the record and each table, a line each: how many numbers, and the numbers.
    pub fn text(&self) -> Vec<u8> {
        let t = &self.tables;
        let mut out = format!("{}\n", self.room);
        for list in [&t.record, &t.vcpus, &t.mutexes, &t.opens, &t.tasks] {
            out.push_str(&list.len().to_string());
            for x in list {
                out.push_str(&format!(" {}", x));
            }
            out.push('\n');
        }
        out.into_bytes()
    }

    /// The call of such a text; None where it is another.
    pub fn parse(text: &[u8]) -> Option<Call> {
        let text = std::str::from_utf8(text).ok()?;
        let mut words = text.split_ascii_whitespace();
        let room = words.next()?.parse().ok()?;
        let mut list = || -> Option<Vec<u64>> {
            let count: usize = words.next()?.parse().ok()?;
            (0..count).map(|_| words.next()?.parse().ok()).collect()
        };
        let tables = Tables {
            record: list()?,
            vcpus: list()?,
            mutexes: list()?,
            opens: list()?,
            tasks: list()?,
        };
        words.next().is_none().then_some(Call { tables, room })
    }

    /// What is returned, a line, and then every byte of the buffer as it is left, and of those behind it.
    pub fn answer(&self) -> Vec<u8> {
        let (returned, text) = match write(&self.tables, self.room) {
            Ok(text) => (text.len() as i64, text),
            Err(number) => (-i64::from(number), Vec::new()),
        };
        let mut out = format!("{}\n", returned).into_bytes();
        out.extend_from_slice(&text);
        out.extend((text.len()..self.room + BEHIND).map(before));
        out
    }
}
