//! Tables to be written out, each with the room for the text: of plans, drawn as numbers, and damaged.

use super::shapes::valid;
use super::{weighed, Chance, VALID};
use crate::limits::{GUESTS, LOCKS, MUTEXES, PLACES, TASKS, TICKS, TOP_CORE, VCPUS};
use crate::write::{
    tables, write, Call, Tables, LOCK_PLACE, MUTEX_ROW, OPEN_ROW, TASK_HEAD, TASK_ROW, VCPU_ROW,
};

/// The kinds of table cases: name, weight, what it holds.
pub const TABLE_KINDS: [(&str, u64, &str); 17] = [
    ("plan", 20, "tables of a generated plan"),
    ("drawn", 25, "tables drawn as numbers"),
    ("number", 12, "one number changed"),
    ("counts", 6, "a count of rows changed"),
    ("cut", 5, "a table shorter than its rows"),
    (
        "place",
        5,
        "a number in the place of a lock that is not there",
    ),
    ("locks", 4, "a count of locks changed"),
    (
        "long",
        10,
        "a number with a high bit set, or of eight digits and more",
    ),
    ("owner", 4, "a mutex of a VCPU that is not there"),
    ("removed", 6, "a row taken out"),
    ("doubled", 3, "a row twice"),
    ("swapped", 5, "two rows in each other's place"),
    ("letters", 3, "a policy or overrun that is none"),
    ("record", 3, "a record that has not six numbers"),
    ("sections", 4, "guests that do not rise"),
    ("crowd", 3, "more than 64 tasks"),
    ("bare", 3, "no task, or no VCPU"),
];

/// A call of the function for C, and the kind of its tables.
#[derive(Clone, PartialEq, Eq, Debug)]
pub struct TableCase {
    pub kind: &'static str,
    pub call: Call,
}

/// Case `index` of the mix.
pub fn table_case(seed: u64, index: u64) -> TableCase {
    let chance = &mut Chance::new(seed, index, 8);
    let kind = weighed(chance, &TABLE_KINDS);
    let base = match kind {
        "plan" => of_plan(chance),
        "drawn" => drawn(chance),
        "crowd" => crowd(chance),
        _ if chance.percent(50) => of_plan(chance),
        _ => drawn(chance),
    };
    let mut lent = base.clone();
    damage(chance, kind, &mut lent);
    if kind != "cut" && chance.percent(60) {
        lengthen(chance, &mut lent);
    }
    // The room goes by the text, or by that of the tables before they were damaged.
    let text = write(&lent, usize::MAX).or_else(|_| write(&base, usize::MAX));
    let room = room(chance, text.map_or(1000, |t| t.len()));
    TableCase {
        kind,
        call: Call { tables: lent, room },
    }
}

fn room(chance: &mut Chance, size: usize) -> usize {
    match chance.below(10) {
        0 => 0,
        1 | 2 => size - 1,
        3 => chance.place(size),
        4 | 5 => size + 1,
        6 => size + chance.place(5000),
        _ => size,
    }
}

fn of_plan(chance: &mut Chance) -> Tables {
    let kind = chance.pick(&VALID).copied().unwrap_or("mixed");
    valid(chance, kind).map_or_else(Tables::default, |plan| tables(&plan))
}

/// Ticks from low on; the least and the greatest are not rare.
fn ticks(chance: &mut Chance, low: u64) -> u64 {
    match chance.below(12) {
        0 => low,
        1 => TICKS,
        _ => chance.spread(low, TICKS),
    }
}

/// The record that goes with these rows.
fn record(chance: &mut Chance, lent: &Tables) -> Vec<u64> {
    let mut record = vec![chance.below(2), chance.below(2)];
    for (table, width) in [
        (&lent.vcpus, VCPU_ROW),
        (&lent.mutexes, MUTEX_ROW),
        (&lent.opens, OPEN_ROW),
        (&lent.tasks, TASK_ROW),
    ] {
        record.push((table.len() / width) as u64);
    }
    record
}

/// Rows drawn number by number, with at most 64 tasks.
fn drawn(chance: &mut Chance) -> Tables {
    let count = chance.spread(1, VCPUS);
    let mut out = owned(chance, count);
    let bare = chance.below(50);
    let most = chance.between(1, PLACES);
    let rows = tasks(chance, &out, bare, most);
    out.tasks = rows.into_iter().take(TASKS).flatten().collect();
    if out.tasks.is_empty() {
        let v = chance.pick(&values(&out.vcpus, VCPU_ROW, 0)).copied();
        let n = chance.between(1, PLACES);
        out.tasks = task(chance, &out, v.unwrap_or(1), n);
    }
    out.record = record(chance, &out);
    out
}

/// As `drawn`, but for 65 to 128 tasks.
fn crowd(chance: &mut Chance) -> Tables {
    let mut out = owned(chance, VCPUS);
    let most = chance.between(TASKS as u64 + 1, VCPUS * PLACES);
    let rows = tasks(chance, &out, 0, PLACES);
    let kept = rows.into_iter().take(most as usize);
    out.tasks = kept.flatten().collect();
    out.record = record(chance, &out);
    out
}

/// One number of each row.
fn values(table: &[u64], width: usize, at: usize) -> Vec<u64> {
    let column = table.chunks(width).filter_map(|row| row.get(at));
    column.copied().collect()
}

/// VCPUs, mutexes and opens.
fn owned(chance: &mut Chance, count: u64) -> Tables {
    let mut out = Tables::default();
    for v in chance.some_of(1, VCPUS, count) {
        let period = ticks(chance, 1);
        let budget = match chance.below(4) {
            0 => period,
            _ => chance.between(1, period),
        };
        let (guest, core) = (chance.between(1, GUESTS), chance.between(0, TOP_CORE));
        out.vcpus.extend([v, guest, core, budget, period]);
    }
    let all = values(&out.vcpus, VCPU_ROW, 0);
    let guests = values(&out.vcpus, VCPU_ROW, 1);
    let count = chance.spread(0, MUTEXES);
    for m in chance.some_of(1, MUTEXES, count) {
        let home = chance.pick(&all).copied().unwrap_or(0);
        let owner = if chance.percent(50) { 0 } else { home };
        out.mutexes.extend([m, owner]);
        for guest in 1..=GUESTS {
            if owner == 0 && guests.contains(&guest) && chance.percent(70) {
                out.opens.extend([m, guest]);
            }
        }
    }
    out
}

/// A row for each task: guests rising, and (v, n) in each; `most` on a VCPU, none on `bare` percent of them.
fn tasks(chance: &mut Chance, lent: &Tables, bare: u64, most: u64) -> Vec<Vec<u64>> {
    let mut rows = Vec::new();
    for guest in 1..=GUESTS {
        for row in lent.vcpus.chunks(VCPU_ROW) {
            if row.get(1) != Some(&guest) || chance.percent(bare) {
                continue;
            }
            let count = if bare == 0 {
                most
            } else {
                chance.between(1, most)
            };
            let v = row.first().copied().unwrap_or(1);
            for n in chance.some_of(1, PLACES, count) {
                rows.push(task(chance, lent, v, n));
            }
        }
    }
    rows
}

/// The guest of a VCPU, 0 where it is not there.
fn guest_of(lent: &Tables, v: u64) -> u64 {
    let own = lent
        .vcpus
        .chunks(VCPU_ROW)
        .find(|row| row.first() == Some(&v));
    own.and_then(|row| row.get(1)).copied().unwrap_or(0)
}

/// One row, with locks of mutexes that are the VCPU's own or open to its guest.
fn task(chance: &mut Chance, lent: &Tables, v: u64, n: u64) -> Vec<u64> {
    let guest = guest_of(lent, v);
    let own = lent
        .mutexes
        .chunks(MUTEX_ROW)
        .filter(|row| row.get(1) == Some(&v));
    let open = lent
        .opens
        .chunks(OPEN_ROW)
        .filter(|row| row.get(1) == Some(&guest));
    let may: Vec<u64> = own
        .chain(open)
        .filter_map(|row| row.first())
        .copied()
        .collect();
    let count = match chance.below(6) {
        _ if may.is_empty() => 0,
        0 => 0,
        1 => LOCKS as u64,
        _ => chance.between(0, LOCKS as u64),
    };
    let mut row = vec![v, n, ticks(chance, 1), ticks(chance, 0), count];
    for _ in 0..count {
        let m = chance.pick(&may).copied().unwrap_or(1);
        row.extend([m, ticks(chance, 1), ticks(chance, 0)]);
    }
    row.resize(TASK_ROW, 0);
    row
}

/// Numbers beyond the rows: any, small ones, or the table's own first ones.
fn lengthen(chance: &mut Chance, lent: &mut Tables) {
    for (table, width) in all(lent) {
        let more = match chance.below(4) {
            0 => 0,
            1 => width,
            _ => chance.place(3 * width),
        };
        let style = chance.below(3);
        for i in 0..more {
            let x = match style {
                0 => chance.draw(),
                1 => chance.below(10),
                _ => table.get(i).copied().unwrap_or(0),
            };
            table.push(x);
        }
    }
}

/// Each table with the numbers of a row.
fn all(lent: &mut Tables) -> [(&mut Vec<u64>, usize); 4] {
    [
        (&mut lent.vcpus, VCPU_ROW),
        (&mut lent.mutexes, MUTEX_ROW),
        (&mut lent.opens, OPEN_ROW),
        (&mut lent.tasks, TASK_ROW),
    ]
}

/// A table that has rows, its place among the four, and the numbers of a row.
fn some_table<'a>(
    chance: &mut Chance,
    lent: &'a mut Tables,
) -> Option<(usize, &'a mut Vec<u64>, usize)> {
    let mut full: Vec<(usize, (&mut Vec<u64>, usize))> = all(lent)
        .into_iter()
        .enumerate()
        .filter(|(_, (table, _))| !table.is_empty())
        .collect();
    let at = chance.place(full.len());
    if at >= full.len() {
        return None;
    }
    let (place, (table, width)) = full.swap_remove(at);
    Some((place, table, width))
}

/// One of the counts of rows in the record.
fn count_of(record: &mut [u64], place: usize) -> Option<&mut u64> {
    record.get_mut(2 + place)
}

/// One number anywhere in the rows, at times in the record.
fn some_number<'a>(chance: &mut Chance, lent: &'a mut Tables) -> Option<&'a mut u64> {
    if chance.one_in(12) {
        let at = chance.place(lent.record.len());
        return lent.record.get_mut(at);
    }
    let (_, table, _) = some_table(chance, lent)?;
    let at = chance.place(table.len());
    table.get_mut(at)
}

/// The row of a task: one of them, if there is one.
fn some_task<'a>(chance: &mut Chance, lent: &'a mut Tables) -> Option<&'a mut [u64]> {
    let mut rows: Vec<&mut [u64]> = lent.tasks.chunks_mut(TASK_ROW).collect();
    let at = chance.place(rows.len());
    if at < rows.len() {
        Some(rows.swap_remove(at))
    } else {
        None
    }
}

/// A number that is x in its lower bits, or nearly all a number can be, or of just eight digits.
fn long(chance: &mut Chance, x: u64) -> u64 {
    let high = [8, 16, 32, 32, 63];
    match chance.below(8) {
        0 => u64::MAX,
        1 => 10_000_000,
        2 => chance.between(10_000_000, 99_999_999),
        3 => u64::MAX - x,
        _ => x.wrapping_add(1 << chance.pick(&high).copied().unwrap_or(32)),
    }
}

/// A count whose rows take, modulo 2^64, about as many numbers as there are.
fn wrapping(chance: &mut Chance, count: u64, width: u64) -> u64 {
    if width % 2 == 0 {
        return count.wrapping_add(1 << 63);
    }
    // Newton's way to the number that times the width is 1.
    let mut inverse = width;
    for _ in 0..6 {
        inverse = inverse.wrapping_mul(2u64.wrapping_sub(width.wrapping_mul(inverse)));
    }
    inverse.wrapping_mul(chance.between(0, count * width + 2))
}

/// The damage of a kind; none for the kinds without.
fn damage(chance: &mut Chance, kind: &str, lent: &mut Tables) {
    match kind {
        "number" => change(chance, lent, other),
        "long" => change(chance, lent, long),
        "counts" => miscount(chance, lent),
        "cut" => cut(chance, lent),
        "place" => fill_place(chance, lent),
        "locks" => miscount_locks(chance, lent),
        "owner" => disown(chance, lent),
        "removed" | "doubled" | "swapped" => misplace(chance, kind, lent),
        "letters" => misletter(chance, lent),
        "record" => match chance.below(5) {
            0 => lent.record.clear(),
            1 => lent.record.truncate(chance.place(5) + 1),
            2 => lent.record.truncate(5),
            3 => lent.record.push(0),
            _ => lent.record.push(chance.draw()),
        },
        "sections" => regroup(chance, lent),
        "bare" => {
            let which = chance.below(4);
            if which < 2 {
                drop_rows(lent, 3);
            }
            if which > 0 {
                drop_rows(lent, 0);
            }
        }
        _ => {}
    }
}

fn change(chance: &mut Chance, lent: &mut Tables, to: fn(&mut Chance, u64) -> u64) {
    if let Some(x) = some_number(chance, lent) {
        *x = to(chance, *x);
    }
}

/// A number beside x, or at an edge of a range.
fn other(chance: &mut Chance, x: u64) -> u64 {
    let edges = [
        0, 1, 3, 4, 5, 8, 9, 16, 17, 32, 33, 1_000_000, 1_000_001, 9_999_999,
    ];
    match chance.below(4) {
        0 => x + 1,
        1 => x.saturating_sub(1),
        2 => chance.below(40),
        _ => chance.pick(&edges).copied().unwrap_or(0),
    }
}

/// A table that lacks a number, a row, or more of its end.
fn cut(chance: &mut Chance, lent: &mut Tables) {
    if let Some((_, table, width)) = some_table(chance, lent) {
        let less = match chance.below(3) {
            0 => 1,
            1 => width,
            _ => chance.place(table.len()) + 1,
        };
        table.truncate(table.len().saturating_sub(less));
    }
}

fn miscount_locks(chance: &mut Chance, lent: &mut Tables) {
    let row = some_task(chance, lent);
    if let Some(count) = row.and_then(|row| row.get_mut(TASK_HEAD - 1)) {
        *count = match chance.below(8) {
            0 | 1 => LOCKS as u64 + 1,
            2 => chance.between(LOCKS as u64 + 1, 40),
            3 => count.saturating_sub(1),
            4 => *count + 1,
            _ => long(chance, *count),
        };
    }
}

/// A mutex is local to a VCPU that is not there.
fn disown(chance: &mut Chance, lent: &mut Tables) {
    let there = values(&lent.vcpus, VCPU_ROW, 0);
    let at = chance.place(lent.mutexes.len() / MUTEX_ROW) * MUTEX_ROW;
    let owner = match chance.below(6) {
        0 => VCPUS + 1,
        1 => u64::MAX,
        _ => chance.between(1, VCPUS + 2),
    };
    let most = there.last().map_or(VCPUS, |v| v + 1);
    let owner = if there.contains(&owner) { most } else { owner };
    if let Some(x) = lent.mutexes.get_mut(at + 1) {
        *x = owner;
    }
}

fn misletter(chance: &mut Chance, lent: &mut Tables) {
    let at = chance.place(2);
    let most = chance.between(2, 3);
    if let Some(x) = lent.record.get_mut(at) {
        *x = match chance.below(100) {
            0..=49 => most,
            _ => long(chance, *x),
        };
    }
}

/// A count that is another, or one whose rows only seem to be there.
fn miscount(chance: &mut Chance, lent: &mut Tables) {
    let place = chance.place(4);
    let width = [VCPU_ROW, MUTEX_ROW, OPEN_ROW, TASK_ROW][place] as u64;
    if let Some(count) = count_of(&mut lent.record, place) {
        *count = match chance.below(7) {
            0 | 1 => *count + 1,
            2 | 3 => count.saturating_sub(1),
            4 => chance.below(*count),
            5 => long(chance, *count),
            _ => wrapping(chance, *count, width),
        };
    }
}

/// A number where a task has no lock.
fn fill_place(chance: &mut Chance, lent: &mut Tables) {
    if let Some(row) = some_task(chance, lent) {
        let count = row.get(TASK_HEAD - 1).copied().unwrap_or(0) as usize;
        let from = TASK_HEAD + LOCK_PLACE * count;
        let at = match chance.below(3) {
            0 => from,
            1 => TASK_ROW - 1,
            _ => from + chance.place(TASK_ROW.saturating_sub(from)),
        };
        if let Some(x) = row.get_mut(at).filter(|_| at >= from) {
            *x = match chance.below(3) {
                0 => 1,
                1 => chance.between(1, TICKS),
                _ => long(chance, 0),
            };
        }
    }
}

fn rows_of(table: &[u64], width: usize) -> Vec<Vec<u64>> {
    table.chunks(width).map(<[u64]>::to_vec).collect()
}

/// A row taken out, doubled, or changed for another; the count goes with it.
fn misplace(chance: &mut Chance, kind: &str, lent: &mut Tables) {
    let (place, rows) = match some_table(chance, lent) {
        Some((place, table, width)) => {
            let mut rows = rows_of(table, width);
            let at = chance.place(rows.len());
            let beside = (at + 1) % rows.len();
            let any = chance.place(rows.len());
            match kind {
                "removed" => drop(rows.remove(at)),
                "doubled" => rows.insert(at, rows[at].clone()),
                _ if chance.percent(50) => rows.swap(at, beside),
                _ => rows.swap(at, any),
            }
            *table = rows.concat();
            (place, rows.len() as u64)
        }
        None => return,
    };
    if let Some(count) = count_of(&mut lent.record, place) {
        *count = rows;
    }
}

/// The tasks of the guests in falling order, or the first task behind all others.
fn regroup(chance: &mut Chance, lent: &mut Tables) {
    let mut rows = rows_of(&lent.tasks, TASK_ROW);
    if chance.percent(50) {
        rows.sort_by_key(|row| GUESTS - row.first().map_or(0, |v| guest_of(lent, *v)));
    } else {
        rows.rotate_left(1);
    }
    lent.tasks = rows.concat();
}

/// No row is left of one table.
fn drop_rows(lent: &mut Tables, place: usize) {
    if let Some(count) = count_of(&mut lent.record, place) {
        *count = 0;
    }
    if let Some((table, _)) = all(lent).into_iter().nth(place) {
        table.clear();
    }
}
