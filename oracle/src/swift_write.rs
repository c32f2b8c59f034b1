//! Plans written out, for speed: what a proved writer is timed beside. One pass over the rows judges them and counts the
//! bytes of their lines, a second one writes these; no plan and no text is made on the way. It shares no rule with
//! `write`, which asks the reader, and a test holds the two together.

use crate::limits::{GUESTS, LOCKS, MUTEXES, PLACES, TASKS, TICKS, TOP_CORE, VCPUS};
use crate::write::{
    FOREIGN, LOCK_PLACE, MUTEX_ROW, OPEN_ROW, RECORD, ROOM, TASK_HEAD, TASK_ROW, VCPU_ROW,
};

const V: usize = VCPUS as usize + 1;
const G: usize = GUESTS as usize + 1;
const M: usize = MUTEXES as usize + 1;
/// The owner of a mutex that is not there.
const NOBODY: u64 = VCPUS + 1;

/// The rows that the record counts, and its two letters.
struct Rows<'a> {
    policy: u8,
    overrun: u8,
    vcpus: &'a [u64],
    mutexes: &'a [u64],
    opens: &'a [u64],
    tasks: &'a [u64],
}

/// Writes the text of the plan that these tables are of at the start of `out`, and says how long it is: 9 where there is
/// no such plan, then 8 where the text is longer than `out`, which is then as it was.
pub fn write(
    record: &[u64],
    vcpus: &[u64],
    mutexes: &[u64],
    opens: &[u64],
    tasks: &[u64],
    out: &mut [u8],
) -> Result<usize, u32> {
    let rows = rows(record, vcpus, mutexes, opens, tasks).ok_or(FOREIGN)?;
    let mut judge = Judge::new();
    judge.all(&rows).ok_or(FOREIGN)?;
    let room = out.get_mut(..judge.size).ok_or(ROOM)?;
    let mut pen = Pen { out: room, at: 0 };
    pen.all(&rows, &judge.guest);
    Ok(pen.at)
}

fn rows<'a>(
    record: &[u64],
    vcpus: &'a [u64],
    mutexes: &'a [u64],
    opens: &'a [u64],
    tasks: &'a [u64],
) -> Option<Rows<'a>> {
    if record.len() != RECORD || record[0] > 1 || record[1] > 1 {
        return None;
    }
    Some(Rows {
        policy: if record[0] == 0 { b'P' } else { b'D' },
        overrun: if record[1] == 0 { b'N' } else { b'O' },
        vcpus: part(vcpus, record[2], VCPUS, VCPU_ROW)?,
        mutexes: part(mutexes, record[3], MUTEXES, MUTEX_ROW)?,
        opens: part(opens, record[4], MUTEXES * GUESTS, OPEN_ROW)?,
        tasks: part(tasks, record[5], TASKS as u64, TASK_ROW)?,
    })
}

/// The first rows of a table that may have up to `most`.
fn part(table: &[u64], count: u64, most: u64, width: usize) -> Option<&[u64]> {
    if count > most {
        return None;
    }
    table.get(..count as usize * width)
}

fn holds(holds: bool) -> Option<()> {
    holds.then_some(())
}

/// Digits of a number that has at most seven.
fn digits(x: u64) -> usize {
    1 + usize::from(x >= 10)
        + usize::from(x >= 100)
        + usize::from(x >= 1000)
        + usize::from(x >= 10_000)
        + usize::from(x >= 100_000)
        + usize::from(x >= 1_000_000)
}

/// What the rows before have declared, and how many bytes their lines take.
struct Judge {
    /// The guest of a VCPU, 0 where it is not there.
    guest: [u64; V],
    /// The guest has a VCPU.
    known: [bool; G],
    /// The owner of a mutex, 0 where it is global.
    owner: [u64; M],
    /// The mutex is open to the guest.
    open: [[bool; G]; M],
    size: usize,
}

impl Judge {
    fn new() -> Judge {
        Judge {
            guest: [0; V],
            known: [false; G],
            owner: [NOBODY; M],
            open: [[false; G]; M],
            size: "plan\t1\npolicy\tP\tO\nend\n".len(),
        }
    }

    fn all(&mut self, rows: &Rows) -> Option<()> {
        holds(!rows.vcpus.is_empty() && !rows.tasks.is_empty())?;
        let mut last = 0;
        for row in rows.vcpus.chunks_exact(VCPU_ROW) {
            self.vcpu(row, last)?;
            last = row[0];
        }
        last = 0;
        for row in rows.mutexes.chunks_exact(MUTEX_ROW) {
            self.mutex(row, last)?;
            last = row[0];
        }
        let mut pair = (0, 0);
        for row in rows.opens.chunks_exact(OPEN_ROW) {
            self.opening(row, pair)?;
            pair = (row[0], row[1]);
        }
        let mut place = (0, 0, 0);
        for row in rows.tasks.chunks_exact(TASK_ROW) {
            place = self.task(row, place)?;
        }
        Some(())
    }

    /// A number from low to high, and the tab or LF after it.
    fn number(&mut self, x: u64, low: u64, high: u64) -> Option<()> {
        self.size += digits(x) + 1;
        holds(low <= x && x <= high)
    }

    fn vcpu(&mut self, row: &[u64], last: u64) -> Option<()> {
        self.size += "vcpu\t".len();
        self.number(row[0], last + 1, VCPUS)?;
        self.number(row[1], 1, GUESTS)?;
        self.number(row[2], 0, TOP_CORE)?;
        self.number(row[3], 1, row[4])?;
        self.number(row[4], 1, TICKS)?;
        self.guest[row[0] as usize] = row[1];
        self.known[row[1] as usize] = true;
        Some(())
    }

    fn mutex(&mut self, row: &[u64], last: u64) -> Option<()> {
        self.size += "mutex\tG\n".len();
        self.number(row[0], last + 1, MUTEXES)?;
        if row[1] != 0 {
            self.number(row[1], 1, VCPUS)?;
            holds(self.guest[row[1] as usize] != 0)?;
        }
        self.owner[row[0] as usize] = row[1];
        Some(())
    }

    fn opening(&mut self, row: &[u64], last: (u64, u64)) -> Option<()> {
        self.size += "open\t".len();
        self.number(row[0], 1, MUTEXES)?;
        self.number(row[1], 1, GUESTS)?;
        let (m, guest) = (row[0] as usize, row[1] as usize);
        holds(last < (row[0], row[1]) && self.owner[m] == 0 && self.known[guest])?;
        self.open[m][guest] = true;
        Some(())
    }

    /// Guest, v and n of the task, which are above the last ones.
    fn task(&mut self, row: &[u64], last: (u64, u64, u64)) -> Option<(u64, u64, u64)> {
        self.size += "task\t".len();
        self.number(row[0], 1, VCPUS)?;
        self.number(row[1], 1, PLACES)?;
        self.number(row[2], 1, TICKS)?;
        self.run(row[3])?;
        let guest = self.guest[row[0] as usize];
        let place = (guest, row[0], row[1]);
        holds(guest != 0 && last < place && row[4] <= LOCKS as u64)?;
        if guest != last.0 {
            self.size += "guest\t1\n".len();
        }
        let (locks, rest) = row[TASK_HEAD..].split_at(row[4] as usize * LOCK_PLACE);
        for lock in locks.chunks_exact(LOCK_PLACE) {
            self.lock(lock, row[0], guest)?;
        }
        holds(rest.iter().all(|x| *x == 0))?;
        Some(place)
    }

    fn run(&mut self, ticks: u64) -> Option<()> {
        self.size += "run\t".len();
        self.number(ticks, 0, TICKS)
    }

    fn lock(&mut self, lock: &[u64], v: u64, guest: u64) -> Option<()> {
        self.size += "lock\t".len();
        self.number(lock[0], 1, MUTEXES)?;
        self.number(lock[1], 1, TICKS)?;
        let m = lock[0] as usize;
        holds(self.owner[m] == v || self.open[m][guest as usize])?;
        self.run(lock[2])
    }
}

/// Where the next byte goes.
struct Pen<'a> {
    out: &'a mut [u8],
    at: usize,
}

impl Pen<'_> {
    fn all(&mut self, rows: &Rows, guest: &[u64; V]) {
        self.put(b"plan\t1\npolicy\t");
        self.put(&[rows.policy, b'\t', rows.overrun, b'\n']);
        for row in rows.vcpus.chunks_exact(VCPU_ROW) {
            self.line(b"vcpu\t", row);
        }
        for row in rows.mutexes.chunks_exact(MUTEX_ROW) {
            self.put(b"mutex\t");
            self.number(row[0], b'\t');
            if row[1] == 0 {
                self.put(b"G\n");
            } else {
                self.line(b"L\t", &row[1..]);
            }
        }
        for row in rows.opens.chunks_exact(OPEN_ROW) {
            self.line(b"open\t", row);
        }
        let mut section = 0;
        for row in rows.tasks.chunks_exact(TASK_ROW) {
            let own = guest[row[0] as usize];
            if own != section {
                self.line(b"guest\t", &[own]);
                section = own;
            }
            self.task(row);
        }
        self.put(b"end\n");
    }

    fn task(&mut self, row: &[u64]) {
        self.line(b"task\t", &row[..3]);
        self.line(b"run\t", &row[3..4]);
        let locks = &row[TASK_HEAD..TASK_HEAD + row[4] as usize * LOCK_PLACE];
        for lock in locks.chunks_exact(LOCK_PLACE) {
            self.line(b"lock\t", &lock[..2]);
            self.line(b"run\t", &lock[2..]);
        }
    }

    /// A word and its tab, then numbers up to the end of the line.
    #[inline(always)]
    fn line(&mut self, word: &[u8], numbers: &[u64]) {
        self.put(word);
        for x in numbers {
            self.number(*x, b'\t');
        }
        self.out[self.at - 1] = b'\n';
    }

    #[inline(always)]
    fn put(&mut self, bytes: &[u8]) {
        let end = self.at + bytes.len();
        self.out[self.at..end].copy_from_slice(bytes);
        self.at = end;
    }

    /// A number of at most seven digits, and the byte after it. Most have one digit.
    #[inline(always)]
    fn number(&mut self, x: u64, after: u8) {
        let mut rest = x as u32;
        if rest < 10 {
            self.put(&[b'0' + rest as u8, after]);
            return;
        }
        let size = digits(x);
        let place = &mut self.out[self.at..self.at + size + 1];
        for digit in place[..size].iter_mut().rev() {
            *digit = b'0' + (rest % 10) as u8;
            rest /= 10;
        }
        place[size] = after;
        self.at += size + 1;
    }
}
