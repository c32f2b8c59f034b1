//! Plans with faults.

use super::shapes::{draw, valid, Shape};
use super::Chance;
use crate::limits::{GUESTS, INPUT_BYTES, LOCKS, MUTEXES, PLACES, TASKS, TICKS, TOP_CORE, VCPUS};
use crate::reading::{number, read};

/// What a number field of a record stands for.
#[derive(Clone, Copy, PartialEq, Eq)]
enum Field {
    V,
    Guest,
    Core,
    Budget,
    Period,
    M,
    N,
    Run,
    Lock,
    Letter,
}

type Line = Vec<Vec<u8>>;

const WORDS: [&str; 13] = [
    "plan", "policy", "vcpu", "mutex", "open", "guest", "task", "run", "lock", "end", "", "Vcpu",
    "locks",
];

fn fields_of(line: &Line) -> &'static [Field] {
    match line.first().map(|word| word.as_slice()) {
        Some(b"vcpu") => &[
            Field::V,
            Field::Guest,
            Field::Core,
            Field::Budget,
            Field::Period,
        ],
        Some(b"mutex") => &[Field::M, Field::Letter, Field::V],
        Some(b"open") => &[Field::M, Field::Guest],
        Some(b"guest") => &[Field::Guest],
        Some(b"task") => &[Field::V, Field::N, Field::Period],
        Some(b"run") => &[Field::Run],
        Some(b"lock") => &[Field::M, Field::Lock],
        Some(b"policy") => &[Field::Letter, Field::Letter],
        Some(b"plan") => &[Field::Letter],
        _ => &[],
    }
}

fn range(field: Field) -> (u64, u64) {
    match field {
        Field::V => (1, VCPUS),
        Field::Guest => (1, GUESTS),
        Field::Core => (0, TOP_CORE),
        Field::Budget | Field::Period | Field::Lock => (1, TICKS),
        Field::M => (1, MUTEXES),
        Field::N => (1, PLACES),
        Field::Run | Field::Letter => (0, TICKS),
    }
}

fn parse(text: &[u8]) -> Vec<Line> {
    let mut lines: Vec<Line> = text
        .split(|b| *b == b'\n')
        .map(|line| line.split(|b| *b == b'\t').map(|f| f.to_vec()).collect())
        .collect();
    lines.pop();
    lines
}

fn join(lines: &[Line]) -> Vec<u8> {
    let mut out = Vec::new();
    for line in lines {
        out.extend_from_slice(&line.join(&b'\t'));
        out.push(b'\n');
    }
    out
}

/// A line chosen so that each kind of record is about as likely as another.
fn choose(chance: &mut Chance, lines: &[Line]) -> usize {
    let mut words: Vec<&[u8]> = Vec::new();
    for word in lines.iter().filter_map(|line| line.first()) {
        if !words.contains(&word.as_slice()) {
            words.push(word);
        }
    }
    let word = chance.pick(&words).copied().unwrap_or(b"plan");
    let places: Vec<usize> = (0..lines.len())
        .filter(|i| lines.get(*i).and_then(|l| l.first()).map(|w| w.as_slice()) == Some(word))
        .collect();
    chance.pick(&places).copied().unwrap_or(0)
}

/// A plan to be damaged, with most kinds of lines.
fn base(chance: &mut Chance) -> Vec<u8> {
    let plan = match chance.below(10) {
        0 => valid(chance, "minimal"),
        1 => valid(chance, "locals"),
        2 => valid(chance, "mixed"),
        _ => None,
    };
    let shape = Shape {
        vcpus: (2, 5),
        globals: (1, 3),
        locals: (1, 4),
        locks: (1, 3),
        tasks: (1, 2),
        run: (0, 50),
        lock: (1, 9),
        ..Shape::mixed()
    };
    plan.unwrap_or_else(|| draw(chance, &shape)).text()
}

fn misshape(chance: &mut Chance, line: &mut Line) {
    match chance.below(9) {
        0 => line.push(chance.between(0, 40).to_string().into_bytes()),
        1 => {
            line.pop();
        }
        2 => line.push(Vec::new()),
        3 => {
            let at = chance.place(line.len() + 1).min(line.len());
            line.insert(at, Vec::new());
        }
        4 => line.clear(),
        5 | 6 => {
            let other = chance.pick(&WORDS).copied().unwrap_or("");
            if let Some(word) = line.first_mut() {
                *word = other.as_bytes().to_vec();
            }
        }
        _ => {
            let letters = [
                "P", "D", "O", "N", "G", "L", "g", "", "GG", "1", "2", "01", "1\r",
            ];
            let letter = chance.pick(&letters).copied().unwrap_or("");
            let kinds = fields_of(line);
            let places: Vec<usize> = (0..kinds.len())
                .filter(|i| kinds.get(*i) == Some(&Field::Letter))
                .collect();
            match chance.pick(&places).and_then(|i| line.get_mut(i + 1)) {
                Some(field) => *field = letter.as_bytes().to_vec(),
                None => line.push(letter.as_bytes().to_vec()),
            }
        }
    }
}

/// A number field of a line with what it stands for.
fn number_field<'a>(chance: &mut Chance, line: &'a mut Line) -> Option<(Field, &'a mut Vec<u8>)> {
    let kinds = fields_of(line);
    let places: Vec<(usize, Field)> = kinds
        .iter()
        .copied()
        .enumerate()
        .filter(|(i, kind)| *kind != Field::Letter && i + 1 < line.len())
        .collect();
    let (at, kind) = chance.pick(&places).copied()?;
    line.get_mut(at + 1).map(|field| (kind, field))
}

fn misnumber(chance: &mut Chance, line: &mut Line) {
    if let Some((_, field)) = number_field(chance, line) {
        bad_form(chance, field);
    }
}

fn bad_form(chance: &mut Chance, field: &mut Vec<u8>) {
    let text = String::from_utf8_lossy(field).into_owned();
    let bad = match chance.below(14) {
        0 => String::new(),
        1 => format!("0{}", text),
        2 => "00".to_string(),
        3 => "10000000".to_string(),
        4 => "00000001".to_string(),
        5 => format!("+{}", text),
        6 => format!("-{}", text),
        7 => format!("{} ", text),
        8 => format!(" {}", text),
        9 => format!("{}x", text),
        10 => format!("{}\r", text),
        11 => format!("{}\0", text),
        12 => "18446744073709551617".to_string(),
        _ => "\u{663}".to_string(),
    };
    *field = bad.into_bytes();
}

fn misrange(chance: &mut Chance, line: &mut Line) {
    let top = top_of(line);
    if let Some((kind, field)) = number_field(chance, line) {
        out_of_range(chance, kind, top, field);
    }
}

/// The period of a `vcpu` line.
fn top_of(line: &Line) -> u64 {
    line.get(5).and_then(|f| number(6, f).ok()).unwrap_or(TICKS)
}

/// Mostly out of its range; a budget may be one more than its period, `top`.
fn out_of_range(chance: &mut Chance, kind: Field, top: u64, field: &mut Vec<u8>) {
    let (low, high) = range(kind);
    let bad = match chance.below(5) {
        0 => low.saturating_sub(1),
        1 => high + 1,
        2 if kind != Field::Budget => 9_999_999,
        2 | 3 if kind == Field::Budget => top + 1,
        _ => chance.between(high + 1, 9_999_999),
    };
    *field = bad.to_string().into_bytes();
}

type Pool = Vec<(Field, Vec<u8>)>;

/// The numbers of a plan with what they stand for.
fn pool_of(lines: &[Line]) -> Pool {
    lines
        .iter()
        .flat_map(|line| {
            let values = line.iter().skip(1).cloned();
            fields_of(line).iter().copied().zip(values)
        })
        .collect()
}

/// A reference or a key is set to another number of the plan or within its range.
fn mislead(chance: &mut Chance, line: &mut Line, pool: &Pool) {
    if let Some((kind, field)) = number_field(chance, line) {
        other_name(chance, kind, field, pool);
    }
}

fn other_name(chance: &mut Chance, kind: Field, field: &mut Vec<u8>, pool: &Pool) {
    let (low, high) = range(kind);
    if matches!(kind, Field::V | Field::Guest | Field::M | Field::N) {
        let alike: Vec<&Vec<u8>> = pool
            .iter()
            .filter(|(other, _)| *other == kind)
            .map(|(_, value)| value)
            .collect();
        *field = match chance.pick(&alike) {
            Some(value) if chance.percent(60) => value.to_vec(),
            _ => chance.between(low, high).to_string().into_bytes(),
        };
    }
}

/// A line gets the keys of the line before or after it, or is doubled or swapped.
fn misorder(chance: &mut Chance, lines: &mut Vec<Line>) {
    let at = choose(chance, lines);
    let pool = pool_of(lines);
    match chance.below(3) {
        0 => {
            if let Some(line) = lines.get(at).cloned() {
                lines.insert(at, line);
            }
        }
        1 => {
            if at + 1 < lines.len() {
                lines.swap(at, at + 1);
            }
        }
        _ => {
            if let Some(line) = lines.get_mut(at) {
                mislead(chance, line, &pool);
            }
        }
    }
}

fn drop_open(chance: &mut Chance, lines: &mut Vec<Line>) {
    let opens: Vec<usize> = (0..lines.len())
        .filter(|i| lines.get(*i).and_then(|l| l.first()).map(|w| w.as_slice()) == Some(b"open"))
        .collect();
    if let Some(at) = chance.pick(&opens).copied() {
        lines.remove(at);
    }
}

/// One fault, meant to be of this number.
fn fault(chance: &mut Chance, lines: &mut Vec<Line>, meant: u64) {
    let at = choose(chance, lines);
    let pool = pool_of(lines);
    match meant {
        4 => misorder(chance, lines),
        6 if chance.percent(20) => drop_open(chance, lines),
        7 => crowd(chance, lines),
        _ => {
            if let Some(line) = lines.get_mut(at) {
                line_fault(chance, line, meant, &pool);
            }
        }
    }
}

fn line_fault(chance: &mut Chance, line: &mut Line, meant: u64, pool: &Pool) {
    match meant {
        1 => misshape(chance, line),
        2 => misnumber(chance, line),
        3 => misrange(chance, line),
        _ => mislead(chance, line, pool),
    }
}

/// Adds locks to a task or tasks to a section until they are too many.
fn crowd(chance: &mut Chance, lines: &mut Vec<Line>) {
    let is = |line: Option<&Line>, word: &[u8]| {
        line.and_then(|l| l.first()).map(|w| w.as_slice()) == Some(word)
    };
    let locks: Vec<usize> = (0..lines.len())
        .filter(|i| is(lines.get(*i), b"lock"))
        .collect();
    let pair = chance
        .pick(&locks)
        .and_then(|at| Some((*at, lines.get(*at)?.clone(), lines.get(at + 1)?.clone())));
    if let Some((at, lock, run)) = pair {
        for _ in 0..chance.between(LOCKS as u64 - 1, LOCKS as u64 + 1) {
            lines.insert(at, run.clone());
            lines.insert(at, lock.clone());
        }
    }
}

/// A plan of 64 tasks and one more.
fn crowded_tasks(chance: &mut Chance) -> Vec<u8> {
    let shape = Shape {
        vcpus: (9, 12),
        tasks: (8, 8),
        locks: (0, 1),
        bare: 0,
        ..Shape::mixed()
    };
    let mut plan = draw(chance, &shape);
    let mut spare = Vec::new();
    for v in plan.vcpus.iter() {
        for n in 1..=PLACES {
            if plan.task(v.v, n).is_none() {
                spare.push((v.v, n, v.guest));
            }
        }
    }
    for _ in 0..chance.between(0, 2) {
        let like = plan.tasks().next().cloned();
        if let (Some((v, n, guest)), Some(mut task)) = (chance.pick(&spare).copied(), like) {
            task.v = v;
            task.n = n;
            task.locks.clear();
            if plan.tasks().count() >= TASKS + 2 || plan.task(v, n).is_some() {
                continue;
            }
            if let Some(s) = plan.sections.iter_mut().find(|s| s.guest == guest) {
                s.tasks.push(task);
                s.tasks.sort_by_key(|t| (t.v, t.n));
            }
        }
    }
    plan.text()
}

/// The bytes of a damaged case.
pub fn damaged(chance: &mut Chance, kind: &str) -> Vec<u8> {
    match kind {
        "refuse1" => aimed(chance, 1),
        "refuse2" => aimed(chance, 2),
        "refuse3" => aimed(chance, 3),
        "refuse4" => aimed(chance, 4),
        "refuse5" => aimed(chance, 5),
        "refuse6" => aimed(chance, 6),
        "refuse7" => aimed(chance, 7),
        "sameline" => same_line(chance),
        "fields" => in_fields(chance),
        "twolines" => {
            let mut lines = parse(&base(chance));
            for _ in 0..2 {
                let meant = chance.between(1, 7);
                fault(chance, &mut lines, meant);
            }
            join(&lines)
        }
        "toomany" => too_many(chance),
        "torn" => torn(chance),
        "spacing" => spacing(chance),
        "lines" => moved_lines(chance),
        "bytes" => changed_bytes(chance),
        "afterend" => after_end(chance),
        "noise" => noise(chance),
        "oversize" => oversize(chance),
        _ => few_bytes(chance),
    }
}

/// Faults are tried until the refusal is the one meant, at most 60 times.
fn aimed(chance: &mut Chance, meant: u64) -> Vec<u8> {
    let mut last = Vec::new();
    for _ in 0..60 {
        last = if meant == 7 && chance.percent(40) {
            crowded_tasks(chance)
        } else {
            let mut lines = parse(&base(chance));
            fault(chance, &mut lines, meant);
            join(&lines)
        };
        if let Err(refusal) = read(&last) {
            if u64::from(refusal.number) == meant {
                break;
            }
        }
    }
    last
}

/// A line refused by one number, then changed until a lower one decides.
fn same_line(chance: &mut Chance) -> Vec<u8> {
    let high = chance.between(2, 6);
    let text = aimed(chance, high);
    let at = match read(&text) {
        Err(refusal) => refusal.line,
        Ok(_) => return text,
    };
    let low = chance.between(if high == 2 { 1 } else { 2 }, high - 1);
    let whole = parse(&text);
    let pool = pool_of(&whole);
    let mut last = text;
    for _ in 0..30 {
        let mut lines = whole.clone();
        if let Some(line) = lines.get_mut(at.saturating_sub(1) as usize) {
            line_fault(chance, line, low, &pool);
        }
        last = join(&lines);
        if let Err(refusal) = read(&last) {
            if u64::from(refusal.number) == low && refusal.line == at {
                break;
            }
        }
    }
    last
}

/// The number fields of each kind of line, the word being field 1; a `mutex` line with its letter.
const NUMBER_FIELDS: [(&[u8], &[u8], &[u64]); 8] = [
    (b"vcpu", b"", &[2, 3, 4, 5, 6]),
    (b"mutex", b"G", &[2]),
    (b"mutex", b"L", &[2, 4]),
    (b"open", b"", &[2, 3]),
    (b"guest", b"", &[2]),
    (b"task", b"", &[2, 3, 4]),
    (b"run", b"", &[2]),
    (b"lock", b"", &[2, 3]),
];

/// Can a fault of this number stand in this field?
fn can_be(number: u64, word: &[u8], letter: &[u8], field: u64) -> bool {
    match number {
        2 | 3 => true,
        5 => matches!(
            (word, letter, field),
            (b"mutex", b"L", 4)
                | (b"open", _, _)
                | (b"guest", _, 2)
                | (b"task", _, 2)
                | (b"lock", _, 2)
        ),
        _ => matches!((word, field), (b"task", 2) | (b"lock", 2)),
    }
}

/// One line with a fault in a chosen field, any that can have it; often more such faults to its right, and
/// faults of higher numbers beside it.
fn in_fields(chance: &mut Chance) -> Vec<u8> {
    let mut faults = Vec::new();
    for meant in [2, 3, 5, 6] {
        for (word, letter, fields) in NUMBER_FIELDS {
            let able = fields.iter().filter(|f| can_be(meant, word, letter, **f));
            faults.extend(able.map(|f| (meant, word, letter, fields, *f)));
        }
    }
    let mut last = Vec::new();
    let (meant, word, letter, fields, chosen) = match chance.pick(&faults) {
        Some(fault) => *fault,
        None => return last,
    };
    for _ in 0..60 {
        let mut lines = parse(&base(chance));
        let pool = pool_of(&lines);
        let of_kind = |line: &Line| {
            line.first().map_or(false, |w| w == word)
                && (letter.is_empty() || line.get(2).map_or(false, |l| l == letter))
        };
        let places: Vec<usize> = (0..lines.len())
            .filter(|i| lines.get(*i).map_or(false, of_kind))
            .collect();
        let at = chance.pick(&places).copied().unwrap_or(lines.len());
        if let Some(line) = lines.get_mut(at) {
            spoil(chance, line, meant, fields, chosen, &pool);
        }
        last = join(&lines);
        if let Err(refusal) = read(&last) {
            if u64::from(refusal.number) == meant && refusal.line == at as u64 + 1 {
                break;
            }
        }
    }
    last
}

/// Of `fields`, the chosen one and some to its right get faults of the number meant; others, some of a higher one.
fn spoil(
    chance: &mut Chance,
    line: &mut Line,
    meant: u64,
    fields: &[u64],
    chosen: u64,
    pool: &Pool,
) {
    let top = top_of(line);
    let kinds = fields_of(line);
    for f in fields {
        let number = if *f == chosen || (*f > chosen && chance.percent(50)) {
            meant
        } else if chance.percent(30) {
            chance.between(meant + 1, 4)
        } else {
            continue;
        };
        let kind = kinds.get(*f as usize - 2).copied();
        if let (Some(kind), Some(field)) = (kind, line.get_mut(*f as usize - 1)) {
            match number {
                2 => bad_form(chance, field),
                3 => out_of_range(chance, kind, top, field),
                _ => other_name(chance, kind, field, pool),
            }
        }
    }
}

/// The line that is one too many mostly carries a fault of a lower number too.
fn too_many(chance: &mut Chance) -> Vec<u8> {
    let meant = chance.between(1, 8);
    let mut last = Vec::new();
    for _ in 0..40 {
        let text = if chance.percent(50) {
            crowded_tasks(chance)
        } else {
            let mut lines = parse(&base(chance));
            crowd(chance, &mut lines);
            join(&lines)
        };
        let at = match read(&text) {
            Err(refusal) if refusal.number == 7 => refusal.line,
            _ => continue,
        };
        if meant > 6 {
            return text;
        }
        let mut lines = parse(&text);
        let pool = pool_of(&lines);
        for _ in 0..6 {
            let whole = lines.clone();
            if let Some(line) = lines.get_mut(at.saturating_sub(1) as usize) {
                line_fault(chance, line, meant, &pool);
            }
            last = join(&lines);
            if let Err(refusal) = read(&last) {
                if u64::from(refusal.number) == meant && refusal.line == at {
                    return last;
                }
            }
            lines = whole;
        }
    }
    last
}

fn torn(chance: &mut Chance) -> Vec<u8> {
    let mut text = base(chance);
    match chance.below(3) {
        0 => {
            // Just after an LF, so that a line is due.
            let ends: Vec<usize> = (0..text.len())
                .filter(|i| text.get(*i) == Some(&b'\n'))
                .collect();
            let at = chance.pick(&ends).copied().unwrap_or(0);
            text.truncate(at + 1);
        }
        1 => text.truncate(text.len().saturating_sub(1 + chance.place(5))),
        _ => {
            let at = chance.place(text.len());
            text.truncate(at);
        }
    }
    if chance.one_in(4) {
        let mut lines = parse(&[&text[..], b"\n"].concat());
        let meant = chance.between(1, 6);
        fault(chance, &mut lines, meant);
        let mut out = join(&lines);
        out.pop();
        return out;
    }
    text
}

fn spacing(chance: &mut Chance) -> Vec<u8> {
    let mut text = base(chance);
    match chance.below(8) {
        0 => {
            let lines = parse(&text);
            let mut out = Vec::new();
            for line in lines {
                out.extend_from_slice(&line.join(&b'\t'));
                out.extend_from_slice(b"\r\n");
            }
            out
        }
        1 => {
            for b in text.iter_mut().filter(|b| **b == b'\t') {
                *b = b' ';
            }
            text
        }
        style => {
            let mark: &[u8] = match style {
                2 => b"\r",
                3 => b"\0",
                4 => b"\t",
                5 => b" ",
                6 => b"\n",
                _ => b"\xff",
            };
            let mut lines = parse(&text);
            let at = choose(chance, &lines);
            if let Some(line) = lines.get_mut(at) {
                let f = chance.place(line.len());
                if let Some(field) = line.get_mut(f) {
                    let i = if chance.percent(50) {
                        field.len()
                    } else {
                        chance.place(field.len() + 1).min(field.len())
                    };
                    for (k, b) in mark.iter().enumerate() {
                        field.insert(i + k, *b);
                    }
                }
            }
            join(&lines)
        }
    }
}

fn moved_lines(chance: &mut Chance) -> Vec<u8> {
    let mut lines = parse(&base(chance));
    for _ in 0..chance.between(1, 2) {
        let at = choose(chance, &lines);
        let to = chance.place(lines.len());
        if at >= lines.len() || to >= lines.len() {
            continue;
        }
        match chance.below(4) {
            0 => {
                lines.remove(at);
            }
            1 => {
                if let Some(line) = lines.get(at).cloned() {
                    lines.insert(at, line);
                }
            }
            2 => lines.swap(at, to),
            _ => {
                let line = lines.remove(at);
                lines.insert(to, line);
            }
        }
    }
    join(&lines)
}

fn changed_bytes(chance: &mut Chance) -> Vec<u8> {
    let mut text = base(chance);
    for _ in 0..chance.between(1, 3) {
        let at = chance.place(text.len());
        let likely = b"0123456789\t\nGLPDON";
        let byte = if chance.percent(60) {
            chance.pick(likely).copied().unwrap_or(b'0')
        } else {
            chance.below(256) as u8
        };
        match chance.below(3) {
            0 => {
                if let Some(place) = text.get_mut(at) {
                    *place = byte;
                }
            }
            1 => text.insert(at.min(text.len()), byte),
            _ => {
                if at < text.len() {
                    text.remove(at);
                }
            }
        }
    }
    text
}

fn after_end(chance: &mut Chance) -> Vec<u8> {
    let mut text = base(chance);
    let again = text.clone();
    let more: &[u8] = match chance.below(7) {
        0 => b"\n",
        1 => b"x",
        2 => b"end\n",
        3 => b"\0",
        4 => b"\t",
        5 => &again,
        _ => b"guest\t4\ntask\t1\t1\t5\nrun\t1\nend\n",
    };
    text.extend_from_slice(more);
    text
}

fn few_bytes(chance: &mut Chance) -> Vec<u8> {
    let few: [&[u8]; 8] = [
        b"",
        b"\n",
        b"p",
        b"plan\t1",
        b"plan\t1\n",
        b"end\n",
        b"\t\n",
        b"\0",
    ];
    chance.pick(&few).copied().unwrap_or(b"").to_vec()
}

fn noise(chance: &mut Chance) -> Vec<u8> {
    let mut out = if chance.percent(70) {
        b"plan\t1\npolicy\tD\tO\nvcpu\t1\t1\t0\t1\t2\n".to_vec()
    } else {
        Vec::new()
    };
    for _ in 0..chance.between(1, 12) {
        let word = chance.pick(&WORDS).copied().unwrap_or("");
        out.extend_from_slice(word.as_bytes());
        for _ in 0..chance.below(6) {
            out.extend_from_slice(format!("\t{}", chance.spread(0, 99)).as_bytes());
        }
        out.push(b'\n');
    }
    out
}

/// Just above, at, or far above the size that is judged.
fn oversize(chance: &mut Chance) -> Vec<u8> {
    let mut text = base(chance);
    let size = match chance.below(4) {
        0 => INPUT_BYTES,
        1 => INPUT_BYTES + 1,
        2 => INPUT_BYTES + 4096,
        _ => INPUT_BYTES - 1,
    };
    let filler = if chance.percent(50) { b'\n' } else { b'0' };
    if chance.percent(50) {
        // The filler stands before `end`.
        text.truncate(text.len().saturating_sub(4));
    }
    text.resize(size, filler);
    text
}
