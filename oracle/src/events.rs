//! Event lines in, answer lines out.

use crate::board::{Board, Event, Reply};
use crate::limits::INPUT_BYTES;
use crate::reading::{cut_line, numbers, read, whole, SHAPE};
use crate::verdict::{refused, TOO_LONG};

const EMPTY: &[u8] = &[];

/// An event line without its LF: 1 for word or field count, then 2 for a number's form. An event's
/// refusal is the number alone.
pub fn event(line: &[u8]) -> Result<Event, u32> {
    let fields: Vec<&[u8]> = line.split(|b| *b == b'\t').collect();
    let (word, rest) = fields.split_first().ok_or(SHAPE)?;
    let word: &[u8] = word;
    let event = match word {
        b"ask" => numbers::<3>(rest).map(|[v, n, m]| Event::Ask { v, n, m }),
        b"free" => numbers::<3>(rest).map(|[v, n, m]| Event::Free { v, n, m }),
        b"use" => numbers::<2>(rest).map(|[v, t]| Event::Use { v, t }),
        b"top" => numbers::<1>(rest).map(|[v]| Event::Top { v }),
        b"show" => numbers::<2>(rest).map(|[v, n]| Event::Show { v, n }),
        _ => Err(whole(SHAPE)),
    };
    event.map_err(|fault| fault.number)
}

/// An event as `board` reads it, without its LF.
pub fn event_text(event: Event) -> String {
    match event {
        Event::Ask { v, n, m } => format!("ask\t{}\t{}\t{}", v, n, m),
        Event::Free { v, n, m } => format!("free\t{}\t{}\t{}", v, n, m),
        Event::Use { v, t } => format!("use\t{}\t{}", v, t),
        Event::Top { v } => format!("top\t{}", v),
        Event::Show { v, n } => format!("show\t{}\t{}", v, n),
    }
}

/// The answer's line.
pub fn reply_text(reply: Reply) -> String {
    match reply {
        Reply::Granted => "granted\n".to_string(),
        Reply::Waits => "waits\n".to_string(),
        Reply::Freed(Some((v, n))) => format!("freed\t{}\t{}\n", v, n),
        Reply::Freed(None) => "freed\t-\t-\n".to_string(),
        Reply::Left { b, o } => format!("left\t{}\t{}\n", b, o),
        Reply::Show { task, vcpu } => format!("show\t{}\t{}\n", task, vcpu),
        Reply::Refused(number) => format!("refused\t{}\n", number),
    }
}

/// Exactly what program `board` prints.
pub fn board_text(plan: &[u8], events: &[u8]) -> Vec<u8> {
    if plan.len() > INPUT_BYTES || events.len() > INPUT_BYTES {
        return refused(TOO_LONG);
    }
    let plan = match read(plan) {
        Ok(plan) => plan,
        Err(refusal) => return refused(refusal),
    };
    let mut board = Board::fresh(&plan);
    let mut out = Vec::new();
    let mut rest = events;
    while !rest.is_empty() {
        let (asked, next) = match cut_line(rest) {
            Some((line, next)) => (event(line), next),
            None => (Err(SHAPE), EMPTY),
        };
        let reply = match asked {
            Ok(event) => board.apply(&plan, event),
            Err(number) => Reply::Refused(number),
        };
        out.extend_from_slice(reply_text(reply).as_bytes());
        rest = next;
    }
    out
}
