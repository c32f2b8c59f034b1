//! Every refusal of a plan, at every kind of line and in every field, and which one goes first.

mod common;

use common::{text, worked, BASE};
use oracle::clock::clock_text;
use oracle::events::board_text;
use oracle::reading::{number, read, Fault, Refusal};
use oracle::verdict::verdict_text;

fn joined(lines: &[&str]) -> Vec<u8> {
    text(&(lines.join("/") + "/"))
}

/// The base with line `line` (from 1) put in place of its own.
fn with(line: usize, put: &str) -> Vec<u8> {
    let mut lines = BASE.to_vec();
    lines[line - 1] = put;
    joined(&lines)
}

/// Number, line and field.
fn refusal(input: &[u8]) -> Option<(u32, u64, u64)> {
    read(input)
        .err()
        .map(|refusal| (refusal.number, refusal.line, refusal.field))
}

fn refused_at(line: usize, put: &str, number: u32, field: u64) {
    assert_eq!(
        refusal(&with(line, put)),
        Some((number, line as u64, field)),
        "line {} as {:?}",
        line,
        put
    );
}

#[test]
fn the_base_is_accepted() {
    assert_eq!(refusal(&joined(&BASE)), None);
}

#[test]
fn shape() {
    for put in [
        "",
        "plan",
        "plan 2",
        "plan 01",
        "plan 1 1",
        "Plan 1",
        "plan 1 ",
        "policy D O",
    ] {
        refused_at(1, put, 1, 0);
    }
    for put in [
        "policy",
        "policy D",
        "policy O D",
        "policy d O",
        "policy D O ",
        "policy D  O",
    ] {
        refused_at(2, put, 1, 0);
    }
    for put in [
        "policy PD O",
        "policy D O N",
        "policy D o",
        "vcpu 1 1 0 3 20",
    ] {
        refused_at(2, put, 1, 0);
    }
    for put in [
        "vcpu",
        "vcpu 1 1 0 3",
        "vcpu 1 1 0 3 20 1",
        "vcpu 1 1 0 3 20 ",
        "mutex 1 G",
    ] {
        refused_at(3, put, 1, 0);
    }
    for put in [
        "mutex 1",
        "mutex 1 G 1",
        "mutex 1 L",
        "mutex 1 g",
        "mutex 1 X 1",
        "mutex x X",
    ] {
        refused_at(5, put, 1, 0);
    }
    for put in [
        "mutex 1 ",
        "mutex 1 G ",
        "mutex 1 L 1 1",
        "vcpu",
        "policy D O",
        "task 1 1 5",
    ] {
        refused_at(5, put, 1, 0);
    }
    for put in [
        "open 1",
        "open 1 1 1",
        "mutex 1 g",
        "vcpu 5 1 0 1 1 1",
        "run 1",
        "end",
    ] {
        refused_at(8, put, 1, 0);
    }
    for put in [
        "guest",
        "guest 1 1",
        "Guest 1",
        "task 1 1 100",
        "mutex 4 G",
        "vcpu 9 1 0 1 1",
    ] {
        refused_at(10, put, 1, 0);
    }
    for put in [
        "task 1 1",
        "task 1 1 100 1",
        "guest 2",
        "run 1",
        "lock 1 1",
        "end",
    ] {
        refused_at(11, put, 1, 0);
    }
    for put in ["run", "run 1 1", "lock 1 1", "task 1 2 3", "guest 2", "end"] {
        refused_at(12, put, 1, 0);
    }
    for put in [
        "lock 1",
        "lock 1 1 1",
        "run 1",
        "open 3 1",
        "mutex 9 G",
        "plan 1",
    ] {
        refused_at(13, put, 1, 0);
    }
    for put in ["run", "lock 1 1", "end", "guest 2", "task 1 2 9"] {
        refused_at(14, put, 1, 0);
    }
    for put in ["end 1", "end ", "End", "", "run 1"] {
        refused_at(22, put, 1, 0);
    }
}

#[test]
fn shape_of_ends() {
    let whole = joined(&BASE);
    assert_eq!(refusal(b""), Some((1, 1, 0)));
    assert_eq!(refusal(b"\n"), Some((1, 1, 0)));
    assert_eq!(refusal(b"plan\t1"), Some((1, 1, 0)));
    assert_eq!(refusal(b"plan\t1\n"), Some((1, 2, 0)));
    assert_eq!(refusal(&whole[..whole.len() - 1]), Some((1, 22, 0)));
    assert_eq!(refusal(&whole[..whole.len() - 4]), Some((1, 22, 0)));
    for more in [&b"\n"[..], b"x", b"\0", b"end\n", b"\n\n", b"vcpu\t0\tx"] {
        let input = [&whole[..], more].concat();
        assert_eq!(refusal(&input), Some((1, 23, 0)));
    }
    // An unended line is 1 whatever its fields are.
    let torn = [&joined(&BASE[..11])[..], b"run\tx"].concat();
    assert_eq!(refusal(&torn), Some((1, 12, 0)));
    let crlf: Vec<u8> = BASE.join("\r\n").replace(' ', "\t").into_bytes();
    assert_eq!(refusal(&crlf), Some((1, 1, 0)));
}

#[test]
fn number_form() {
    for bad in [
        "", "00", "01", "+1", "-1", "1x", "x", "00000001", "10000000", "1\r", "1\0", "\u{663}",
    ] {
        refused_at(3, &format!("vcpu {} 1 0 3 20", bad), 2, 2);
        refused_at(3, &format!("vcpu 1 {} 0 3 20", bad), 2, 3);
        refused_at(3, &format!("vcpu 1 1 {} 3 20", bad), 2, 4);
        refused_at(3, &format!("vcpu 1 1 0 {} 20", bad), 2, 5);
        refused_at(3, &format!("vcpu 1 1 0 3 {}", bad), 2, 6);
        refused_at(5, &format!("mutex {} G", bad), 2, 2);
        refused_at(6, &format!("mutex {} L 1", bad), 2, 2);
        refused_at(6, &format!("mutex 2 L {}", bad), 2, 4);
        refused_at(8, &format!("open {} 1", bad), 2, 2);
        refused_at(8, &format!("open 1 {}", bad), 2, 3);
        refused_at(10, &format!("guest {}", bad), 2, 2);
        refused_at(11, &format!("task {} 1 100", bad), 2, 2);
        refused_at(11, &format!("task 1 {} 100", bad), 2, 3);
        refused_at(11, &format!("task 1 1 {}", bad), 2, 4);
        refused_at(12, &format!("run {}", bad), 2, 2);
        refused_at(13, &format!("lock {} 1", bad), 2, 2);
        refused_at(13, &format!("lock 1 {}", bad), 2, 3);
        refused_at(14, &format!("run {}", bad), 2, 2);
    }
}

#[test]
fn ranges() {
    for (put, field) in [
        ("vcpu 0 1 0 3 20", 2),
        ("vcpu 17 1 0 3 20", 2),
        ("vcpu 1 0 0 3 20", 3),
        ("vcpu 1 5 0 3 20", 3),
        ("vcpu 1 1 4 3 20", 4),
        ("vcpu 1 1 0 0 20", 5),
        ("vcpu 1 1 0 21 20", 5),
        ("vcpu 1 1 0 3 1000001", 6),
    ] {
        refused_at(3, put, 3, field);
    }
    for (put, field) in [
        ("mutex 0 G", 2),
        ("mutex 33 G", 2),
        ("mutex 0 L 1", 2),
        ("mutex 33 L 1", 2),
        ("mutex 1 L 0", 4),
        ("mutex 1 L 17", 4),
    ] {
        refused_at(5, put, 3, field);
    }
    for (put, field) in [
        ("open 0 1", 2),
        ("open 33 1", 2),
        ("open 1 0", 3),
        ("open 1 5", 3),
    ] {
        refused_at(8, put, 3, field);
    }
    for put in ["guest 0", "guest 5", "guest 9999999"] {
        refused_at(10, put, 3, 2);
    }
    for (put, field) in [
        ("task 0 1 5", 2),
        ("task 17 1 5", 2),
        ("task 1 0 5", 3),
        ("task 1 9 5", 3),
        ("task 1 1 0", 4),
        ("task 1 1 1000001", 4),
    ] {
        refused_at(11, put, 3, field);
    }
    refused_at(12, "run 1000001", 3, 2);
    refused_at(16, "run 9999999", 3, 2);
    for (put, field) in [
        ("lock 0 1", 2),
        ("lock 33 1", 2),
        ("lock 1 0", 3),
        ("lock 1 1000001", 3),
    ] {
        refused_at(13, put, 3, field);
    }
    for (line, put) in [
        (3, "vcpu 1 4 3 20 20"),
        (3, "vcpu 1 1 3 1000000 1000000"),
        (7, "mutex 32 L 1"),
        (11, "task 1 8 1000000"),
        (11, "task 1 1 1"),
        (12, "run 0"),
        (12, "run 1000000"),
        (13, "lock 1 1000000"),
    ] {
        let found = refusal(&with(line, put));
        assert!(
            found.map_or(true, |(number, at, _)| (number, at) != (3, line as u64)),
            "line {} as {:?}",
            line,
            put
        );
    }
}

/// A budget goes from 1 to its period as written, whatever that is.
#[test]
fn a_budget_and_its_period() {
    for (budget, period, field) in [
        (0, 20, 5),
        (21, 20, 5),
        (2, 1, 5),
        (1_000_001, 1_000_000, 5),
        // No budget is within 1 to 0.
        (0, 0, 5),
        (1, 0, 5),
        (5, 0, 5),
        (9_999_999, 0, 5),
        (0, 1_000_001, 5),
        (1_000_002, 1_000_001, 5),
        (3_000_000, 2_000_000, 5),
        (1, 1_000_001, 6),
        (1_000_000, 1_000_001, 6),
        (1_000_001, 1_000_001, 6),
        (2_000_000, 3_000_000, 6),
        (9_999_999, 9_999_999, 6),
    ] {
        refused_at(3, &format!("vcpu 1 1 0 {} {}", budget, period), 3, field);
    }
    refused_at(3, "vcpu 1 1 4 5 0", 3, 4);
    refused_at(3, "vcpu 1 1 0 0 x", 2, 6);
    refused_at(3, "vcpu 1 1 0 05 0", 2, 5);
    for (budget, period) in [(1, 1), (20, 20), (1_000_000, 1_000_000)] {
        let put = format!("vcpu 1 1 0 {} {}", budget, period);
        assert_eq!(refusal(&with(3, &put)), None);
    }
}

/// Every number field of every kind of line in turn good, badly written or out of its range, each with each:
/// of the faults with the lowest number, the leftmost is given.
#[test]
fn the_leftmost_field_of_the_lowest_number() {
    // A line of the base, its number fields left bare, and for each of them its place and a number that is
    // good there, one badly written and one out of its range. A period that is out of its range is above it, so
    // that the budget's own range holds.
    type Field<'a> = (u64, [&'a str; 3]);
    let kinds: [(usize, &str, &[Field]); 9] = [
        (
            3,
            "vcpu _ _ _ _ _",
            &[
                (2, ["1", "01", "17"]),
                (3, ["1", "", "0"]),
                (4, ["0", "-0", "4"]),
                (5, ["3", "3x", "0"]),
                (6, ["20", "12345678", "1000001"]),
            ],
        ),
        (5, "mutex _ G", &[(2, ["1", "1\r", "33"])]),
        (
            6,
            "mutex _ L _",
            &[(2, ["2", "+2", "0"]), (4, ["1", "00", "9999999"])],
        ),
        (
            8,
            "open _ _",
            &[(2, ["1", "", "33"]), (3, ["1", "one", "5"])],
        ),
        (10, "guest _", &[(2, ["1", "1\0", "0"])]),
        (
            11,
            "task _ _ _",
            &[
                (2, ["1", "x", "0"]),
                (3, ["1", "1.", "9"]),
                (4, ["100", "0100", "0"]),
            ],
        ),
        (12, "run _", &[(2, ["2", "10000000", "1000001"])]),
        (
            13,
            "lock _ _",
            &[(2, ["1", "G", "99"]), (3, ["1", "-1", "0"])],
        ),
        (14, "run _", &[(2, ["2", "", "9999999"])]),
    ];
    let mut cases = 0;
    for (line, bare, fields) in kinds {
        for choice in 0..3usize.pow(fields.len() as u32) {
            let mut put = bare.to_string();
            let mut wanted: Option<(u32, u64)> = None;
            for (i, (field, ways)) in fields.iter().enumerate() {
                let way = choice / 3usize.pow(i as u32) % 3;
                put = put.replacen('_', ways[way], 1);
                let number = [0, 2, 3][way];
                if number > 0 && wanted.map_or(true, |(lowest, _)| number < lowest) {
                    wanted = Some((number, *field));
                }
            }
            match wanted {
                Some((number, field)) => refused_at(line, &put, number, field),
                None => assert_eq!(refusal(&with(line, &put)), None, "{:?}", put),
            }
            cases += 1;
        }
    }
    assert_eq!(cases, 243 + 3 + 9 + 9 + 3 + 27 + 3 + 9 + 3);
    // A fault of a higher number further left does not count.
    refused_at(3, "vcpu 17 1 0 x 20", 2, 5);
    refused_at(4, "vcpu 1 9 0 2 1x", 2, 6);
    refused_at(4, "vcpu 1 2 0 2 1000001", 3, 6);
    refused_at(6, "mutex 1 L 17", 3, 4);
    refused_at(9, "open 1 5", 3, 3);
    refused_at(9, "open 9 x", 2, 3);
    refused_at(11, "task 9 9 5", 3, 3);
    refused_at(18, "task 1 1 0", 3, 4);
    refused_at(20, "lock 2 0", 3, 3);
    refused_at(20, "lock 9 1x", 2, 3);
}

#[test]
fn order() {
    refused_at(4, "vcpu 1 2 0 2 10", 4, 0);
    refused_at(6, "mutex 1 L 1", 4, 0);
    refused_at(7, "mutex 1 G", 4, 0);
    refused_at(9, "open 1 1", 4, 0);
    refused_at(17, "guest 1", 4, 0);
    // Pairs compare as pairs, and the order of tasks restarts in each section.
    let two = "plan 1/policy P N/vcpu 1 2 0 1 1/vcpu 2 1 0 1 1/vcpu 3 1 0 1 1/mutex 1 G/mutex 2 G/\
               open 1 2/open 2 1/guest 1/task 2 8 5/run 0/task 3 1 5/run 0/guest 2/task 1 1 5/run 0/\
               end/";
    assert_eq!(refusal(&text(two)), None);
    let back = two.replace("task 3 1 5", "task 2 7 5");
    assert_eq!(refusal(&text(&back)), Some((4, 13, 0)));
    let same = two.replace("task 3 1 5", "task 2 8 5");
    assert_eq!(refusal(&text(&same)), Some((4, 13, 0)));
}

#[test]
fn missing() {
    // A local mutex's VCPU.
    refused_at(6, "mutex 2 L 3", 5, 4);
    refused_at(7, "mutex 32 L 16", 5, 4);
    // The mutex of an `open`: local, not declared; then its guest; of both the mutex.
    refused_at(8, "open 2 1", 5, 2);
    refused_at(8, "open 4 1", 5, 2);
    refused_at(8, "open 1 3", 5, 3);
    refused_at(9, "open 3 4", 5, 3);
    refused_at(8, "open 2 3", 5, 2);
    refused_at(9, "open 4 4", 5, 2);
    // A section's guest.
    refused_at(10, "guest 3", 5, 2);
    refused_at(17, "guest 4", 5, 2);
    // A task's VCPU and a lock's mutex.
    refused_at(11, "task 3 1 100", 5, 2);
    refused_at(18, "task 16 8 100", 5, 2);
    refused_at(13, "lock 4 1", 5, 2);
    refused_at(20, "lock 32 1000000", 5, 2);
}

#[test]
fn outside() {
    // Another guest's VCPU.
    refused_at(11, "task 2 1 100", 6, 2);
    refused_at(18, "task 1 2 50", 6, 2);
    // Another VCPU's local mutex; a global one that is not open to this guest.
    refused_at(20, "lock 2 1", 6, 2);
    refused_at(13, "lock 3 1", 6, 2);
    let mut lines = BASE.to_vec();
    lines[8] = "open 3 2";
    assert_eq!(refusal(&joined(&lines)), Some((6, 20, 2)));
}

/// A plan of one task with this many locks before `last`.
fn locks(count: usize, last: &str) -> Vec<u8> {
    let head = "plan 1/policy P N/vcpu 1 1 0 1 1/mutex 1 L 1/mutex 2 G/guest 1/task 1 1 9/run 0/";
    text(&format!(
        "{}{}{}",
        head,
        "lock 1 1/run 0/".repeat(count),
        last
    ))
}

#[test]
fn too_many_locks() {
    assert_eq!(refusal(&locks(8, "end/")), None);
    assert_eq!(refusal(&locks(8, "lock 1 1/run 0/end/")), Some((7, 25, 0)));
    for (last, number, field) in [
        ("lock 1/", 1, 0),
        ("lock 1 1", 1, 0),
        ("lock 1 x/", 2, 3),
        ("lock 1 0/", 3, 3),
        ("lock 3 1/", 5, 2),
        ("lock 2 1/", 6, 2),
    ] {
        let wanted = Some((number, 25, field));
        assert_eq!(refusal(&locks(8, last)), wanted, "{}", last);
    }
}

/// A plan with 64 tasks on VCPUs 1 to 8 of guest 1, then `last`; VCPU 10 is guest 2's.
fn tasks(last: &str) -> Vec<u8> {
    let mut out = String::from("plan 1/policy P N/");
    for v in 1..=9 {
        out.push_str(&format!("vcpu {} 1 0 1 1/", v));
    }
    out.push_str("vcpu 10 2 0 1 1/guest 1/");
    for v in 1..=8 {
        for n in 1..=8 {
            out.push_str(&format!("task {} {} 9/run 0/", v, n));
        }
    }
    text(&(out + last))
}

#[test]
fn too_many_tasks() {
    assert_eq!(refusal(&tasks("end/")), None);
    let line = 2 + 10 + 1 + 128 + 1;
    for (last, number, field) in [
        ("task 9 1 9/run 0/end/", 7, 0),
        ("task 9 1/", 1, 0),
        ("task 9 1 x/", 2, 4),
        ("task 9 9 9/", 3, 3),
        ("task 8 8 9/", 4, 0),
        ("task 11 1 9/", 5, 2),
        ("task 10 1 9/", 6, 2),
    ] {
        let wanted = Some((number, line, field));
        assert_eq!(refusal(&tasks(last)), wanted, "{}", last);
    }
    // The 65th task counts over the whole plan.
    assert_eq!(
        refusal(&tasks("guest 2/task 10 1 9/run 0/end/")),
        Some((7, line + 1, 0))
    );
}

#[test]
fn the_lowest_number_in_a_line() {
    refused_at(11, "task 0 x 5", 2, 3);
    refused_at(11, "task 0 x", 1, 0);
    refused_at(3, "vcpu 99 1 0 30 0x", 2, 6);
    refused_at(4, "vcpu 1 9 0 2 10", 3, 3);
    refused_at(6, "mutex 1 L 9", 4, 0);
    refused_at(6, "mutex 0 L 9", 3, 2);
    refused_at(6, "mutex x L 99", 2, 2);
    refused_at(6, "mutex x M 99", 1, 0);
    refused_at(9, "open 1 1", 4, 0);
    refused_at(9, "open 1 3", 5, 3);
    refused_at(13, "lock 40 x", 2, 3);
    refused_at(20, "lock 2 0", 3, 3);
    refused_at(17, "guest 0", 3, 2);
    let later = "plan 1/policy P N/vcpu 2 2 0 1 1/mutex 3 G/open 3 2/open 2 2/";
    assert_eq!(refusal(&text(later)), Some((4, 6, 0)));
}

#[test]
fn the_first_bad_line_decides() {
    let mut lines = BASE.to_vec();
    lines[10] = "task 1 9 100";
    lines[12] = "lock";
    lines[21] = "END";
    assert_eq!(refusal(&joined(&lines)), Some((3, 11, 3)));
    lines[3] = "vcpu 1 2 0 2 10";
    assert_eq!(refusal(&joined(&lines)), Some((4, 4, 0)));
}

#[test]
fn one_number_says_its_field() {
    for field in 1..9 {
        let bad = Err(Fault { number: 2, field });
        for form in ["", "00", "01", "+1", "-1", " 1", "1 ", "x", "12345678"] {
            assert_eq!(number(field, form.as_bytes()), bad, "{:?}", form);
        }
        for (form, is) in [("0", 0), ("7", 7), ("10", 10), ("9999999", 9_999_999)] {
            assert_eq!(number(field, form.as_bytes()), Ok(is));
        }
    }
}

#[test]
fn sizes_of_the_programs() {
    let plan = text(&worked("D O"));
    let mut long = plan.clone();
    long.resize(65_536, b'\n');
    assert_eq!(verdict_text(&long), b"refused\t1\t19\t0\n");
    long.push(b'\n');
    assert_eq!(verdict_text(&long), b"refused\t8\t0\t0\n");
    assert_eq!(
        read(&long),
        Err(Refusal {
            number: 1,
            line: 19,
            field: 0
        })
    );
    assert_eq!(board_text(&long, b""), b"refused\t8\t0\t0\n");
    // Sizes come before the plan, and the plan before any event.
    let events = vec![b'\n'; 65_537];
    assert_eq!(board_text(b"bad", &events), b"refused\t8\t0\t0\n");
    assert_eq!(board_text(&plan, &events), b"refused\t8\t0\t0\n");
    assert_eq!(board_text(b"bad", b"top\t1\n"), b"refused\t1\t1\t0\n");
    assert_eq!(board_text(b"", b""), b"refused\t1\t1\t0\n");
    assert_eq!(board_text(&plan, b""), b"");
    assert_eq!(
        board_text(&plan, &events[..65_536]).len(),
        65_536 * b"refused\t1\n".len()
    );
}

/// All three programs print the field of a plan's refusal; an event's and a horizon's have none.
#[test]
fn the_field_is_printed() {
    for (line, put, wanted) in [
        (3, "vcpu 1 1 0 x 20", "refused 2 3 5/"),
        (6, "mutex 2 L 17", "refused 3 6 4/"),
        (7, "mutex 1 G", "refused 4 7 0/"),
        (8, "open 1 3", "refused 5 8 3/"),
        (20, "lock 2 1", "refused 6 20 2/"),
        (22, "End", "refused 1 22 0/"),
    ] {
        let (plan, wanted) = (with(line, put), text(wanted));
        assert_eq!(verdict_text(&plan), wanted);
        assert_eq!(board_text(&plan, b"top\tx\n"), wanted);
        assert_eq!(clock_text(&plan, b"horizon\tx\n"), wanted);
    }
    let plan = joined(&BASE);
    for (event, wanted) in [
        ("top/", "refused 1/"),
        ("ask 1 1 x/", "refused 2/"),
        ("use 1 0/", "refused 3/"),
        ("top 9/", "refused 10/"),
    ] {
        assert_eq!(board_text(&plan, &text(event)), text(wanted));
    }
    for (horizon, wanted) in [
        ("horizon", "refused 1/"),
        ("horizon x/", "refused 2/"),
        ("horizon 0/", "refused 3/"),
    ] {
        assert_eq!(clock_text(&plan, &text(horizon)), text(wanted));
    }
    let long = vec![b'\n'; 65_537];
    assert_eq!(clock_text(&plan, &long), text("refused 8 0 0/"));
}
