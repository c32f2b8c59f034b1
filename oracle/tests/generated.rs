//! The generated cases: what they hold, and that nothing panics over them.

mod common;

use std::collections::BTreeMap;

use common::{mark, ANSWERS};
use oracle::clock::{clock_text, clock_text_of};
use oracle::events::board_text;
use oracle::frames;
use oracle::generate::{
    board_case, clock_case, kind_of, plan_case, plan_case_of, valid_plan, Chance, KINDS, VALID,
};
use oracle::limits::INPUT_BYTES;
use oracle::plan::{Overrun, Policy};
use oracle::reading::read;
use oracle::tally::{Tally, Watch};
use oracle::verdict::verdict_text;

#[test]
fn valid_kinds_are_accepted_and_written_back() {
    for kind in VALID.iter() {
        for index in 0..80 {
            let bytes = plan_case_of(1, index, kind).unwrap();
            let plan =
                read(&bytes).unwrap_or_else(|refusal| panic!("{} {}: {:?}", kind, index, refusal));
            assert_eq!(plan.text(), bytes);
            assert_eq!(valid_plan(1, index, kind), Some(plan));
            assert!(bytes.len() <= INPUT_BYTES);
        }
    }
    assert_eq!(plan_case_of(1, 1, "no such kind"), None);
}

#[test]
fn accepted_cases_of_any_kind_are_written_back() {
    let mut accepted = 0;
    for index in 0..4000 {
        let bytes = plan_case(9, index);
        if let Ok(plan) = read(&bytes) {
            assert_eq!(plan.text(), bytes);
            accepted += 1;
        }
    }
    assert!(accepted > 1200 && accepted < 3000, "{}", accepted);
}

#[test]
fn valid_plans_hold_what_they_should() {
    let mut policies = BTreeMap::new();
    let (mut mingled, mut bare, mut zero, mut unlocked, mut full) = (0, 0, 0, 0, 0);
    for kind in VALID.iter() {
        for index in 0..60 {
            let p = valid_plan(4, index, kind).unwrap();
            let policy = (p.policy == Policy::Periodic, p.overrun == Overrun::With);
            *policies.entry(policy).or_insert(0) += 1;
            let order: Vec<(u64, u64)> = p.tasks().map(|t| (t.v, t.n)).collect();
            let mut rising = order.clone();
            rising.sort_unstable();
            mingled += u64::from(order != rising);
            bare += u64::from(p.vcpus.iter().any(|c| p.tasks_of(c.v).count() == 0));
            zero += u64::from(p.tasks().any(|t| t.lengths() == 0));
            unlocked += u64::from(
                p.mutexes
                    .iter()
                    .any(|x| !p.is_global(x.m) && p.ceiling(x.m) == 0),
            );
            full += u64::from(
                p.tasks().count() == 64 && p.tasks().filter(|t| t.locks.len() == 8).count() > 20,
            );
        }
    }
    assert!(policies.len() == 4 && policies.values().all(|n| *n > 50));
    for seen in [mingled, bare, zero, unlocked, full] {
        assert!(seen > 20, "{:?}", [mingled, bare, zero, unlocked, full]);
    }
}

#[test]
fn verdicts_near_the_edge_are_mixed() {
    let (mut fits, mut late) = (0, 0);
    for index in 0..200 {
        let out = verdict_text(&plan_case_of(6, index, "edge").unwrap());
        for line in common::spaced(&out).lines() {
            if line.starts_with("task ") || line.starts_with("vcpu ") {
                fits += u64::from(line.contains(" fits "));
                late += u64::from(!line.contains(" fits "));
            }
        }
    }
    assert!(fits < 2 * late && late < 2 * fits, "{} {}", fits, late);
}

/// The record in which a refusal stands, `due` where no line is there.
fn record(bytes: &[u8], line: u64) -> String {
    let lines: Vec<&[u8]> = bytes.split(|b| *b == b'\n').collect();
    let at = lines.get(line as usize - 1).copied().unwrap_or(b"");
    if line as usize >= 2 && lines.get(line as usize - 2) == Some(&&b"end"[..]) {
        return "after".to_string();
    }
    if at.is_empty() && line as usize == lines.len() {
        return "due".to_string();
    }
    let fields: Vec<&[u8]> = at.split(|b| *b == b'\t').collect();
    let word = String::from_utf8_lossy(fields[0]).into_owned();
    if word == "mutex" {
        format!(
            "mutex {}",
            String::from_utf8_lossy(fields.get(2).unwrap_or(&&b""[..]))
        )
    } else {
        word
    }
}

#[test]
fn every_refusal_at_every_kind_of_line() {
    let mut seen: BTreeMap<(u32, String), u64> = BTreeMap::new();
    for index in 0..9000 {
        let bytes = plan_case(31, index);
        if let Err(refusal) = read(&bytes) {
            let key = (refusal.number, record(&bytes, refusal.line));
            *seen.entry(key).or_insert(0) += 1;
        }
    }
    let expected: [(u32, &[&str]); 7] = [
        (
            1,
            &[
                "plan", "policy", "vcpu", "mutex G", "mutex L", "open", "guest", "task", "run",
                "lock", "end", "due", "after", "",
            ],
        ),
        (
            2,
            &[
                "vcpu", "mutex G", "mutex L", "open", "guest", "task", "run", "lock",
            ],
        ),
        (
            3,
            &[
                "vcpu", "mutex G", "mutex L", "open", "guest", "task", "run", "lock",
            ],
        ),
        (4, &["vcpu", "mutex G", "mutex L", "open", "guest", "task"]),
        (5, &["mutex L", "open", "guest", "task", "lock"]),
        (6, &["task", "lock"]),
        (7, &["task", "lock"]),
    ];
    for (number, words) in expected.iter() {
        for word in words.iter() {
            let count = seen.get(&(*number, word.to_string())).copied().unwrap_or(0);
            assert!(count > 3, "{} at {:?}: {}", number, word, count);
        }
    }
}

/// A number as it is to be written.
fn written(field: &str) -> Option<u64> {
    let number: u64 = field.parse().ok()?;
    (number.to_string() == field && field.len() <= 7).then_some(number)
}

/// The fields of a line that have a fault of this number, told from it and the lines above.
fn faulty(number: u32, above: &[Vec<String>], line: &[String]) -> Vec<u64> {
    let word = line[0].as_str();
    let places: &[u64] = match (word, line.get(2).map_or("", |f| f.as_str())) {
        ("vcpu", _) => &[2, 3, 4, 5, 6],
        ("task", _) => &[2, 3, 4],
        ("mutex", "L") => &[2, 4],
        ("open" | "lock", _) => &[2, 3],
        _ => &[2],
    };
    let at = |field: u64| line[field as usize - 1].as_str();
    let value = |field: u64| written(at(field)).unwrap_or(0);
    let stands = |fields: &[(u64, &str)]| {
        above.iter().any(|other| {
            let same = |(f, x): &(u64, &str)| other.get(*f as usize - 1).map_or(false, |y| y == x);
            fields.iter().all(same)
        })
    };
    let bad = |field: u64| match number {
        2 => written(at(field)).is_none(),
        3 => {
            let (low, high) = match (word, field) {
                ("vcpu" | "task", 2) | ("mutex", 4) => (1, 16),
                ("vcpu" | "open", 3) | ("guest", 2) => (1, 4),
                ("vcpu", 4) => (0, 3),
                ("vcpu", 5) => (1, value(6)),
                ("vcpu", 6) | ("task", 4) | ("lock", 3) => (1, 1_000_000),
                ("mutex" | "open" | "lock", 2) => (1, 32),
                ("task", 3) => (1, 8),
                _ => (0, 1_000_000),
            };
            value(field) < low || value(field) > high
        }
        5 => match (word, field) {
            ("task", 2) | ("mutex", 4) => !stands(&[(1, "vcpu"), (2, at(field))]),
            ("guest", 2) | ("open", 3) => !stands(&[(1, "vcpu"), (3, at(field))]),
            ("open", 2) => !stands(&[(1, "mutex"), (2, at(2)), (3, "G")]),
            ("lock", 2) => !stands(&[(1, "mutex"), (2, at(2))]),
            _ => false,
        },
        6 => field == 2,
        _ => false,
    };
    places.iter().copied().filter(|field| bad(*field)).collect()
}

/// Counts by number, kind of line and field.
type ByField = BTreeMap<(u32, String, u64), u64>;

/// All cases of a seed that the programs judge: how often each refusal comes with each field, and how often
/// with more than one field of that fault. The field is always the first of them.
fn by_field(seed: u64, count: u64) -> (ByField, ByField) {
    let (mut seen, mut several) = (BTreeMap::new(), BTreeMap::new());
    for index in 0..count {
        let bytes = plan_case(seed, index);
        let refusal = match read(&bytes) {
            Err(refusal) if bytes.len() <= INPUT_BYTES => refusal,
            _ => continue,
        };
        let text = String::from_utf8_lossy(&bytes);
        let mut lines: Vec<Vec<String>> = text
            .split('\n')
            .take(refusal.line as usize)
            .map(|line| line.split('\t').map(|f| f.to_string()).collect())
            .collect();
        let line = lines.pop().unwrap_or_default();
        let fields = faulty(refusal.number, &lines, &line);
        let first = fields.first().copied().unwrap_or(0);
        assert_eq!(refusal.field, first, "seed {} index {}", seed, index);
        let kind = match refusal.number {
            1 => String::new(),
            _ => record(&bytes, refusal.line),
        };
        let key = (refusal.number, kind, first);
        if fields.len() > 1 {
            *several.entry(key.clone()).or_insert(0) += 1;
        }
        *seen.entry(key).or_insert(0) += 1;
    }
    (seen, several)
}

#[test]
fn every_refusal_with_every_field() {
    // Kinds of lines, each with the fields it can be refused for.
    type Kind = (&'static str, &'static [u64]);
    let any: [Kind; 8] = [
        ("vcpu", &[2, 3, 4, 5, 6]),
        ("mutex G", &[2]),
        ("mutex L", &[2, 4]),
        ("open", &[2, 3]),
        ("guest", &[2]),
        ("task", &[2, 3, 4]),
        ("run", &[2]),
        ("lock", &[2, 3]),
    ];
    let missing: [Kind; 5] = [
        ("mutex L", &[4]),
        ("open", &[2, 3]),
        ("guest", &[2]),
        ("task", &[2]),
        ("lock", &[2]),
    ];
    let outside: [Kind; 2] = [("task", &[2]), ("lock", &[2])];
    let rising = ["vcpu", "mutex G", "mutex L", "open", "guest", "task"];
    let rising = rising.map(|kind| (kind, &[0][..]));
    let crowded: [Kind; 2] = [("task", &[0]), ("lock", &[0])];
    let expected: [(u32, &[Kind]); 7] = [
        (1, &[("", &[0])]),
        (2, &any),
        (3, &any),
        (4, &rising),
        (5, &missing),
        (6, &outside),
        (7, &crowded),
    ];
    let (mut seen, mut several) = by_field(31, 50_000);
    for (number, kinds) in expected {
        for (kind, fields) in kinds {
            for field in *fields {
                let key = (number, kind.to_string(), *field);
                let count = seen.remove(&key).unwrap_or(0);
                assert!(count > 25, "{:?}: {}", key, count);
                // In more than one field: of Missing, the mutex and the guest of an `open`.
                let more = match number {
                    2 | 3 => fields.last() != Some(field),
                    5 => key.1 == "open" && *field == 2,
                    _ => false,
                };
                let count = several.remove(&key).unwrap_or(0);
                assert_eq!(count > 5, more, "{:?}: {}", key, count);
            }
        }
    }
    assert!(seen.is_empty(), "{:?}", seen);
    assert!(several.is_empty(), "{:?}", several);
}

#[test]
fn outside_and_missing_in_each_way() {
    let mut ways: BTreeMap<&str, u64> = BTreeMap::new();
    for index in 0..400 {
        for kind in ["refuse5", "refuse6"] {
            let bytes = plan_case_of(17, index, kind).unwrap();
            let refusal = match read(&bytes) {
                Err(refusal) => refusal,
                Ok(_) => continue,
            };
            let lines: Vec<&[u8]> = bytes.split(|b| *b == b'\n').collect();
            let at = common::spaced(lines[refusal.line as usize - 1]);
            let fields: Vec<&str> = at.split(' ').collect();
            let local = lines
                .iter()
                .any(|l| common::spaced(l).starts_with(&format!("mutex {} L", fields[1])));
            let way = match (refusal.number, fields[0], local) {
                (5, "open", true) => "open of a local mutex",
                (5, "open", false) => "open of another or to a guest without VCPU",
                (6, "task", _) => "another guest's VCPU",
                (6, "lock", true) => "another VCPU's local mutex",
                (6, "lock", false) => "a mutex not opened",
                _ => "other",
            };
            *ways.entry(way).or_insert(0) += 1;
        }
    }
    assert!(
        ways.len() == 6 && ways.values().all(|n| *n > 15),
        "{:?}",
        ways
    );
}

#[test]
fn aimed_kinds_hit() {
    for number in 1..=7u32 {
        let kind = format!("refuse{}", number);
        let hits = (0..60).filter(|index| {
            let bytes = plan_case_of(2, *index, &kind).unwrap();
            read(&bytes).err().map(|r| r.number) == Some(number)
        });
        let hits = hits.count();
        assert!(hits > 50, "{} {}", kind, hits);
    }
}

#[test]
fn nothing_panics_over_damaged_inputs() {
    let mut chance = Chance::new(13, 0, 9);
    for index in 0..6000 {
        let mut bytes = plan_case(13, index);
        assert!(!verdict_text(&bytes).is_empty());
        // And damaged once more, anywhere.
        let at = chance.place(bytes.len());
        if let Some(byte) = bytes.get_mut(at) {
            *byte = chance.below(256) as u8;
        }
        assert!(!verdict_text(&bytes).is_empty());
        bytes.truncate(chance.place(bytes.len() + 1));
        assert!(!verdict_text(&bytes).is_empty());
    }
}

#[test]
fn nothing_panics_over_events() {
    let mut chance = Chance::new(14, 0, 9);
    for index in 0..1500 {
        let case = board_case(14, index);
        let plan = case.plan.unwrap_or_default();
        let out = board_text(&plan, &case.events);
        if read(&plan).is_ok() && case.events.len() <= INPUT_BYTES {
            let lines = case.events.split(|b| *b == b'\n').count()
                - usize::from(case.events.is_empty() || case.events.ends_with(b"\n"));
            assert_eq!(out.iter().filter(|b| **b == b'\n').count(), lines);
        } else {
            assert!(out.starts_with(b"refused\t"));
            assert_eq!(out.iter().filter(|b| **b == b'\n').count(), 1);
        }
        let mut events = case.events;
        for _ in 0..5 {
            let at = chance.place(events.len());
            if let Some(byte) = events.get_mut(at) {
                *byte = chance.below(256) as u8;
            }
        }
        board_text(&plan, &events);
    }
}

#[test]
fn sizes_above_the_limit_are_rare_but_there() {
    let long = (0..3000).filter(|i| plan_case(3, *i).len() > INPUT_BYTES);
    let long = long.count();
    assert!(long > 0 && long < 60, "{}", long);
    let cases: Vec<_> = (0..2000).map(|i| board_case(1, i)).collect();
    let events = cases
        .iter()
        .filter(|c| c.events.len() > INPUT_BYTES)
        .count();
    let absent = cases.iter().filter(|c| c.plan.is_none()).count();
    let bad = cases
        .iter()
        .filter(|c| c.plan.as_deref().map_or(false, |p| read(p).is_err()))
        .count();
    let torn = cases
        .iter()
        .filter(|c| !c.events.is_empty() && !c.events.ends_with(b"\n"))
        .count();
    let none = cases.iter().filter(|c| c.events.is_empty()).count();
    for seen in [events, absent, bad, torn, none] {
        assert!(
            seen > 0 && seen < 500,
            "{:?}",
            [events, absent, bad, torn, none]
        );
    }
}

#[test]
fn frames_hold_any_bytes() {
    let cases: [&[u8]; 4] = [b"", b"\n1\n", b"plan\t1\n", b"\0\xff"];
    let mut out = Vec::new();
    for case in cases {
        frames::push(&mut out, case);
    }
    assert_eq!(frames::split(&out), Some(cases.to_vec()));
    assert_eq!(frames::split(b""), Some(Vec::new()));
    for bad in [
        &b"5\nabc"[..],
        b"x\n",
        b"3",
        b"-1\n",
        b"99999999999999999999\n",
    ] {
        assert_eq!(frames::split(bad), None);
    }
}

/// What the gate compares reaches every corner that is meant.
#[test]
fn the_gates_cases_reach_every_corner() {
    let mut plans = Tally::default();
    for index in 0..1500 {
        let plan = plan_case(1, index);
        plans.add_listing(&plan, &verdict_text(&plan));
    }
    assert!(plans.accepted > 500, "{}", plans);
    assert!((1..=8).all(|number| plans.refused.contains_key(&number)));
    assert!(plans.policies.len() == 4 && plans.policies.values().all(|n| *n > 100));
    assert!(plans.interleaved > 50 && plans.crowded > 200, "{}", plans);
    assert!(plans.long > 5 && plans.most_rounds > 10_000, "{}", plans);
    assert!(plans.beyond > 30, "{}", plans);
    for row in [
        "vcpu fits",
        "vcpu late",
        "wait fits",
        "wait none",
        "task fits",
        "task late",
        "task nowait",
        "task held",
    ] {
        assert!(plans.rows.get(row).map_or(false, |n| *n > 100), "{}", plans);
    }
    assert!(plans.all.len() == 2 && plans.all.values().all(|n| *n > 50));

    let mut lists = Tally::default();
    for index in 0..500 {
        let case = board_case(1, index);
        let plan = case.plan.unwrap_or_default();
        lists.add_answers(&plan, &case.events, &board_text(&plan, &case.events));
    }
    assert!(lists.lists == 500 && lists.accepted > 400, "{}", lists);
    for answer in ANSWERS.into_iter().chain(["freed to nobody"]) {
        let seen = lists.answers.get(answer).copied().unwrap_or(0);
        assert!(seen > 100, "{}: {}", answer, lists);
    }

    let mut runs = Tally::default();
    for index in 0..500 {
        let case = clock_case(1, index);
        let plan = case.plan.unwrap_or_default();
        let mut watch = Watch::default();
        let text = clock_text_of(&plan, &case.horizon, &mut |step| watch.see(step));
        runs.add_run(&plan, &case.horizon, &text, &watch);
    }
    assert!(runs.accepted > 400 && runs.steps > 125_000, "{}", runs);
    assert!(
        runs.policies.len() == 4 && runs.interleaved > 50,
        "{}",
        runs
    );
    for (outcome, least) in [
        ("ended", 150),
        ("missed", 100),
        ("horizon refused 1", 3),
        ("horizon refused 2", 1),
        ("horizon refused 3", 1),
        ("plan or size refused", 10),
    ] {
        let seen = runs.runs.get(outcome).copied().unwrap_or(0);
        assert!(seen >= least, "{}: {}", outcome, runs);
    }
    for deed in [
        "budget ticks",
        "frees to nobody",
        "grants",
        "hand-ons in a VCPU",
        "hand-ons to another VCPU",
        "idle losses",
        "overrun ticks",
        "tops",
        "waits",
    ] {
        let seen = runs.deeds.get(deed).copied().unwrap_or(0);
        assert!(seen > 300, "{}: {}", deed, runs);
    }
    assert_eq!(runs.deeds.get("others"), None);
    assert_eq!(runs.deeds.values().sum::<u64>(), runs.steps);
}

#[test]
fn a_tally_counts_what_it_is_given() {
    let plan = common::text(&common::worked("P O"));
    let mut one = Tally::default();
    one.add_listing(&plan, &verdict_text(&plan));
    one.add_listing(b"", &verdict_text(b""));
    one.add_listing(&[b'x'; 65_537], b"refused\t8\t0\t0\n");
    let bad = common::text("plan 1/policy P O/vcpu 1 1 0 1 x/");
    one.add_listing(&bad, &verdict_text(&bad));
    let mut tally = Tally::default();
    tally.add(&one);
    tally.add(&one);
    assert_eq!((tally.accepted, tally.most_rounds, tally.long), (2, 4, 0));
    assert_eq!(tally.refused, BTreeMap::from([(1, 2), (2, 2), (8, 2)]));
    let fields = BTreeMap::from([((1, 0), 2), ((2, 6), 2), ((8, 0), 2)]);
    assert_eq!(tally.fields, fields);
    let shown = tally.to_string();
    let wanted = "  plans refused: by 1: 2, by 2: 2, by 8: 2\n  refused by number:field: 1:0 2, 2:6 2, 8:0 2\n";
    assert!(shown.contains(wanted), "{}", shown);
    assert_eq!(tally.policies, BTreeMap::from([("P O", 2)]));
    let rows: BTreeMap<&str, u64> = tally.rows.iter().map(|(k, n)| (k.as_str(), *n)).collect();
    assert_eq!(
        rows,
        BTreeMap::from([("task late", 4), ("vcpu fits", 4), ("wait fits", 4)])
    );
    let mut board = Tally::default();
    board.add_answers(&plan, b"top\t1\n", b"left\t3\t1\n");
    board.add_answers(&plan, &[b'\n'; 65_537], b"refused\t8\t0\t0\n");
    board.add_answers(b"", b"top\t1\n", b"refused\t1\t1\t0\n");
    assert_eq!((board.lists, board.accepted), (3, 1));
    assert_eq!(board.refused, BTreeMap::from([(1, 1), (8, 1)]));
    assert_eq!(board.fields, BTreeMap::from([((1, 0), 1), ((8, 0), 1)]));
    assert_eq!(board.answers, BTreeMap::from([("left".to_string(), 1)]));

    let mut clock = Tally::default();
    for line in [&b"horizon\t4\n"[..], b"horizon\t0\n", b""] {
        let mut watch = Watch::default();
        let text = clock_text_of(&plan, line, &mut |step| watch.see(step));
        clock.add_run(&plan, line, &text, &watch);
    }
    clock.add_run(b"", b"", &clock_text(b"", b""), &Watch::default());
    assert_eq!((clock.accepted, clock.steps), (3, 8));
    let runs: Vec<(&str, u64)> = clock.runs.iter().map(|(k, n)| (k.as_str(), *n)).collect();
    let expected = [
        ("ended", 1),
        ("horizon refused 1", 1),
        ("horizon refused 3", 1),
        ("plan or size refused", 1),
    ];
    assert_eq!(runs, expected);
    assert_eq!(
        clock.deeds,
        BTreeMap::from([
            ("budget ticks", 3),
            ("frees to nobody", 1),
            ("grants", 1),
            ("overrun ticks", 1),
            ("tops", 2)
        ])
    );
}

#[test]
fn the_same_seed_gives_the_same_cases_for_ever() {
    let every_kind = KINDS
        .iter()
        .flat_map(|(kind, _, _)| (0..5).map(move |index| plan_case_of(1, index, kind).unwrap()));
    let plans = mark(every_kind.chain((0..300).map(|index| plan_case(7, index))));
    let events = mark((0..200).map(|index| {
        let case = board_case(7, index);
        [case.plan.unwrap_or_default(), case.events].concat()
    }));
    let horizons = mark((0..200).map(|index| {
        let case = clock_case(7, index);
        [case.plan.unwrap_or_default(), case.horizon].concat()
    }));
    assert_eq!(
        (plans, events),
        (10_173_691_636_704_000_215, 4_040_754_978_698_668_373)
    );
    assert_eq!(horizons, 3_362_016_028_732_430_306);
    assert_ne!(plan_case(7, 1), plan_case(8, 1));
    assert!((0..400).map(|i| kind_of(7, i)).any(|kind| kind == "wrap"));
}
