//! The board: hand-made sequences, the conditions for 9, and the ledger.

mod common;

use common::{plan, spaced, text, worked, ANSWERS};
use oracle::board::{good, Board, Event, Reply};
use oracle::events::{board_text, event, reply_text};
use oracle::figures::overrun;
use oracle::generate::board_case;
use oracle::limits::VCPUS;
use oracle::plan::{Owner, Plan};
use oracle::reading::read;

fn play(plan: &str, events: &str) -> Vec<String> {
    let out = board_text(&text(plan), &text(events));
    spaced(&out).lines().map(|l| l.to_string()).collect()
}

/// Each event line with its answer.
fn script(plan: &str, steps: &[(&str, &str)]) {
    let events: String = steps.iter().map(|(e, _)| format!("{}/", e)).collect();
    let answers: Vec<&str> = steps.iter().map(|(_, a)| *a).collect();
    assert_eq!(play(plan, &events), answers);
}

/// Three VCPUs, one global mutex 1 opened to all, locals of VCPU 1: 2 and 3.
/// VCPU 1: n = 1 locks 1 2; n = 2 locks 1 3; n = 5 locks 2; n = 6 locks 3 3 1.
fn shared(policy: &str) -> String {
    format!(
        "plan 1/policy {}/vcpu 1 1 0 4 20/vcpu 2 2 0 3 20/vcpu 3 3 1 2 20/mutex 1 G/mutex 2 L 1/\
         mutex 3 L 1/mutex 4 G/mutex 5 L 2/open 1 1/open 1 2/open 1 3/guest 1/\
         task 1 1 100/run 1/lock 1 2/run 1/lock 2 1/run 0/\
         task 1 2 100/run 1/lock 1 1/run 1/lock 3 1/run 0/\
         task 1 5 100/run 1/lock 2 1/run 0/\
         task 1 6 100/run 1/lock 3 1/run 0/lock 1 1/run 0/\
         guest 2/task 2 1 100/run 0/lock 1 3/run 0/task 2 4 100/run 0/lock 1 1/run 0/\
         guest 3/task 3 1 100/run 0/lock 1 1/run 0/end/",
        policy
    )
}

#[test]
fn malformed_lines_and_numbers() {
    script(
        &shared("D O"),
        &[
            ("", "refused 1"),
            ("ask 1 1", "refused 1"),
            ("ask 1 1 1 1", "refused 1"),
            ("ask 1 1 x 1", "refused 1"),
            ("Ask 1 1 1", "refused 1"),
            ("ask 1 1 1 ", "refused 1"),
            ("top", "refused 1"),
            ("top 1 1", "refused 1"),
            ("use 1", "refused 1"),
            ("show 1", "refused 1"),
            ("free 1 1", "refused 1"),
            ("top ", "refused 2"),
            ("top 01", "refused 2"),
            ("top 10000000", "refused 2"),
            ("top 1\r", "refused 2"),
            ("use 17 x", "refused 2"),
            ("use 17 0", "refused 10"),
            ("use 1 0", "refused 3"),
            ("use 1 1000001", "refused 3"),
            ("ask 17 9 33", "refused 10"),
            ("top 1", "left 4 4"),
        ],
    );
    assert_eq!(play(&worked("D O"), "top 1"), ["refused 1"]);
    assert_eq!(
        play(&worked("D O"), "top 1/top 2"),
        ["left 3 1", "refused 1"]
    );
    assert_eq!(play(&worked("D O"), "top 1//"), ["left 3 1", "refused 1"]);
    assert_eq!(play(&worked("D O"), ""), Vec::<String>::new());
}

#[test]
fn refusals_in_turn() {
    script(
        &shared("D O"),
        &[
            ("ask 1 3 1", "refused 10"),
            ("ask 4 1 1", "refused 10"),
            ("ask 1 1 6", "refused 10"),
            ("ask 1 0 1", "refused 10"),
            ("ask 1 1 0", "refused 10"),
            ("ask 1 1 3", "refused 11"),
            // Another VCPU's local mutex, and a mutex that nobody locks.
            ("ask 1 1 5", "refused 11"),
            ("ask 1 1 4", "refused 11"),
            ("free 1 3 1", "refused 10"),
            ("free 1 1 6", "refused 10"),
            ("free 1 1 1", "refused 14"),
            ("free 1 1 5", "refused 14"),
            ("free 1 1 3", "refused 14"),
            ("show 1 3", "refused 10"),
            ("show 0 1", "refused 10"),
            ("top 4", "refused 10"),
            ("use 4 1", "refused 10"),
            ("use 1 5", "refused 15"),
            ("ask 1 1 1", "granted"),
            ("ask 1 1 1", "refused 13"),
            ("ask 1 1 2", "refused 13"),
            ("ask 3 1 1", "waits"),
            ("ask 3 1 1", "refused 13"),
            ("free 3 1 1", "refused 14"),
            ("use 3 2", "left 0 1"),
            ("use 3 1", "refused 12"),
            ("use 3 0", "refused 3"),
            // Asleep goes before busy, unlisted before asleep.
            ("ask 3 1 1", "refused 12"),
            ("ask 3 1 2", "refused 11"),
            ("use 1 8", "left 0 0"),
            ("ask 1 1 1", "refused 12"),
            ("use 1 1", "refused 12"),
            ("free 1 1 1", "freed 3 1"),
            // Under D the overrun opens when the lock reaches the VCPU.
            ("use 3 1", "left 0 0"),
        ],
    );
}

#[test]
fn hand_over_goes_by_vcpu_then_n() {
    script(
        &shared("D O"),
        &[
            ("ask 1 1 1", "granted"),
            ("ask 1 6 1", "waits"),
            ("ask 1 2 1", "waits"),
            ("ask 2 1 1", "waits"),
            ("ask 2 4 1", "waits"),
            ("ask 3 1 1", "waits"),
            ("free 1 1 1", "freed 3 1"),
            ("free 3 1 1", "freed 2 4"),
            ("show 2 4", "show 12 18"),
            ("show 2 1", "show 1 18"),
            ("free 2 4 1", "freed 2 1"),
            ("free 2 1 1", "freed 1 6"),
            ("free 1 6 1", "freed 1 2"),
            ("free 1 2 1", "freed - -"),
            ("show 1 2", "show 2 1"),
        ],
    );
}

#[test]
fn a_stopped_vcpu_stays_stopped() {
    let steps = [
        ("ask 1 1 1", "granted"),
        ("ask 2 1 1", "waits"),
        ("use 2 3", "left 0 4"),
        ("free 1 1 1", "freed 2 1"),
        ("show 2 1", "show 9 18"),
        ("use 2 1", "refused 12"),
        ("ask 2 4 1", "refused 12"),
        ("top 2", "left 3 4"),
        ("use 2 5", "left 0 2"),
        ("free 2 1 1", "freed - -"),
    ];
    script(&shared("P O"), &steps);
    // Under D nothing is stopped and the overrun opens at once.
    let revived = [
        ("ask 1 1 1", "granted"),
        ("ask 2 1 1", "waits"),
        ("use 2 3", "left 0 4"),
        ("free 1 1 1", "freed 2 1"),
        ("use 2 1", "left 0 3"),
    ];
    script(&shared("D O"), &revived);
}

#[test]
fn the_mark_is_judged_after_the_hand_on() {
    // (1, 1) hands the mutex to (1, 6) of its own VCPU at b = 0: no mark, o still serves.
    let same = [
        ("ask 1 1 1", "granted"),
        ("ask 1 6 1", "waits"),
        ("use 1 4", "left 0 4"),
        ("free 1 1 1", "freed 1 6"),
        ("use 1 1", "left 0 3"),
        ("free 1 6 1", "freed - -"),
        ("use 1 1", "refused 12"),
        ("ask 1 6 1", "refused 12"),
    ];
    script(&shared("P O"), &same);
    let p = plan(&shared("P O"));
    let mut board = Board::fresh(&p);
    for (line, _) in &same[..5] {
        board.apply(&p, event(&text(line)).unwrap());
    }
    assert!(!board.is_stopped(1));
    board.apply(&p, Event::Free { v: 1, n: 6, m: 1 });
    assert!(board.is_stopped(1));
}

#[test]
fn supply_belongs_to_the_vcpu() {
    script(
        &shared("P O"),
        &[
            ("ask 1 1 1", "granted"),
            ("use 1 4", "left 0 4"),
            // Another task of the VCPU may ask while the overrun is open.
            ("ask 1 5 2", "granted"),
            ("ask 1 6 1", "waits"),
        ],
    );
    // Without overrun there is none.
    script(
        &shared("P N"),
        &[
            ("ask 1 1 1", "granted"),
            ("use 1 4", "left 0 0"),
            ("ask 1 5 2", "refused 12"),
            ("use 1 1", "refused 12"),
            ("top 1", "left 4 0"),
        ],
    );
}

#[test]
fn overrun_needs_a_global_mutex() {
    script(
        &shared("D O"),
        &[
            ("ask 1 1 2", "granted"),
            ("use 1 5", "refused 15"),
            ("use 1 4", "left 0 4"),
            ("use 1 1", "refused 12"),
            ("free 1 1 2", "freed - -"),
        ],
    );
}

/// One VCPU; ceilings: 1 is 6, 2 is 3, 3 is 8, 4 (never locked) 0.
const CEILINGS: &str = "plan 1/policy D N/vcpu 1 1 0 9 9/mutex 1 L 1/mutex 2 L 1/mutex 3 L 1/\
    mutex 4 L 1/mutex 5 G/open 5 1/guest 1/\
    task 1 1 50/run 0/lock 1 1/run 0/lock 2 1/run 0/lock 3 1/run 0/\
    task 1 2 50/run 0/lock 2 1/run 0/lock 5 1/run 0/\
    task 1 3 50/run 0/lock 2 1/run 0/\
    task 1 4 50/run 0/lock 1 1/run 0/lock 3 1/run 0/\
    task 1 6 50/run 0/lock 1 1/run 0/\
    task 1 8 50/run 0/lock 3 1/run 0/end/";

#[test]
fn ceilings_and_inheritance() {
    script(
        CEILINGS,
        &[
            ("ask 1 1 2", "granted"),
            // Ceiling 3 of mutex 2: 3 waits, 2 waits, 4 passes and takes mutex 1.
            ("ask 1 3 2", "waits"),
            ("ask 1 2 2", "waits"),
            ("show 1 1", "show 3 1"),
            ("ask 1 4 1", "granted"),
            ("ask 1 6 1", "waits"),
            // 6 is above mutex 2's ceiling and is left out, not cut down to it.
            ("show 1 1", "show 3 1"),
            ("show 1 4", "show 6 1"),
            ("ask 1 8 3", "granted"),
            ("show 1 8", "show 8 1"),
            ("free 1 8 3", "freed - -"),
            // The highest local waiter of the VCPU, 6, is the one tested.
            ("free 1 1 2", "freed - -"),
            ("free 1 4 1", "freed 1 6"),
            ("show 1 6", "show 6 1"),
            ("free 1 6 1", "freed 1 3"),
            ("show 1 3", "show 3 1"),
            ("free 1 3 2", "freed 1 2"),
            ("free 1 2 2", "freed - -"),
        ],
    );
}

#[test]
fn a_waiter_may_get_another_mutex_than_the_freed_one() {
    script(
        CEILINGS,
        &[
            ("ask 1 1 3", "granted"),
            ("ask 1 3 2", "waits"),
            ("ask 1 6 1", "waits"),
            ("show 1 1", "show 6 1"),
            ("free 1 1 3", "freed 1 6"),
            ("show 1 6", "show 6 1"),
            ("free 1 6 1", "freed 1 3"),
        ],
    );
}

#[test]
fn global_waiters_are_not_local_waiters() {
    script(
        &shared("D O"),
        &[
            ("ask 3 1 1", "granted"),
            ("ask 1 6 1", "waits"),
            ("ask 1 2 3", "granted"),
            ("show 1 2", "show 2 1"),
            ("ask 1 5 2", "waits"),
            ("show 1 2", "show 5 1"),
            ("free 1 2 3", "freed 1 5"),
            ("free 3 1 1", "freed 1 6"),
            ("show 1 6", "show 14 17"),
            ("show 1 5", "show 5 17"),
        ],
    );
}

fn spoil(p: &Plan, board: &Board, change: &dyn Fn(&mut Board)) -> bool {
    let mut other = board.clone();
    change(&mut other);
    good(p, &other)
}

#[test]
fn the_conditions_for_9() {
    let p = plan(&shared("P O"));
    let b = Board::fresh(&p);
    assert!(good(&p, &b));
    assert!(!spoil(&p, &b, &|b| b.b[0] = 5));
    assert!(!spoil(&p, &b, &|b| b.o[0] = 5));
    assert!(!spoil(&p, &b, &|b| b.o[0] = 3));
    assert!(!spoil(&p, &b, &|b| b.stopped[0] = true));
    assert!(!spoil(&p, &b, &|b| b.b[0] = 0));
    assert!(spoil(&p, &b, &|b| {
        b.b[0] = 0;
        b.stopped[0] = true;
    }));
    assert!(spoil(&p, &b, &|b| {
        b.b[0] = 0;
        b.o[0] = 0;
        b.stopped[0] = true;
    }));
    assert!(spoil(&p, &b, &|b| {
        b.b[0] = 0;
        b.holder[0] = Some((1, 1));
    }));
    for (m, holder) in [
        (1, (1, 5)),
        (1, (1, 3)),
        (1, (4, 1)),
        (1, (0, 0)),
        (1, (17, 1)),
        (1, (1, 9)),
        (2, (2, 1)),
        (6, (1, 1)),
        (32, (1, 1)),
        (4, (1, 1)),
    ] {
        assert!(!spoil(&p, &b, &|b| b.holder[m - 1] = Some(holder)));
    }
    // Two mutexes held, or one held and another waited for.
    assert!(!spoil(&p, &b, &|b| {
        b.holder[0] = Some((1, 1));
        b.holder[1] = Some((1, 1));
    }));
    assert!(!spoil(&p, &b, &|b| {
        b.holder[0] = Some((1, 1));
        b.holder[1] = Some((1, 5));
        b.waits[0][0] = 2;
    }));
    // A global waiter whose mutex is free, held by itself, held by another.
    assert!(!spoil(&p, &b, &|b| b.waits[0][0] = 1));
    assert!(!spoil(&p, &b, &|b| {
        b.holder[0] = Some((1, 1));
        b.waits[0][0] = 1;
    }));
    assert!(spoil(&p, &b, &|b| {
        b.holder[0] = Some((2, 1));
        b.waits[0][0] = 1;
    }));
    // A local waiter that passes the test, and one that fails it.
    assert!(!spoil(&p, &b, &|b| b.waits[0][0] = 2));
    assert!(!spoil(&p, &b, &|b| {
        b.holder[1] = Some((1, 1));
        b.waits[0][5] = 3;
    }));
    assert!(spoil(&p, &b, &|b| {
        b.holder[1] = Some((1, 1));
        b.waits[0][4] = 2;
    }));
    // What the plan lacks.
    assert!(!spoil(&p, &b, &|b| b.b[3] = 1));
    assert!(!spoil(&p, &b, &|b| b.o[15] = 1));
    assert!(!spoil(&p, &b, &|b| b.stopped[4] = true));
    assert!(!spoil(&p, &b, &|b| b.waits[0][2] = 2));
    assert!(!spoil(&p, &b, &|b| b.waits[15][7] = 1));
    assert!(!spoil(&p, &b, &|b| b.waits[0][0] = 33));
    // No marks under D.
    let d = plan(&shared("D O"));
    let fresh = Board::fresh(&d);
    assert!(spoil(&d, &fresh, &|b| b.b[0] = 0));
    assert!(!spoil(&d, &fresh, &|b| {
        b.b[0] = 0;
        b.stopped[0] = true;
    }));
}

/// The parts of a board that an event on local mutexes of v leaves alone.
fn others(p: &Plan, board: &Board, v: u64) -> Board {
    let mut rest = board.clone();
    let row = (v - 1) as usize;
    rest.b[row] = 0;
    rest.o[row] = 0;
    rest.stopped[row] = false;
    rest.waits[row] = [0; 8];
    for x in p.mutexes.iter().filter(|x| x.owner == Owner::Local(v)) {
        rest.holder[(x.m - 1) as usize] = None;
    }
    rest
}

#[test]
fn ledger_and_conditions_after_every_event() {
    let mut answers = std::collections::BTreeMap::new();
    let mut handed_across = 0;
    let mut stopped_receivers = 0;
    let mut overruns = 0;
    for index in 0..600 {
        let case = board_case(77, index);
        let p = match case.plan.as_deref().map(read) {
            Some(Ok(p)) if case.events.len() <= 65_536 => p,
            _ => continue,
        };
        let mut board = Board::fresh(&p);
        let mut used = [0u64; VCPUS as usize];
        assert!(good(&p, &board));
        for line in case.events.split(|b| *b == b'\n').take(400) {
            let asked = match event(line) {
                Ok(asked) => asked,
                Err(number) => {
                    *answers.entry(format!("refused {}", number)).or_insert(0) += 1;
                    continue;
                }
            };
            let before = board.clone();
            let reply = board.apply(&p, asked);
            let word = match reply {
                Reply::Refused(number) => format!("refused {}", number),
                other => reply_text(other)
                    .split_whitespace()
                    .next()
                    .unwrap_or("")
                    .to_string(),
            };
            *answers.entry(word).or_insert(0) += 1;
            assert!(good(&p, &board), "case {} after {:?}", index, asked);
            if matches!(reply, Reply::Refused(_)) || matches!(asked, Event::Show { .. }) {
                assert_eq!(before, board);
            }
            match (asked, reply) {
                (Event::Use { v, t }, Reply::Left { .. }) => used[(v - 1) as usize] += t,
                (Event::Top { v }, Reply::Left { .. }) => used[(v - 1) as usize] = 0,
                (Event::Free { v, .. }, Reply::Freed(Some((to, _)))) if to != v => {
                    handed_across += 1;
                    stopped_receivers += u64::from(board.is_stopped(to));
                }
                _ => {}
            }
            if let Event::Ask { v, m, .. } | Event::Free { v, m, .. } = asked {
                if p.is_local_of(m, v) {
                    assert_eq!(others(&p, &before, v), others(&p, &board, v));
                }
            }
            for c in &p.vcpus {
                let (b, o) = (board.budget_left(c.v), board.overrun_left(c.v));
                let full = overrun(&p, c.v);
                assert_eq!(used[(c.v - 1) as usize], c.budget + full - b - o);
                overruns += u64::from(o < full);
            }
        }
    }
    for word in ANSWERS {
        let seen = answers.get(word).copied().unwrap_or(0);
        assert!(seen > 50, "{} seen {} times", word, seen);
    }
    assert!(handed_across > 100, "{}", handed_across);
    assert!(stopped_receivers > 10, "{}", stopped_receivers);
    assert!(overruns > 100, "{}", overruns);
}
