//! The clock: runs made by hand, the horizon's line, and what is true of every run.

mod common;

use common::{plan, spaced, text, worked};
use oracle::board::{good, Board, Event, Reply};
use oracle::clock::{clock_text, horizon, run, Outcome, Step};
use oracle::generate::{board_case, clock_plan, valid_plan, Chance};
use oracle::plan::{Plan, Policy};
use oracle::reading::read;
use oracle::swift;

fn lines(plan: &str, ticks: u64) -> Vec<String> {
    let out = clock_text(&text(plan), &text(&format!("horizon {}/", ticks)));
    spaced(&out).lines().map(|l| l.to_string()).collect()
}

#[test]
fn the_worked_plan() {
    assert_eq!(
        lines(&worked("D O"), 25),
        [
            "0 top 1 left 3 1",
            "0 top 2 left 2 2",
            "0 use 2 1 left 1 2",
            "1 ask 2 1 1 granted",
            "1 use 2 1 left 0 2",
            "2 use 2 1 left 0 1",
            "2 free 2 1 1 freed - -",
            "3 use 1 1 left 2 1",
            "4 use 1 1 left 1 1",
            "5 ask 1 1 1 granted",
            "5 use 1 1 left 0 1",
            "5 free 1 1 1 freed - -",
            "10 top 2 left 2 2",
            "10 use 2 1 left 1 2",
            "20 top 1 left 3 1",
            "20 top 2 left 2 2",
            "20 use 1 1 left 2 1",
            "21 use 1 1 left 1 1",
            "end 25",
        ]
    );
    // Under P the budgets that nobody uses go, after the pick and before the use.
    assert_eq!(
        lines(&worked("P O"), 25),
        [
            "0 top 1 left 3 1",
            "0 top 2 left 2 2",
            "0 use 2 1 left 1 2",
            "1 ask 2 1 1 granted",
            "1 use 2 1 left 0 2",
            "2 use 2 1 left 0 1",
            "2 free 2 1 1 freed - -",
            "3 use 1 1 left 2 1",
            "4 use 1 1 left 1 1",
            "5 ask 1 1 1 granted",
            "5 use 1 1 left 0 1",
            "5 free 1 1 1 freed - -",
            "10 top 2 left 2 2",
            "10 use 2 1 left 1 2",
            "11 use 2 1 left 0 2",
            "20 top 1 left 3 1",
            "20 top 2 left 2 2",
            "20 use 2 1 left 1 2",
            "20 use 1 1 left 2 1",
            "21 use 2 1 left 0 2",
            "21 use 1 1 left 1 1",
            "22 use 1 1 left 0 1",
            "end 25",
        ]
    );
}

#[test]
fn the_horizons_line() {
    let of = |line: &str| horizon(&text(line));
    assert_eq!(of("horizon 1/"), Ok(1));
    assert_eq!(of("horizon 1000000/"), Ok(1_000_000));
    for shape in [
        "",
        "/",
        "horizon",
        "horizon/",
        "horizon 5",
        "horizon 5/ ",
        "horizon 5//",
        "horizon 5/horizon 5/",
        "horizon 5 /",
        "horizon 5 5/",
        " horizon 5/",
        "horizon  5/",
        "Horizon 5/",
        "horizon\r 5/",
        "5/",
        "horizon 007",
        "horizon 007/x",
        "horizon 0/x",
    ] {
        assert_eq!(of(shape), Err(1), "{:?}", shape);
    }
    for form in ["", "007", "00", "+1", "-1", "5\r", "1x", "12345678", "1\0"] {
        assert_eq!(of(&format!("horizon {}/", form)), Err(2), "{:?}", form);
    }
    for range in ["0", "1000001", "9999999"] {
        assert_eq!(of(&format!("horizon {}/", range)), Err(3), "{}", range);
    }
}

#[test]
fn sizes_and_plans_go_first() {
    let good = text(&worked("D O"));
    let bad = [&good[..], b"x"].concat();
    let long = vec![b'\n'; 65_537];
    assert_eq!(clock_text(&bad, &long), b"refused\t8\t0\t0\n");
    assert_eq!(clock_text(&long, b""), b"refused\t8\t0\t0\n");
    assert_eq!(clock_text(&bad, b""), b"refused\t1\t19\t0\n");
    assert_eq!(clock_text(&bad, b"horizon\t0\n"), b"refused\t1\t19\t0\n");
    assert_eq!(clock_text(b"", b"horizon\t5\n"), b"refused\t1\t1\t0\n");
    assert_eq!(clock_text(&good, &long[..65_536]), b"refused\t1\n");
    assert_eq!(clock_text(&good, b"horizon\t\n"), b"refused\t2\n");
    assert_eq!(clock_text(&good, b"horizon\t0\n"), b"refused\t3\n");
}

/// Plans for runs: those of board cases, with periods that fit their lengths more often than not.
fn plans() -> Vec<Plan> {
    let mut out = Vec::new();
    for index in 0..300 {
        let case = board_case(77, index).plan.unwrap_or_default();
        if let Ok(mut plan) = read(&case) {
            if index % 3 > 0 {
                for task in plan.sections.iter_mut().flat_map(|s| s.tasks.iter_mut()) {
                    task.period = (task.period * 8).min(1_000_000);
                }
            }
            out.push(plan);
        }
    }
    for kind in ["minimal", "locals", "zero", "full"] {
        for index in 0..15 {
            out.extend(valid_plan(78, index, kind));
        }
    }
    assert!(out.len() > 250);
    out
}

fn steps(plan: &Plan, ticks: u64) -> (Vec<Step>, Outcome) {
    let mut out = Vec::new();
    let outcome = run(plan, ticks, &mut |step| out.push(step));
    (out, outcome)
}

/// The clock's own assertions hold too: no event refused, no two tasks highest.
#[test]
fn runs_are_board_events_and_leave_good_boards() {
    for plan in plans() {
        let mut board = Board::fresh(&plan);
        let mut last = 0;
        for step in steps(&plan, 150).0 {
            assert!(step.tick >= last);
            last = step.tick;
            let reply = board.apply(&plan, step.event);
            assert_eq!(reply, step.reply);
            assert!(!matches!(reply, Reply::Refused(_) | Reply::Show { .. }));
            assert!(good(&plan, &board));
        }
    }
}

/// A core serves one task a tick; tops are of the VCPUs whose period begins; a run to a farther
/// horizon begins as the shorter one, and ends alike where the shorter one missed.
#[test]
fn ticks_and_horizons() {
    let mut missed = 0;
    for plan in plans() {
        let (long, end) = steps(&plan, 150);
        for tick in 0..150 {
            let now = || long.iter().filter(|s| s.tick == tick);
            let tops: Vec<u64> = now()
                .filter_map(|s| match s.event {
                    Event::Top { v } => Some(v),
                    _ => None,
                })
                .collect();
            let due = plan.vcpus.iter().filter(|c| tick % c.period == 0);
            let late = matches!(end, Outcome::Missed { tick: at, .. } if at < tick);
            if !late {
                assert_eq!(tops, due.map(|c| c.v).collect::<Vec<u64>>());
            }
            for core in 0..4 {
                let used = now().filter(|s| match s.event {
                    Event::Use { v, .. } => {
                        !s.idle && plan.vcpu(v).map_or(false, |c| c.core == core)
                    }
                    _ => false,
                });
                assert!(used.count() <= 1);
            }
            assert!(plan.policy == Policy::Periodic || now().all(|s| !s.idle));
        }
        let cut = match end {
            Outcome::Missed { tick, v, n } => {
                missed += 1;
                let task = plan.task(v, n).expect("a task of the plan");
                assert!(tick > 0 && tick % task.period == 0);
                assert_eq!(steps(&plan, tick).1, Outcome::Ended);
                assert_eq!(steps(&plan, tick + 1).1, end);
                tick
            }
            Outcome::Ended => 75,
        };
        let (short, _) = steps(&plan, cut);
        let expected: Vec<Step> = long.iter().copied().filter(|s| s.tick < cut).collect();
        assert_eq!(short, expected);
    }
    assert!(missed > 30, "{}", missed);
}

/// Every tick of a job's lengths is used once: what a task asks and frees stands in its sheet's order.
#[test]
fn jobs_run_their_sheets() {
    for plan in plans() {
        let (all, _) = steps(&plan, 300);
        for task in plan.tasks() {
            let locks: Vec<u64> = task.locks.iter().map(|l| l.m).collect();
            let freed: Vec<u64> = all
                .iter()
                .filter_map(|s| match s.event {
                    Event::Free { v, n, m } if (v, n) == (task.v, task.n) => Some(m),
                    _ => None,
                })
                .collect();
            for (at, m) in freed.iter().enumerate() {
                assert_eq!(Some(m), locks.get(at % locks.len().max(1)));
            }
        }
    }
}

#[test]
fn one_task_alone() {
    let only = "plan 1/policy D N/vcpu 1 1 0 2 4/guest 1/task 1 1 8/run 4/end/";
    assert_eq!(
        lines(only, 9),
        [
            "0 top 1 left 2 0",
            "0 use 1 1 left 1 0",
            "1 use 1 1 left 0 0",
            "4 top 1 left 2 0",
            "4 use 1 1 left 1 0",
            "5 use 1 1 left 0 0",
            "8 top 1 left 2 0",
            "8 use 1 1 left 1 0",
            "end 9",
        ]
    );
    let late = only.replace("run 4", "run 5");
    assert_eq!(
        run(&plan(&late), 8, &mut |_| {}),
        Outcome::Ended,
        "the releases of the horizon's tick are not judged"
    );
    assert_eq!(
        run(&plan(&late), 9, &mut |_| {}),
        Outcome::Missed {
            tick: 8,
            v: 1,
            n: 1
        }
    );
}

/// Each VCPU's budget and overrun left at the end of a run, by v - 1.
fn left(plan: &Plan, horizon: u64) -> (Outcome, [(u64, u64); 16]) {
    let mut left = [(0, 0); 16];
    let (all, outcome) = steps(plan, horizon);
    for step in all {
        if let (Event::Use { v, .. } | Event::Top { v }, Reply::Left { b, o }) =
            (step.event, step.reply)
        {
            left[v as usize - 1] = (b, o);
        }
    }
    (outcome, left)
}

/// The clock written for speed comes to the same end, at any horizon.
#[test]
fn the_swift_clock_agrees() {
    let (mut missed, mut ended) = (0, 0);
    for index in 0..500 {
        let (plan, ticks) = clock_plan(&mut Chance::new(5, index, 9));
        for horizon in [1, ticks / 3 + 1, ticks, ticks * 2 + 1] {
            let end = left(&plan, horizon);
            assert_eq!(swift::run_and_left(&plan, horizon), end, "{}", index);
            assert_eq!(swift::run(&plan, horizon), end.0);
            match end.0 {
                Outcome::Missed { tick, .. } => {
                    missed += 1;
                    assert_eq!(swift::run(&plan, tick), Outcome::Ended);
                    assert_eq!(swift::run(&plan, tick + 1), end.0);
                }
                Outcome::Ended => ended += 1,
            }
        }
    }
    for plan in plans() {
        assert_eq!(swift::run_and_left(&plan, 400), left(&plan, 400));
    }
    assert!(missed > 200 && ended > 200, "{} {}", missed, ended);
}
