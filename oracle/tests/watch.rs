//! The search for plans that fit and miss: what it must see, and that it measures jobs as the plain clock does.

mod common;

use std::collections::BTreeMap;
use std::path::PathBuf;

use common::{ended, plan, spaced, text, worked, CEILING, EQ11_DN, HANDED_ON};
use oracle::clock::{run, run_and_ends, Outcome};
use oracle::generate::{changed, clock_plan, watched_plan, Chance};
use oracle::plan::{Plan, Task};
use oracle::reading::read;
use oracle::swift::{run_and_jobs, Jobs};
use oracle::verdict::{former_judge, judge, listing};
use oracle::watch::{climb, default_horizon, plan_of, watch, Finding, Fits, Summary};

#[test]
fn a_plan_that_fits_and_misses_is_seen() {
    let p = plan(EQ11_DN);
    let watched = watch(&p, None);
    assert_eq!(watched.fits, Fits::Mended);
    let missed = Finding::Missed {
        tick: 27,
        v: 1,
        n: 1,
    };
    assert_eq!(watched.findings, [missed]);
    assert_eq!(watched.ticks, 27);
    // (1, 2) has ended at tick 23, after 24 ticks of 46; (2, 1) at 8, 17 and 26: after 9, 7 and 5 of 11.
    let rows: Vec<(u64, u64, u64)> = watched
        .rows
        .iter()
        .map(|r| (r.jobs.ended, r.jobs.time, r.w))
        .collect();
    assert_eq!(rows, [(0, 0, 27), (1, 24, 46), (3, 9, 11)]);
    assert_eq!(watch(&p, Some(27)).findings, []);
    assert_eq!(watch(&p, Some(28)).findings, [missed]);
    assert_eq!(plain_miss(&p), Some((27, 1, 1)));
}

/// Tick, v and n of the miss, by the plain clock.
fn plain_miss(p: &Plan) -> Option<(u64, u64, u64)> {
    match run(p, 100, &mut |_| {}) {
        Outcome::Missed { tick, v, n } => Some((tick, v, n)),
        Outcome::Ended => None,
    }
}

#[test]
fn a_plan_that_fits_by_the_former_figure_alone_is_told_apart() {
    let p = plan(CEILING);
    let watched = watch(&p, None);
    assert_eq!(watched.fits, Fits::Former);
    let missed = Finding::Missed {
        tick: 12,
        v: 1,
        n: 2,
    };
    assert_eq!(watched.findings, [missed]);
    assert_eq!(plain_miss(&p), Some((12, 1, 2)));
    let mut summary = Summary::default();
    assert_eq!(summary.watch(&p, None), Some(watched));
    let count = summary.all();
    assert_eq!((count.plans, count.accepted, count.fit), (1, 1, 0));
    assert_eq!((count.former, count.former_missed), (1, 1));
    assert_eq!((count.missed, count.longer, count.former_longer), (0, 0, 0));
}

#[test]
fn a_local_mutex_handed_on_below_is_seen() {
    let p = plan(HANDED_ON);
    // Both ceilings are 3; every tick is the VCPU's, and no mutex is global.
    // (1, 1): 13, 2 for each 7 ticks begun and 5 for each 20: 13 + 4 + 5 = 22, 13 + 8 + 10 = 31,
    //   13 + 10 + 10 = 33, and 33 again.
    // (1, 2): 5, blocked for 5, and 2 for each 7: 10 + 2 = 12, 10 + 4 = 14, and 14 again.
    // (1, 3): 2, blocked for the longest of 5 and 5: 7, and 7 again.
    assert_eq!(
        spaced(&listing(&p)),
        "verdict 1\nvcpu 1 fits 1 1\ntask 1 1 fits 33 4\ntask 1 2 fits 14 3\ntask 1 3 fits 7 2\nall fits\n"
    );
    // (1, 3) has 0 and 1, 7 and 8, 14 and 15; (1, 2) 2 to 6; (1, 1) 9 to 13 and 16 to 18, and locks 1 at 19.
    // At 20 (1, 2) asks for 2 and waits, at 21 (1, 3) asks for 1 and waits. At 23 (1, 1) frees 1 to (1, 3), which
    // has 24 and frees 1: the highest waiter is (1, 2), it passes the test and is granted 2. At 25 (1, 3) asks
    // for 2 and waits a second time: (1, 2) has 25 to 29, and at 28 the next job of (1, 3) is due.
    let missed = Finding::Missed {
        tick: 28,
        v: 1,
        n: 3,
    };
    assert_eq!(watch(&p, None).findings, [missed]);
    assert_eq!(plain_miss(&p), Some((28, 1, 3)));
}

#[test]
fn a_longer_job_is_seen() {
    // The ceiling plan with a period of 7: by the former figure the row of (1, 2) says 5. Its first job has 0 to
    // 4, (1, 1) locks at 5 and has 5 and 6. The second job of (1, 2) has 7; at 8 it waits for the third tick of
    // (1, 1), then has 9 to 11 and its last tick, 12: 6 ticks from 7 to the end of 12.
    let p = plan(&CEILING.replace("task 1 2 6", "task 1 2 7"));
    let watched = watch(&p, Some(14));
    assert_eq!(watched.fits, Fits::Former);
    let longer = Finding::Longer {
        v: 1,
        n: 2,
        time: 6,
        w: 5,
        release: 7,
    };
    assert_eq!(watched.findings, [longer]);
    assert_eq!(watch(&p, Some(12)).findings, []);
    assert_eq!(watch(&p, Some(13)).findings, [longer]);
}

/// The jobs of each task, (v, n) rising, by the plain clock.
fn plain_jobs(p: &Plan, horizon: u64) -> (Outcome, Vec<Jobs>) {
    let none = |task: &Task| Jobs {
        v: task.v,
        n: task.n,
        ..Jobs::default()
    };
    let mut jobs: Vec<Jobs> = p.tasks_rising().into_iter().map(none).collect();
    let outcome = run_and_ends(p, horizon, &mut |_| {}, &mut |tick, task| {
        let release = tick - tick % task.period;
        let time = tick + 1 - release;
        for job in jobs.iter_mut().filter(|j| (j.v, j.n) == (task.v, task.n)) {
            job.ended += 1;
            if time > job.time {
                job.time = time;
                job.release = release;
            }
        }
    });
    (outcome, jobs)
}

#[test]
fn jobs_are_measured_as_by_the_plain_clock() {
    let (mut ended, mut missed) = (0, 0);
    let clocks = (0..200).map(|index| clock_plan(&mut Chance::new(6, index, 9)).0);
    let watched = (0..200).map(|index| plan_of(6, index));
    for p in clocks.chain(watched) {
        let (outcome, jobs) = run_and_jobs(&p, 700);
        assert_eq!((outcome, jobs.clone()), plain_jobs(&p, 700));
        assert_eq!(run(&p, 700, &mut |_| {}), outcome);
        ended += jobs.iter().map(|j| j.ended).sum::<u64>();
        missed += u64::from(outcome != Outcome::Ended);
    }
    assert!(ended > 5000 && missed > 20, "{} {}", ended, missed);
}

#[test]
fn the_default_horizon() {
    // 20, 10, 100 and 50 come together at 100; twice the longest is farther.
    assert_eq!(default_horizon(&plan(&worked("D O"))), 201);
    // 1, 60 and 6 at 60; twice 60.
    assert_eq!(default_horizon(&plan(CEILING)), 121);
    // 1, 27, 92 and 11 at 27,324.
    assert_eq!(default_horizon(&plan(EQ11_DN)), 20_001);
    // 1, 7, 9 and 11 at 693.
    let odd = "plan 1/policy D N/vcpu 1 1 0 1 1/guest 1/task 1 1 7/run 0/task 1 2 9/run 0/\
               task 1 3 11/run 0/end/";
    assert_eq!(default_horizon(&plan(odd)), 694);
    let long = odd.replace("task 1 3 11", "task 1 3 30000");
    assert_eq!(default_horizon(&plan(&long)), 60_001);
    let longest = odd.replace("task 1 3 11", "task 1 3 900000");
    assert_eq!(default_horizon(&plan(&longest)), 1_000_000);
}

/// The plans are accepted; many fit, of every policy, and many share local mutexes; changes are small.
#[test]
fn generated_plans_are_worth_watching() {
    let mut policies = BTreeMap::new();
    let (mut fit, mut former, mut shared, mut refused) = (0, 0, 0, 0);
    for index in 0..1000 {
        let p = plan_of(3, index);
        assert_eq!(read(&p.text()).as_ref(), Ok(&p));
        assert_eq!(p, watched_plan(&mut Chance::new(3, index, 6)));
        *policies.entry(p.policy_letters()).or_insert(0) += 1;
        let fits = judge(&p).all_fit();
        fit += u64::from(fits);
        former += u64::from(!fits && former_judge(&p).all_fit());
        let shares = p.mutexes.iter().filter(|x| !p.is_global(x.m));
        let mut shares = shares.map(|x| p.tasks().filter(|t| t.lists(x.m)).count());
        shared += u64::from(shares.any(|users| users > 1));
        let other = changed(&mut Chance::new(3, index, 8), &p);
        refused += u64::from(read(&other.text()).is_err());
    }
    assert!(policies.len() == 4 && policies.values().all(|n| *n > 100));
    assert!(
        fit > 500 && former > 20 && shared > 400 && refused == 0,
        "{} fit, {} by the former figure alone, {} share local mutexes, {} changed ones are refused",
        fit,
        former,
        shared,
        refused
    );
}

#[test]
fn a_climb_goes_up_and_is_the_same_again() {
    let mut summary = Summary::default();
    let mut tops = Vec::new();
    for index in 0..6 {
        let start = climb(2, index, 0, Some(500), &mut Summary::default());
        let top = climb(2, index, 60, Some(500), &mut summary);
        if let (Some((_, start)), Some((p, top))) = (&start, &top) {
            assert!(judge(p).all_fit() && top.fits == Fits::Mended);
            let (low, high) = (start.height(None), top.height(None));
            // Climbs of all tasks never fall; a miss ends one at any height.
            assert!(index % 2 == 1 || top.has_missed() || low.0 * high.1 <= high.0 * low.1);
        }
        tops.push(top);
    }
    assert!(tops.iter().all(|top| top.is_some()));
    let mut again = Summary::default();
    let same: Vec<_> = (0..6)
        .map(|index| climb(2, index, 60, Some(500), &mut again))
        .collect();
    assert_eq!((same, again), (tops, summary));
}

/// What `watch` prints, and its status.
fn watched(args: &[&str]) -> (String, Option<i32>) {
    ended(env!("CARGO_BIN_EXE_watch"), args)
}

#[test]
fn the_command() {
    let dir = PathBuf::from(env!("CARGO_TARGET_TMPDIR")).join("watch");
    let _ = std::fs::remove_dir_all(&dir);
    std::fs::create_dir_all(&dir).expect("a directory");
    let file = dir.join("plan.tsv").to_string_lossy().into_owned();

    std::fs::write(&file, text(EQ11_DN)).expect("written");
    let (out, status) = watched(&["file", &file]);
    assert_eq!(status, Some(0));
    assert!(
        out.contains(&format!("missed\t27\t1\t1\tD N\t{}\n", file)),
        "{}",
        out
    );
    let (out, _) = watched(&["file", &file, "27"]);
    assert!(!out.contains("missed\t"), "{}", out);

    std::fs::write(&file, text(CEILING)).expect("written");
    let (out, status) = watched(&["file", &file]);
    assert_eq!(status, Some(0));
    let line = format!("former\tmissed\t12\t1\t2\tP O\t{}\n", file);
    assert!(out.contains(&line), "{}", out);

    // Each file that is named is there, and shows what its line says.
    let folder = dir.join("found").to_string_lossy().into_owned();
    let (out, status) = watched(&["--folder", &folder, "plans", "1", "1500"]);
    assert_eq!(status, Some(0));
    assert_eq!(watched(&["--folder", &folder, "plans", "1", "1500"]).0, out);
    let mut named = 0;
    for line in out.lines().filter(|l| l.contains('\t')) {
        let name = line.rsplit('\t').next().unwrap_or("");
        assert!(watched(&["file", name]).0.contains(line), "{}", line);
        named += 1;
    }
    assert!(named > 0, "{}", out);
    assert!(
        out.contains("\nall: 1500 plans, 1500 accepted, "),
        "{}",
        out
    );

    let (out, status) = watched(&["--folder", &folder, "climb", "1", "4", "20", "300"]);
    assert_eq!(status, Some(0));
    assert!(out.contains("4 climbs: "), "{}", out);

    std::fs::write(&file, b"plan\t2\n").expect("written");
    for args in [
        &[][..],
        &["plans", "1"],
        &["plans", "1", "x"],
        &["plans", "1", "1", "0"],
        &["plans", "1", "1", "1000001"],
        &["climb", "1", "1"],
        &["file"],
        &["file", "no-such-file"],
        &["file", &file],
    ] {
        let (out, status) = watched(args);
        assert_eq!((out.as_str(), status), ("", Some(2)), "{:?}", args);
    }
}
