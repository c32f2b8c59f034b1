//! The commands as they are run.

mod common;

use std::io::Write;
use std::path::PathBuf;
use std::process::{Command, Output, Stdio};

use common::{ended, text, worked};
use oracle::clock::clock_text;
use oracle::events::board_text;
use oracle::frames;
use oracle::generate::{board_case, clock_case, plan_case, table_case};
use oracle::verdict::verdict_text;
use oracle::write::rewrite_text;

fn oracle(args: &[&str], input: &[u8]) -> Output {
    let mut child = Command::new(env!("CARGO_BIN_EXE_oracle"))
        .args(args)
        .stdin(Stdio::piped())
        .stdout(Stdio::piped())
        .stderr(Stdio::piped())
        .spawn()
        .expect("the program starts");
    let mut stdin = child.stdin.take().expect("its input");
    let _ = stdin.write_all(input);
    drop(stdin);
    child.wait_with_output().expect("the program ends")
}

fn printed(args: &[&str], input: &[u8]) -> Vec<u8> {
    let out = oracle(args, input);
    assert_eq!(out.status.code(), Some(0), "{:?}", args);
    assert!(out.stderr.is_empty());
    out.stdout
}

/// A directory of this test's own.
fn place(name: &str) -> PathBuf {
    let dir = PathBuf::from(env!("CARGO_TARGET_TMPDIR")).join(name);
    let _ = std::fs::remove_dir_all(&dir);
    std::fs::create_dir_all(&dir).expect("a directory");
    dir
}

#[test]
fn verdict_and_reading() {
    let plan = text(&worked("D O"));
    assert_eq!(printed(&["verdict"], &plan), verdict_text(&plan));
    assert_eq!(printed(&["verdict"], b""), b"refused\t1\t1\t0\n");
    let long = [b'x'; 70_000];
    assert_eq!(printed(&["verdict"], &long), b"refused\t8\t0\t0\n");
    assert_eq!(printed(&["reading"], &long), b"refused\t1\t1\t0\n");
    let bad = text(&worked("D O").replace("vcpu 2 2 0 2 10", "vcpu 2 2 0 11 10"));
    assert_eq!(printed(&["verdict"], &bad), b"refused\t3\t4\t5\n");
    assert_eq!(printed(&["reading"], &bad), b"refused\t3\t4\t5\n");
    let expected = "accepted/policy D O/vcpu 1 1 0 3 20/vcpu 2 2 0 2 10/mutex 1 G/open 1 1/\
                    open 1 2/task 1 1 1 100 2 1 1 1 2/task 2 2 1 50 1 1 1 2 1/";
    assert_eq!(printed(&["reading"], &plan), text(expected));
}

#[test]
fn board_reads_the_plan_file() {
    let dir = place("board");
    let file = dir.join("plan.tsv");
    let name = file.to_string_lossy().into_owned();
    let absent = printed(&["board", &name], b"top\t1\n");
    assert_eq!(absent, b"refused\t1\t1\t0\n");
    let plan = text(&worked("D O"));
    std::fs::write(&file, &plan).expect("written");
    assert_eq!(printed(&["board", &name], b"top\t1\n"), b"left\t3\t1\n");
    assert_eq!(
        printed(&["board", &name], &[b'\n'; 65_537]),
        b"refused\t8\t0\t0\n"
    );
}

#[test]
fn clock_reads_the_plan_file() {
    let dir = place("clock");
    let name = dir.join("plan.tsv").to_string_lossy().into_owned();
    let line = b"horizon\t30\n";
    assert_eq!(printed(&["clock", &name], line), b"refused\t1\t1\t0\n");
    let plan = text(&worked("D O"));
    std::fs::write(&name, &plan).expect("written");
    assert_eq!(printed(&["clock", &name], line), clock_text(&plan, line));
    assert_eq!(printed(&["clock", &name], b""), b"refused\t1\n");
    let long = [b'\n'; 65_537];
    assert_eq!(printed(&["clock", &name], &long), b"refused\t8\t0\t0\n");
    for index in 0..40 {
        let case = clock_case(5, index);
        let at = dir.to_string_lossy().into_owned();
        printed(&["clock-case", "5", &index.to_string(), &at], b"");
        assert_eq!(std::fs::read(&name).ok(), case.plan);
        let horizon = std::fs::read(dir.join("horizon.tsv")).ok();
        assert_eq!(horizon, Some(case.horizon));
    }
}

#[test]
fn rewrite_and_write() {
    let plan = text(&worked("D O"));
    assert_eq!(printed(&["rewrite"], &plan), plan);
    assert_eq!(printed(&["rewrite"], b""), b"refused\t1\t1\t0\n");
    let long = [b'x'; 70_000];
    assert_eq!(printed(&["rewrite"], &long), b"refused\t8\t0\t0\n");
    for index in 0..20 {
        let bytes = plan_case(5, index);
        assert_eq!(printed(&["rewrite"], &bytes), rewrite_text(&bytes));
        let call = table_case(5, index).call;
        let case = printed(&["table-case", "5", &index.to_string()], b"");
        assert_eq!(case, call.text());
        assert_eq!(printed(&["write"], &case), call.answer());
    }
}

#[test]
fn cases_and_corpora() {
    let dir = place("corpora");
    let file = dir.join("cases").to_string_lossy().into_owned();
    assert!(printed(&["corpus", "5", "40", &file], b"").is_empty());
    let mut plans = Vec::new();
    let mut answers = Vec::new();
    for index in 0..40 {
        let case = plan_case(5, index);
        frames::push(&mut plans, &case);
        frames::push(&mut answers, &verdict_text(&case));
    }
    assert_eq!(std::fs::read(&file).expect("read"), plans);
    assert_eq!(printed(&["answers", &file], b""), answers);
    assert_eq!(printed(&["plan", "5", "3"], b""), plan_case(5, 3));

    assert!(printed(&["board-corpus", "5", "40", &file], b"").is_empty());
    let mut answers = Vec::new();
    for index in 0..40 {
        let case = board_case(5, index);
        let plan = case.plan.unwrap_or_default();
        frames::push(&mut answers, &board_text(&plan, &case.events));
    }
    assert_eq!(printed(&["board-answers", &file], b""), answers);

    for index in 0..60 {
        let case = board_case(5, index);
        let number = index.to_string();
        let at = dir.to_string_lossy().into_owned();
        printed(&["case", "5", &number, &at], b"");
        assert_eq!(std::fs::read(dir.join("plan.tsv")).ok(), case.plan);
        assert_eq!(
            std::fs::read(dir.join("events.tsv")).ok(),
            Some(case.events.clone())
        );
        assert_eq!(printed(&["events", "5", &number], b""), case.events);
        let plan = printed(&["plan-for-events", "5", &number], b"");
        assert_eq!(plan, case.plan.unwrap_or_default());
    }
}

/// What `compare` prints, and its status.
fn compared(args: &[&str]) -> (String, Option<i32>) {
    ended(env!("CARGO_BIN_EXE_compare"), args)
}

#[test]
fn compare_finds_one_wrong_line_of_a_run() {
    let dir = place("compare");
    let oracle = env!("CARGO_BIN_EXE_oracle");
    let save = dir.join("save").to_string_lossy().into_owned();
    let (out, status) = compared(&["clock", "1", "30", &save, oracle, "clock", "plan.tsv"]);
    assert_eq!(status, Some(0));
    assert!(out.starts_with("30 cases compared, 0 differ\n"), "{}", out);
    assert!(!dir.join("save").exists());

    // A case of its own, and a program that says `left 1 0` where it is `left 0 0`.
    let case = dir.join("cases").join("one");
    std::fs::create_dir_all(&case).expect("a directory");
    let plan = "plan 1/policy D N/vcpu 1 1 0 1 4/guest 1/task 1 1 4/run 1/end/";
    let want = "0 top 1 left 1 0/0 use 1 1 left 0 0/end 3/";
    for (file, spaced) in [
        ("plan.tsv", plan),
        ("horizon.tsv", "horizon 3/"),
        ("want.tsv", want),
    ] {
        std::fs::write(case.join(file), text(spaced)).expect("written");
    }
    let cases = dir.join("cases").to_string_lossy().into_owned();
    let run = ["horizons", &cases, &save, oracle, "clock", "plan.tsv"];
    assert_eq!(compared(&run).1, Some(0));
    let wrong = format!("'{}' clock plan.tsv | sed 's/left.0/left\\t1/'", oracle);
    let (out, status) = compared(&["horizons", &cases, &save, "sh", "-c", &wrong]);
    assert_eq!(status, Some(1));
    assert!(out.contains("1 cases compared, 1 differ\n"), "{}", out);
    let got = std::fs::read(dir.join("save").join("one").join("got")).expect("kept");
    assert_eq!(got, text(&want.replace("left 0", "left 1")));

    // What is wanted by hand counts as well.
    std::fs::write(case.join("want.tsv"), b"end\t3\n").expect("written");
    assert_eq!(compared(&run).1, Some(1));
}

#[test]
fn compare_finds_what_is_written_wrong() {
    let dir = place("written");
    let oracle = env!("CARGO_BIN_EXE_oracle");
    let save = dir.join("save").to_string_lossy().into_owned();
    let (out, status) = compared(&["write", "1", "60", &save, oracle, "write"]);
    assert_eq!(status, Some(0), "{}", out);
    assert!(out.starts_with("60 cases compared, 0 differ\n"), "{}", out);
    let (out, status) = compared(&["rewrite", "1", "60", &save, oracle, "rewrite"]);
    assert_eq!(status, Some(0), "{}", out);
    assert!(out.contains("  plans accepted: 24\n"), "{}", out);
    assert!(out.contains("  came back byte for byte: 24\n"), "{}", out);
    assert!(!dir.join("save").exists());

    // Another number, a byte of the text, and the last byte behind the buffer.
    let numbers = "sed '1s/^-8$/-9/'";
    let letters = "LC_ALL=C sed 's/^end$/End/'";
    let behind = "LC_ALL=C head -c -1";
    for wrong in [numbers, letters, behind] {
        let wrong = format!("'{}' write | {}", oracle, wrong);
        let (out, status) = compared(&["write", "1", "60", &save, "sh", "-c", &wrong]);
        assert_eq!(status, Some(1), "{}: {}", wrong, out);
    }
    let wrong = format!("'{}' rewrite | sed 's/^run.0$/run\\t00/'", oracle);
    let (out, status) = compared(&["rewrite", "1", "60", &save, "sh", "-c", &wrong]);
    assert_eq!(status, Some(1), "{}", out);
    assert!(!out.contains("  came back byte for byte: 24\n"), "{}", out);
}

#[test]
fn compare_wants_a_stored_plan_back() {
    let dir = place("again");
    let oracle = env!("CARGO_BIN_EXE_oracle");
    let save = dir.join("save").to_string_lossy().into_owned();
    let cases = dir.join("plans");
    let listings = cases.join("listings");
    std::fs::create_dir_all(&listings).expect("a directory");
    let good = text(&worked("P N"));
    let bad = text(&worked("P N").replace("open 1 2", "open 1 3"));
    std::fs::write(cases.join("good.tsv"), &good).expect("written");
    std::fs::write(cases.join("listed.tsv"), &good).expect("written");
    std::fs::write(cases.join("bad.tsv"), bad).expect("written");
    std::fs::write(listings.join("listed.tsv"), verdict_text(&good)).expect("written");
    let folder = cases.to_string_lossy().into_owned();
    for (refused, status) in [("refused 5 7 3", 0), ("refused 5 7 2", 1)] {
        let want = format!("good accepted/listed accepted/bad {}/", refused);
        std::fs::write(cases.join("want.tsv"), text(&want)).expect("written");
        let (out, ended) = compared(&["rewrites", &folder, &save, oracle, "rewrite"]);
        assert_eq!(ended, Some(status), "{}: {}", refused, out);
        assert!(out.contains("  came back byte for byte: 2\n"), "{}", out);
    }
    // A program that gives an accepted plan another letter.
    let wrong = format!("'{}' rewrite | sed 's/^policy.P/policy\\tD/'", oracle);
    let want = b"good\taccepted\nlisted\taccepted\nbad\trefused\t5\t7\t3\n";
    std::fs::write(cases.join("want.tsv"), want).expect("written");
    let (out, ended) = compared(&["rewrites", &folder, &save, "sh", "-c", &wrong]);
    assert_eq!(ended, Some(1));
    assert!(out.contains("3 cases compared, 2 differ\n"), "{}", out);
}

#[test]
fn compare_wants_the_field_of_a_refusal() {
    let dir = place("wanted");
    let oracle = env!("CARGO_BIN_EXE_oracle");
    let save = dir.join("save").to_string_lossy().into_owned();
    let cases = dir.join("plans");
    std::fs::create_dir_all(&cases).expect("a directory");
    let good = worked("P N");
    let bad = good.replace("open 1 2", "open 1 3");
    for (file, spaced) in [("good.tsv", good), ("bad.tsv", bad)] {
        std::fs::write(cases.join(file), text(&spaced)).expect("written");
    }
    let folder = cases.to_string_lossy().into_owned();
    let run = ["plans", &folder, &save, oracle, "verdict"];
    for (refused, status) in [
        ("refused 5 7 3", 0),
        ("refused 5 7 2", 1),
        ("refused 5 7", 2),
        ("refused 5 7 3 0", 2),
    ] {
        let want = format!("good accepted/bad {}/", refused);
        std::fs::write(cases.join("want.tsv"), text(&want)).expect("written");
        let (out, ended) = compared(&run);
        assert_eq!(ended, Some(status), "{}: {}", refused, out);
        if status == 0 {
            assert!(
                out.contains("  refused by number:field: 5:3 1\n"),
                "{}",
                out
            );
        }
    }
    // A program that says another field differs.
    let want = b"good\taccepted\nbad\trefused\t5\t7\t3\n";
    std::fs::write(cases.join("want.tsv"), want).expect("written");
    let wrong = format!(
        "'{}' verdict | sed 's/^refused.*/refused\\t5\\t7\\t2/'",
        oracle
    );
    let (out, ended) = compared(&["plans", &folder, &save, "sh", "-c", &wrong]);
    assert_eq!(ended, Some(1));
    assert!(out.contains("2 cases compared, 1 differ\n"), "{}", out);
}

#[test]
fn wrong_arguments() {
    for args in [
        &[][..],
        &["what"],
        &["verdict", "1"],
        &["board"],
        &["clock"],
        &["clock-case", "1", "1"],
        &["rewrite", "1"],
        &["write"],
        &["table-case", "1"],
        &["plan", "1"],
        &["plan", "x", "1"],
        &["plan", "1", "1", "no-such-kind"],
        &["corpus", "1", "1"],
        &["answers", "/no/such/file"],
    ] {
        let out = oracle(args, b"");
        assert_eq!(out.status.code(), Some(2), "{:?}", args);
        assert!(out.stdout.is_empty());
        assert!(!out.stderr.is_empty());
    }
    assert!(printed(&["plan"], b"").starts_with(b"minimal\t"));
}

#[test]
fn a_closed_output_is_no_fault() {
    let mut child = Command::new(env!("CARGO_BIN_EXE_oracle"))
        .args(["plan", "1", "1", "oversize"])
        .stdin(Stdio::null())
        .stdout(Stdio::piped())
        .stderr(Stdio::piped())
        .spawn()
        .expect("the program starts");
    drop(child.stdout.take());
    let out = child.wait_with_output().expect("the program ends");
    assert_eq!(out.status.code(), Some(0));
    assert!(out.stderr.is_empty());
}
