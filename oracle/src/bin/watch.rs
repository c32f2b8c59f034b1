//! Looks for plans that fit and of which a job is missed on the clock, or takes longer than its row says.
#![forbid(unsafe_code)]

use std::io::Write;
use std::path::{Path, PathBuf};
use std::process::ExitCode;

use oracle::limits::TICKS;
use oracle::plan::Plan;
use oracle::reading::read;
use oracle::watch::{climb, plan_of, Finding, Fits, Summary, Watched};

const USAGE: &str = "usage:
  watch [--folder FOLDER] plans SEED COUNT [HORIZON]          COUNT generated plans
  watch [--folder FOLDER] climb SEED COUNT STEPS [HORIZON]    COUNT plans that fit, each changed STEPS times towards a miss
  watch [--folder FOLDER] file FILE [HORIZON]                 the plan in FILE
Those that fit are run on the clock from tick 0 to before HORIZON, 1 to 1000000. Without it that is one tick more than the
least common multiple of all periods, but at most 20000 and at least twice the longest period. Each finding is a line:
  missed tick v n POLICY FILE                 the job of (v, n) was unfinished at the tick
  longer v n time w release POLICY FILE       a job of (v, n), released at that tick, took longer than its row's w
The plan is kept in FILE, in the folder target/watched or FOLDER. A line with `former` before it is of a plan that fits by
the former figure alone, a ceiling greater than n; of `plans` the first 20 such plans are shown, of `climb` none.
";

/// So many plans that fit by the former figure alone are shown.
const FORMER_SHOWN: u64 = 20;

/// Progress of climbs goes to standard error after each so many.
const SHOWN: u64 = 100;

fn main() -> ExitCode {
    let args: Vec<String> = std::env::args_os()
        .skip(1)
        .map(|a| a.to_string_lossy().into_owned())
        .collect();
    let words: Vec<&str> = args.iter().map(|a| a.as_str()).collect();
    let (folder, words) = match words.as_slice() {
        ["--folder", folder, rest @ ..] => (*folder, rest),
        rest => ("target/watched", rest),
    };
    match run(Path::new(folder), words) {
        Ok(()) => ExitCode::SUCCESS,
        Err(message) => {
            eprint!("{}", message);
            ExitCode::from(2)
        }
    }
}

fn run(folder: &Path, words: &[&str]) -> Result<(), String> {
    match words {
        ["plans", seed, count] => plans(folder, number(seed)?, number(count)?, None),
        ["plans", seed, count, h] => plans(folder, number(seed)?, number(count)?, Some(ticks(h)?)),
        ["climb", seed, count, steps] => {
            climbs(folder, number(seed)?, number(count)?, number(steps)?, None)
        }
        ["climb", seed, count, steps, h] => {
            let horizon = Some(ticks(h)?);
            climbs(
                folder,
                number(seed)?,
                number(count)?,
                number(steps)?,
                horizon,
            )
        }
        ["file", file] => one_file(file, None),
        ["file", file, h] => one_file(file, Some(ticks(h)?)),
        _ => Err(USAGE.to_string()),
    }
}

fn number(text: &str) -> Result<u64, String> {
    text.parse()
        .map_err(|_| format!("watch: {} is no number\n{}", text, USAGE))
}

fn ticks(text: &str) -> Result<u64, String> {
    match number(text)? {
        horizon if (1..=TICKS).contains(&horizon) => Ok(horizon),
        _ => Err(format!("watch: {} is no horizon\n{}", text, USAGE)),
    }
}

/// A closed standard output is no fault.
fn show(text: &str) {
    let _ = std::io::stdout().write_all(text.as_bytes());
}

fn plans(folder: &Path, seed: u64, count: u64, horizon: Option<u64>) -> Result<(), String> {
    let mut summary = Summary::default();
    let mut former = 0;
    for index in 0..count {
        let plan = plan_of(seed, index);
        let watched = match summary.watch(&plan, horizon) {
            Some(watched) if !watched.findings.is_empty() => watched,
            _ => continue,
        };
        if watched.fits == Fits::Former {
            former += 1;
            if former > FORMER_SHOWN {
                continue;
            }
        }
        let file = folder.join(format!("plans-{}-{}.tsv", seed, index));
        keep(&plan, &watched, &file)?;
    }
    show(&summary.to_string());
    Ok(())
}

fn climbs(
    folder: &Path,
    seed: u64,
    count: u64,
    steps: u64,
    horizon: Option<u64>,
) -> Result<(), String> {
    let mut summary = Summary::default();
    let (mut begun, mut missed, mut longer, mut reached) = (0, 0, 0, 0);
    for index in 0..count {
        if index > 0 && index % SHOWN == 0 {
            eprintln!("watch: {} of {} climbs", index, count);
        }
        let (plan, watched) = match climb(seed, index, steps, horizon, &mut summary) {
            Some(top) => top,
            None => continue,
        };
        begun += 1;
        if watched.has_missed() {
            missed += 1;
        } else if watched.has_longer() {
            longer += 1;
        } else {
            let (time, w) = watched.height(None);
            reached += u64::from(time == w);
        }
        if !watched.findings.is_empty() {
            let file = folder.join(format!("climb-{}-{}.tsv", seed, index));
            keep(&plan, &watched, &file)?;
        }
    }
    show(&format!(
        "{} climbs: {} came to a miss, {} to a longer job, {} to a row's w and none beyond\n",
        begun, missed, longer, reached
    ));
    show(&summary.to_string());
    Ok(())
}

/// One line for each finding, and the plan in a file.
fn keep(plan: &Plan, watched: &Watched, file: &Path) -> Result<(), String> {
    let fail = |e| format!("watch: {}: {}\n", file.display(), e);
    if let Some(folder) = file.parent() {
        std::fs::create_dir_all(folder).map_err(fail)?;
    }
    std::fs::write(file, plan.text()).map_err(fail)?;
    show(&lines(plan, watched, file));
    Ok(())
}

fn lines(plan: &Plan, watched: &Watched, file: &Path) -> String {
    let mut out = String::new();
    for finding in &watched.findings {
        if watched.fits == Fits::Former {
            out.push_str("former\t");
        }
        match finding {
            Finding::Missed { tick, v, n } => {
                out.push_str(&format!("missed\t{}\t{}\t{}", tick, v, n));
            }
            Finding::Longer {
                v,
                n,
                time,
                w,
                release,
            } => out.push_str(&format!(
                "longer\t{}\t{}\t{}\t{}\t{}",
                v, n, time, w, release
            )),
        }
        out.push_str(&format!(
            "\t{}\t{}\n",
            plan.policy_letters(),
            file.display()
        ));
    }
    out
}

/// The longest job of each task beside its row's w, then the findings.
fn one_file(file: &str, horizon: Option<u64>) -> Result<(), String> {
    let path = PathBuf::from(file);
    let bytes = std::fs::read(&path).map_err(|e| format!("watch: {}: {}\n", file, e))?;
    let plan = read(&bytes).map_err(|refusal| {
        format!(
            "watch: {}: refused {} {} {}\n",
            file, refusal.number, refusal.line, refusal.field
        )
    })?;
    let mut summary = Summary::default();
    if let Some(watched) = summary.watch(&plan, horizon) {
        for row in &watched.rows {
            show(&format!(
                "task\t{}\t{}\ttime\t{}\tw\t{}\n",
                row.jobs.v, row.jobs.n, row.jobs.time, row.w
            ));
        }
        show(&lines(&plan, &watched, &path));
    }
    show(&summary.to_string());
    Ok(())
}
