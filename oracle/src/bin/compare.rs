//! Runs a program on generated or stored cases and compares what it prints with the reference.
#![forbid(unsafe_code)]

use std::io::{Read, Write};
use std::path::{Path, PathBuf};
use std::process::{Command, ExitCode, Stdio};
use std::sync::atomic::{AtomicU64, Ordering};
use std::sync::Mutex;

use oracle::clock::{clock_text_of, end_text};
use oracle::events::board_text;
use oracle::generate::{board_case, clock_case, plan_case, run_case, table_case, TableCase};
use oracle::tally::{Tally, Watch};
use oracle::verdict::verdict_text;
use oracle::write::rewrite_text;

const USAGE: &str = "usage:
  compare verdict SEED COUNT SAVE PROGRAM [ARG ..]    COUNT generated plans: the listing
  compare board SEED COUNT SAVE PROGRAM [ARG ..]      COUNT generated plans with events
  compare clock SEED COUNT SAVE PROGRAM [ARG ..]      COUNT generated plans with a horizon
  compare run SEED COUNT SAVE PROGRAM [ARG ..]        COUNT generated plans with a horizon as a number: how the run ends
  compare rewrite SEED COUNT SAVE PROGRAM [ARG ..]    COUNT generated plans: read and written again
  compare write SEED COUNT SAVE PROGRAM [ARG ..]      COUNT generated tables with room for their text: what is returned, and
                                                      every byte of the buffer
  compare plans FOLDER SAVE PROGRAM [ARG ..]          the plans that FOLDER/want.tsv names, and what it wants of each
  compare rewrites FOLDER SAVE PROGRAM [ARG ..]       the same plans: an accepted one comes back as it is
  compare events FOLDER SAVE PROGRAM [ARG ..]         every folder in FOLDER: plan.tsv (if any), events.tsv, want.tsv
  compare horizons FOLDER SAVE PROGRAM [ARG ..]       every folder in FOLDER: plan.tsv (if any), horizon.tsv, want.tsv
A case on which the program and the reference differ, or the reference and what is wanted, is kept in the folder SAVE.
Status 1 where there is one, 2 where the cases or the program cannot be had.
";

/// Cases are shared out over this many threads.
const THREADS: u64 = 2;

/// Progress is shown after each so many cases.
const SHOWN: u64 = 250;

/// What is wanted of a stored case, worked out by hand.
#[derive(Clone)]
enum Want {
    /// A listing, whichever.
    Accepted,
    /// These bytes.
    Text(Vec<u8>),
}

impl Want {
    fn meets(&self, text: &[u8]) -> bool {
        match self {
            Want::Accepted => text.starts_with(b"verdict\t1\n"),
            Want::Text(bytes) => text == bytes.as_slice(),
        }
    }

    /// What is wanted of the plan read and written again: an accepted one itself.
    fn rewritten(self, plan: &[u8]) -> Want {
        match self {
            Want::Text(bytes) if bytes.starts_with(b"refused\t") => Want::Text(bytes),
            _ => Want::Text(plan.to_vec()),
        }
    }

    fn words(&self) -> &[u8] {
        match self {
            Want::Accepted => b"accepted\n",
            Want::Text(bytes) => bytes,
        }
    }
}

/// The standard input of a program; `board` and `clock` read the plan as plan.tsv in their folder.
#[derive(Clone)]
enum Input {
    /// The plan itself, for `verdict`.
    Plan,
    /// The plan itself, for `rewrite`.
    Again,
    /// For `board`.
    Events(Vec<u8>),
    /// For `clock`.
    Horizon(Vec<u8>),
    /// For the function for C: the horizon.
    Ticks(u64, Vec<u8>),
    /// For the function for C that writes: tables and room.
    Tables(TableCase, Vec<u8>),
}

impl Input {
    /// The bytes beside the plan, and the name of the file in which they are kept.
    fn beside(&self) -> Option<(&str, &[u8])> {
        match self {
            Input::Plan | Input::Again => None,
            Input::Events(bytes) => Some(("events.tsv", bytes)),
            Input::Horizon(bytes) => Some(("horizon.tsv", bytes)),
            Input::Ticks(_, bytes) => Some(("horizon.txt", bytes)),
            Input::Tables(_, bytes) => Some(("tables.txt", bytes)),
        }
    }
}

#[derive(Clone)]
struct Case {
    name: String,
    plan: Option<Vec<u8>>,
    input: Input,
    want: Option<Want>,
}

fn main() -> ExitCode {
    let args: Vec<String> = std::env::args_os()
        .skip(1)
        .map(|a| a.to_string_lossy().into_owned())
        .collect();
    match run(&args) {
        Ok(0) => ExitCode::SUCCESS,
        Ok(_) => ExitCode::from(1),
        Err(message) => {
            eprint!("{}", message);
            ExitCode::from(2)
        }
    }
}

/// How many cases differ.
fn run(args: &[String]) -> Result<u64, String> {
    let words: Vec<&str> = args.iter().map(|a| a.as_str()).collect();
    match words.as_slice() {
        ["verdict", seed, count, save, program @ ..] if !program.is_empty() => {
            let seed = number(seed)?;
            all(number(count)?, save, program, &|index| {
                Some(Case {
                    name: format!("verdict-{}-{}", seed, index),
                    plan: Some(plan_case(seed, index)),
                    input: Input::Plan,
                    want: None,
                })
            })
        }
        ["board", seed, count, save, program @ ..] if !program.is_empty() => {
            let seed = number(seed)?;
            all(number(count)?, save, program, &|index| {
                let case = board_case(seed, index);
                Some(Case {
                    name: format!("board-{}-{}", seed, index),
                    plan: case.plan,
                    input: Input::Events(case.events),
                    want: None,
                })
            })
        }
        ["run", seed, count, save, program @ ..] if !program.is_empty() => {
            let seed = number(seed)?;
            all(number(count)?, save, program, &|index| {
                let case = run_case(seed, index);
                Some(Case {
                    name: format!("run-{}-{}", seed, index),
                    plan: case.plan,
                    input: Input::Ticks(case.horizon, format!("{}\n", case.horizon).into_bytes()),
                    want: None,
                })
            })
        }
        ["clock", seed, count, save, program @ ..] if !program.is_empty() => {
            let seed = number(seed)?;
            all(number(count)?, save, program, &|index| {
                let case = clock_case(seed, index);
                Some(Case {
                    name: format!("clock-{}-{}", seed, index),
                    plan: case.plan,
                    input: Input::Horizon(case.horizon),
                    want: None,
                })
            })
        }
        ["rewrite", seed, count, save, program @ ..] if !program.is_empty() => {
            let seed = number(seed)?;
            all(number(count)?, save, program, &|index| {
                Some(Case {
                    name: format!("rewrite-{}-{}", seed, index),
                    plan: Some(plan_case(seed, index)),
                    input: Input::Again,
                    want: None,
                })
            })
        }
        ["write", seed, count, save, program @ ..] if !program.is_empty() => {
            let seed = number(seed)?;
            all(number(count)?, save, program, &|index| {
                let case = table_case(seed, index);
                let text = case.call.text();
                Some(Case {
                    name: format!("write-{}-{}", seed, index),
                    plan: None,
                    input: Input::Tables(case, text),
                    want: None,
                })
            })
        }
        ["plans", folder, save, program @ ..] if !program.is_empty() => {
            stored(stored_plans(Path::new(folder))?, save, program)
        }
        ["rewrites", folder, save, program @ ..] if !program.is_empty() => {
            let plans = stored_plans(Path::new(folder))?;
            stored(plans.into_iter().map(again).collect(), save, program)
        }
        ["events", folder, save, program @ ..] if !program.is_empty() => {
            let cases = stored_folders(Path::new(folder), "events.tsv", &Input::Events)?;
            stored(cases, save, program)
        }
        ["horizons", folder, save, program @ ..] if !program.is_empty() => {
            let cases = stored_folders(Path::new(folder), "horizon.tsv", &Input::Horizon)?;
            stored(cases, save, program)
        }
        _ => Err(USAGE.to_string()),
    }
}

fn number(text: &str) -> Result<u64, String> {
    text.parse()
        .map_err(|_| format!("compare: {} is no number\n{}", text, USAGE))
}

fn file_bytes(path: &Path) -> Result<Vec<u8>, String> {
    std::fs::read(path).map_err(|e| format!("compare: {}: {}\n", path.display(), e))
}

/// What a folder holds, in order of name.
fn entries(folder: &Path) -> Result<Vec<PathBuf>, String> {
    let fail = |e| format!("compare: {}: {}\n", folder.display(), e);
    let mut found = Vec::new();
    for entry in std::fs::read_dir(folder).map_err(fail)? {
        found.push(entry.map_err(fail)?.path());
    }
    found.sort();
    Ok(found)
}

fn named(path: &Path) -> String {
    path.file_stem()
        .map_or_else(String::new, |n| n.to_string_lossy().into_owned())
}

/// The names of the files of a folder that end in `.tsv`.
fn tsv_names(folder: &Path) -> Result<Vec<String>, String> {
    let files = entries(folder)?;
    let tsv = files
        .iter()
        .filter(|p| p.extension().map_or(false, |e| e == "tsv"));
    Ok(tsv.map(|p| named(p)).collect())
}

/// FOLDER/want.tsv: a name, and `accepted` or `refused` number line field, for every other
/// .tsv file there. FOLDER/listings/NAME.tsv, where it is, is the listing of an accepted plan.
fn stored_plans(folder: &Path) -> Result<Vec<Case>, String> {
    let list = folder.join("want.tsv");
    let bad = |what: &str| format!("compare: {}: {}\n", list.display(), what);
    let listings = folder.join("listings");
    let mut unused = if listings.is_dir() {
        tsv_names(&listings)?
    } else {
        Vec::new()
    };
    let mut cases: Vec<Case> = Vec::new();
    for line in String::from_utf8_lossy(&file_bytes(&list)?).lines() {
        let (name, wanted) = line.split_once('\t').ok_or_else(|| bad(line))?;
        let fields: Vec<&str> = wanted.split('\t').collect();
        let want = match fields.as_slice() {
            ["refused", _, _, _] => Want::Text(format!("{}\n", wanted).into_bytes()),
            ["accepted"] if unused.iter().any(|n| n == name) => {
                unused.retain(|n| n != name);
                Want::Text(file_bytes(&listings.join(format!("{}.tsv", name)))?)
            }
            ["accepted"] => Want::Accepted,
            _ => return Err(bad(line)),
        };
        if cases.iter().any(|c| c.name == name) {
            return Err(bad(&format!("{} stands there twice", name)));
        }
        cases.push(Case {
            name: name.to_string(),
            plan: Some(file_bytes(&folder.join(format!("{}.tsv", name)))?),
            input: Input::Plan,
            want: Some(want),
        });
    }
    if let Some(name) = unused.first() {
        return Err(bad(&format!("{} has a listing and is not accepted", name)));
    }
    for name in tsv_names(folder)? {
        if name != "want" && !cases.iter().any(|c| c.name == name) {
            return Err(bad(&format!("{} is not there", name)));
        }
    }
    Ok(cases)
}

/// The same plan for `rewrite`.
fn again(case: Case) -> Case {
    let plan = case.plan.unwrap_or_default();
    Case {
        name: case.name,
        input: Input::Again,
        want: case.want.map(|want| want.rewritten(&plan)),
        plan: Some(plan),
    }
}

/// Each folder has a file for standard input and want.tsv, and plan.tsv unless the plan is absent.
fn stored_folders(
    folder: &Path,
    file: &str,
    input: &dyn Fn(Vec<u8>) -> Input,
) -> Result<Vec<Case>, String> {
    let mut cases = Vec::new();
    for path in entries(folder)? {
        if path.extension().map_or(false, |e| e == "md") {
            continue;
        }
        let plan = path.join("plan.tsv");
        cases.push(Case {
            name: named(&path),
            plan: if plan.exists() {
                Some(file_bytes(&plan)?)
            } else {
                None
            },
            input: input(file_bytes(&path.join(file))?),
            want: Some(Want::Text(file_bytes(&path.join("want.tsv"))?)),
        });
    }
    Ok(cases)
}

fn stored(cases: Vec<Case>, save: &str, program: &[&str]) -> Result<u64, String> {
    if cases.is_empty() {
        return Err("compare: no case is stored there\n".to_string());
    }
    let count = cases.len() as u64;
    all(count, save, program, &|index| {
        cases.get(index as usize).cloned()
    })
}

/// A closed standard output is no fault.
fn show(text: &str) {
    let _ = std::io::stdout().write_all(text.as_bytes());
}

/// Runs all cases, shows progress and what they held, and says how many differ.
fn all(
    count: u64,
    save: &str,
    program: &[&str],
    case: &(dyn Fn(u64) -> Option<Case> + Sync),
) -> Result<u64, String> {
    let next = AtomicU64::new(0);
    let differing = AtomicU64::new(0);
    let done = Mutex::new((0, Tally::default()));
    let failed = Mutex::new(None);
    std::thread::scope(|scope| {
        for thread in 0..THREADS {
            let (next, differing, done, failed) = (&next, &differing, &done, &failed);
            scope.spawn(move || loop {
                let index = next.fetch_add(1, Ordering::SeqCst);
                let case = match case(index) {
                    Some(case) if index < count => case,
                    _ => return,
                };
                match one(&case, save, program, thread, done) {
                    Ok(true) => {}
                    Ok(false) => {
                        differing.fetch_add(1, Ordering::SeqCst);
                    }
                    Err(message) => {
                        if let Ok(mut slot) = failed.lock() {
                            *slot = Some(message);
                        }
                        next.store(count, Ordering::SeqCst);
                        return;
                    }
                }
                if let Ok(mut held) = done.lock() {
                    held.0 += 1;
                    if held.0 % SHOWN == 0 {
                        let differ = differing.load(Ordering::SeqCst);
                        show(&format!(
                            "{} of {} cases, {} differ\n",
                            held.0, count, differ
                        ));
                    }
                }
            });
        }
    });
    if let Ok(mut slot) = failed.lock() {
        if let Some(message) = slot.take() {
            return Err(message);
        }
    }
    let differ = differing.load(Ordering::SeqCst);
    let held = done
        .into_inner()
        .map_err(|_| "compare: a thread failed\n")?;
    if held.0 != count {
        return Err(format!("compare: {} of {} cases ran\n", held.0, count));
    }
    show(&format!("{} cases compared, {} differ\n", count, differ));
    show(&held.1.to_string());
    Ok(differ)
}

/// Does the program print what the reference does, and the reference what is wanted?
fn one(
    case: &Case,
    save: &str,
    program: &[&str],
    thread: u64,
    done: &Mutex<(u64, Tally)>,
) -> Result<bool, String> {
    let plan = case.plan.clone().unwrap_or_default();
    let mut held = Tally::default();
    let wanted = match &case.input {
        Input::Plan => {
            let wanted = verdict_text(&plan);
            held.add_listing(&plan, &wanted);
            wanted
        }
        Input::Again => rewrite_text(&plan),
        Input::Events(events) => {
            let wanted = board_text(&plan, events);
            held.add_answers(&plan, events, &wanted);
            wanted
        }
        Input::Horizon(line) => {
            let mut watch = Watch::default();
            let wanted = clock_text_of(&plan, line, &mut |step| watch.see(step));
            held.add_run(&plan, line, &wanted, &watch);
            wanted
        }
        Input::Ticks(horizon, _) => {
            let wanted = end_text(&plan, *horizon);
            held.add_end(&plan, &wanted);
            wanted
        }
        Input::Tables(case, _) => {
            held.add_write(case.kind, &case.call);
            case.call.answer()
        }
    };
    let got = match case.input.beside() {
        None => printed(program, None, &plan)?,
        Some((_, input)) => {
            let place =
                std::env::temp_dir().join(format!("compare-{}-{}", std::process::id(), thread));
            std::fs::create_dir_all(&place).map_err(|e| format!("compare: {}\n", e))?;
            let file = place.join("plan.tsv");
            let _ = std::fs::remove_file(&file);
            if let Some(bytes) = &case.plan {
                std::fs::write(&file, bytes).map_err(|e| format!("compare: {}\n", e))?;
            }
            let got = printed(program, Some(place.as_path()), input)?;
            let _ = std::fs::remove_dir_all(&place);
            got
        }
    };
    if let Input::Again = case.input {
        held.add_rewrite(&plan, &got);
    }
    if let Ok(mut all) = done.lock() {
        all.1.add(&held);
    }
    let meets = case.want.as_ref().map_or(true, |w| w.meets(&wanted));
    if got == wanted && meets {
        return Ok(true);
    }
    let kept = Path::new(save).join(&case.name);
    let write = |file: &str, bytes: Option<&[u8]>| match bytes {
        Some(bytes) => std::fs::write(kept.join(file), bytes),
        None => Ok(()),
    };
    std::fs::create_dir_all(&kept)
        .and_then(|()| write("plan.tsv", case.plan.as_deref()))
        .and_then(|()| match case.input.beside() {
            Some((file, bytes)) => write(file, Some(bytes)),
            None => Ok(()),
        })
        .and_then(|()| write("by-hand", case.want.as_ref().map(|w| w.words())))
        .and_then(|()| write("reference", Some(&wanted)))
        .and_then(|()| write("got", Some(&got)))
        .map_err(|e| format!("compare: {}: {}\n", kept.display(), e))?;
    if got != wanted {
        show(&format!("differs: {}\n", kept.display()));
    }
    if !meets {
        show(&format!(
            "the reference is not what is wanted by hand: {}\n",
            kept.display()
        ));
    }
    Ok(false)
}

/// What a program prints for this standard input. A program that stops reading early is no
/// fault; one that ends with another status than 0 prints nothing that is wanted.
fn printed(program: &[&str], place: Option<&Path>, input: &[u8]) -> Result<Vec<u8>, String> {
    let (name, args) = match program.split_first() {
        Some(split) => split,
        None => return Err(USAGE.to_string()),
    };
    let mut command = Command::new(name);
    command
        .args(args)
        .stdin(Stdio::piped())
        .stdout(Stdio::piped());
    if let Some(dir) = place {
        command.current_dir(dir);
    }
    let mut child = command
        .spawn()
        .map_err(|e| format!("compare: {}: {}\n", name, e))?;
    let mut out = Vec::new();
    let stdin = child.stdin.take();
    let stdout = child.stdout.take();
    std::thread::scope(|scope| {
        scope.spawn(move || {
            if let Some(mut pipe) = stdin {
                let _ = pipe.write_all(input);
            }
        });
        if let Some(mut pipe) = stdout {
            let _ = pipe.read_to_end(&mut out);
        }
    });
    let status = child
        .wait()
        .map_err(|e| format!("compare: {}: {}\n", name, e))?;
    if !status.success() {
        out.extend_from_slice(format!("[ended with {}]\n", status).as_bytes());
    }
    Ok(out)
}
