//! The reference's commands.
#![forbid(unsafe_code)]

use std::io::{Read, Write};
use std::path::Path;
use std::process::ExitCode;

use oracle::clock::clock_text;
use oracle::events::board_text;
use oracle::frames;
use oracle::generate::{board_case, clock_case, plan_case, plan_case_of, table_case, KINDS};
use oracle::limits::INPUT_BYTES;
use oracle::reading::read;
use oracle::verdict::{refused, verdict_text};
use oracle::write::{rewrite_text, Call};

const USAGE: &str = "usage:
  oracle verdict                        plan on standard input, listing out
  oracle board PLANFILE                 events on standard input, answers out
  oracle clock PLANFILE                 the horizon's line on standard input, the run out
  oracle rewrite                        plan on standard input, out again from its tables
  oracle write                          tables and room on standard input, what is returned and the buffer out
  oracle reading                        plan on standard input, its records or refusal out
  oracle plan                           the kinds of plan cases
  oracle plan SEED INDEX [KIND]         one plan case out
  oracle plan-for-events SEED INDEX     the plan of one board case out
  oracle events SEED INDEX              the events of one board case out
  oracle case SEED INDEX DIR            both, as DIR/plan.tsv and DIR/events.tsv
  oracle clock-case SEED INDEX DIR      one clock case, as DIR/plan.tsv and DIR/horizon.tsv
  oracle table-case SEED INDEX          one case for `write` out
  oracle corpus SEED COUNT FILE         COUNT plan cases in one file, each: length, LF, bytes
  oracle answers FILE                   their verdicts out, framed alike
  oracle board-corpus SEED COUNT FILE   COUNT board cases, each plan then events
  oracle board-answers FILE             their answers out, one for each pair
";

fn main() -> ExitCode {
    let args: Vec<String> = std::env::args_os()
        .skip(1)
        .map(|a| a.to_string_lossy().into_owned())
        .collect();
    let args: Vec<&str> = args.iter().map(|a| a.as_str()).collect();
    match run(&args) {
        Ok(out) => {
            print(&out);
            ExitCode::SUCCESS
        }
        Err(message) => {
            let _ = std::io::stderr().write_all(message.as_bytes());
            ExitCode::from(2)
        }
    }
}

/// A closed standard output is no fault.
fn print(out: &[u8]) {
    let mut stdout = std::io::stdout();
    let _ = stdout.write_all(out).and_then(|()| stdout.flush());
}

/// What a command prints, or why it was not understood.
fn run(args: &[&str]) -> Result<Vec<u8>, String> {
    match args {
        ["verdict"] => Ok(verdict_text(&standard_input(Some(INPUT_BYTES)))),
        ["board", file] => {
            let plan = std::fs::read(file).unwrap_or_default();
            Ok(board_text(&plan, &standard_input(Some(INPUT_BYTES))))
        }
        ["clock", file] => {
            let plan = std::fs::read(file).unwrap_or_default();
            Ok(clock_text(&plan, &standard_input(Some(INPUT_BYTES))))
        }
        ["rewrite"] => Ok(rewrite_text(&standard_input(Some(INPUT_BYTES)))),
        ["write"] => Call::parse(&standard_input(None))
            .map(|call| call.answer())
            .ok_or_else(|| "oracle: the input is no call of write\n".to_string()),
        ["reading"] => Ok(reading_text(&standard_input(None))),
        ["plan"] => Ok(kinds()),
        ["plan", seed, index] => Ok(plan_case(count(seed)?, count(index)?)),
        ["plan", seed, index, kind] => plan_case_of(count(seed)?, count(index)?, kind)
            .ok_or_else(|| format!("oracle: no kind {}\n", kind)),
        ["plan-for-events", seed, index] => Ok(board_case(count(seed)?, count(index)?)
            .plan
            .unwrap_or_default()),
        ["events", seed, index] => Ok(board_case(count(seed)?, count(index)?).events),
        ["case", seed, index, dir] => {
            let case = board_case(count(seed)?, count(index)?);
            write_case(Path::new(dir), case.plan, "events.tsv", &case.events)
        }
        ["clock-case", seed, index, dir] => {
            let case = clock_case(count(seed)?, count(index)?);
            write_case(Path::new(dir), case.plan, "horizon.tsv", &case.horizon)
        }
        ["table-case", seed, index] => Ok(table_case(count(seed)?, count(index)?).call.text()),
        ["corpus", seed, number, file] => {
            let (seed, number) = (count(seed)?, count(number)?);
            let mut out = Vec::new();
            for index in 0..number {
                frames::push(&mut out, &plan_case(seed, index));
            }
            write(Path::new(file), &out)
        }
        ["answers", file] => {
            let input = file_bytes(file)?;
            let mut out = Vec::new();
            for case in framed(&input, file)? {
                frames::push(&mut out, &verdict_text(case));
            }
            Ok(out)
        }
        ["board-corpus", seed, number, file] => {
            let (seed, number) = (count(seed)?, count(number)?);
            let mut out = Vec::new();
            for index in 0..number {
                let case = board_case(seed, index);
                frames::push(&mut out, &case.plan.unwrap_or_default());
                frames::push(&mut out, &case.events);
            }
            write(Path::new(file), &out)
        }
        ["board-answers", file] => {
            let input = file_bytes(file)?;
            let mut out = Vec::new();
            for pair in framed(&input, file)?.chunks(2) {
                match pair {
                    [plan, events] => frames::push(&mut out, &board_text(plan, events)),
                    _ => return Err(format!("oracle: {} lacks the last events\n", file)),
                }
            }
            Ok(out)
        }
        _ => Err(USAGE.to_string()),
    }
}

fn count(text: &str) -> Result<u64, String> {
    text.parse()
        .map_err(|_| format!("oracle: {} is no number\n{}", text, USAGE))
}

/// Standard input, whole, or up to one byte more than the greatest size judged.
fn standard_input(judged: Option<usize>) -> Vec<u8> {
    let mut input = Vec::new();
    let most = judged.map_or(u64::MAX, |size| size as u64 + 1);
    let _ = std::io::stdin().lock().take(most).read_to_end(&mut input);
    input
}

fn reading_text(input: &[u8]) -> Vec<u8> {
    match read(input) {
        Ok(plan) => [b"accepted\n".to_vec(), plan.dump()].concat(),
        Err(refusal) => refused(refusal),
    }
}

fn kinds() -> Vec<u8> {
    KINDS
        .iter()
        .map(|(name, weight, what)| format!("{}\t{}\t{}\n", name, weight, what))
        .collect::<String>()
        .into_bytes()
}

/// An absent plan leaves no plan.tsv.
fn write_case(
    dir: &Path,
    plan: Option<Vec<u8>>,
    name: &str,
    input: &[u8],
) -> Result<Vec<u8>, String> {
    let file = dir.join("plan.tsv");
    std::fs::create_dir_all(dir).map_err(|e| format!("oracle: {}: {}\n", dir.display(), e))?;
    match plan {
        Some(bytes) => write(&file, &bytes)?,
        None => {
            let _ = std::fs::remove_file(&file);
            Vec::new()
        }
    };
    write(&dir.join(name), input)
}

fn write(file: &Path, bytes: &[u8]) -> Result<Vec<u8>, String> {
    std::fs::write(file, bytes).map_err(|e| format!("oracle: {}: {}\n", file.display(), e))?;
    Ok(Vec::new())
}

fn file_bytes(file: &str) -> Result<Vec<u8>, String> {
    std::fs::read(file).map_err(|e| format!("oracle: {}: {}\n", file, e))
}

fn framed<'a>(input: &'a [u8], file: &str) -> Result<Vec<&'a [u8]>, String> {
    frames::split(input).ok_or_else(|| format!("oracle: {} is not framed as cases\n", file))
}
