//! Which refusal is given, number and line, is as it was before a refusal had a field: the marks here were
//! made by the program as it was then, which was given these cases.

mod common;

use common::{mark, text, BASE};
use oracle::generate::{plan_case_of, Chance};
use oracle::reading::read;

/// The kinds of plan cases of that time.
const KINDS_THEN: [&str; 29] = [
    "minimal", "mixed", "edge", "locals", "stalls", "zero", "slow", "slowest", "huge", "wrap",
    "full", "refuse1", "refuse2", "refuse3", "refuse4", "refuse5", "refuse6", "refuse7",
    "sameline", "twolines", "toomany", "torn", "spacing", "lines", "bytes", "afterend", "empty",
    "noise", "oversize",
];

fn number_and_line(bytes: &[u8]) -> Vec<u8> {
    match read(bytes) {
        Ok(_) => b"accepted\n".to_vec(),
        Err(refusal) => format!("{} {}\n", refusal.number, refusal.line).into_bytes(),
    }
}

/// Marks over the cases and over what is said of them, and how many are refused.
fn marks(cases: &[Vec<u8>]) -> (u64, u64, usize) {
    let said: Vec<Vec<u8>> = cases.iter().map(|c| number_and_line(c)).collect();
    let refused = said.iter().filter(|s| *s != b"accepted\n").count();
    (mark(cases.iter().cloned()), mark(said.into_iter()), refused)
}

#[test]
fn generated_plans() {
    let mut cases = Vec::new();
    for kind in KINDS_THEN {
        for index in 0..400 {
            let whole = plan_case_of(23, index, kind).unwrap();
            // The case, and the case with one byte changed or cut there.
            let mut chance = Chance::new(23, index, 4);
            let mut changed = whole.clone();
            let at = chance.place(changed.len());
            if let Some(byte) = changed.get_mut(at) {
                *byte = chance.pick(b"0123456789\t\nGLx").copied().unwrap_or(b'0');
            }
            let cut = whole.iter().copied().take(at).collect();
            cases.extend([whole, changed, cut]);
        }
    }
    let then = (
        3_643_722_454_160_158_299,
        11_829_688_889_065_706_985,
        29_721,
    );
    assert_eq!(marks(&cases), then);
}

/// Each line of the base with every choice of numbers in its fields.
#[test]
fn every_choice_of_numbers() {
    let many = [
        "", "0", "1", "2", "3", "4", "5", "8", "9", "16", "17", "32", "33", "01", "1x", "1000000",
        "1000001", "9999999", "10000000",
    ];
    let few = ["0", "1", "2", "4", "20", "x", "1000001"];
    let mut cases = Vec::new();
    for (i, line) in BASE.iter().enumerate() {
        let fields: Vec<&str> = line.split(' ').collect();
        let numbers: Vec<usize> = (1..fields.len())
            .filter(|f| i > 1 && fields[*f].parse::<u64>().is_ok())
            .collect();
        let values: &[&str] = if numbers.len() > 3 { &few } else { &many };
        for choice in 0..values.len().pow(numbers.len() as u32) {
            let mut put = fields.clone();
            let mut rest = choice;
            for f in &numbers {
                put[*f] = values[rest % values.len()];
                rest /= values.len();
            }
            let mut lines = BASE.to_vec();
            let put = put.join(" ");
            lines[i] = &put;
            cases.push(text(&(lines.join("/") + "/")));
        }
    }
    let then = (
        6_031_384_469_283_539_278,
        16_168_041_065_275_291_471,
        49_326,
    );
    assert_eq!(marks(&cases), then);
}

/// Cases of a kind made for the fields, which the program of that time was given too.
#[test]
fn faults_in_any_field() {
    let cases: Vec<Vec<u8>> = (0..1000)
        .map(|index| plan_case_of(23, index, "fields").unwrap())
        .collect();
    let then = (10_978_468_713_050_380_844, 16_236_803_766_830_903_937, 1000);
    assert_eq!(marks(&cases), then);
}
