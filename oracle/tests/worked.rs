//! The plan worked through and K1 to K12.

mod common;

use common::{plan, spaced, text, worked};
use oracle::events::board_text;
use oracle::figures::global_sections;
use oracle::verdict::verdict_text;

fn listing(policy: &str) -> String {
    spaced(&verdict_text(&text(&worked(policy))))
}

#[test]
fn the_worked_plan_byte_for_byte() {
    let expected = "verdict\t1\n\
                    vcpu\t1\tfits\t12\t2\n\
                    vcpu\t2\tfits\t6\t2\n\
                    wait\t1\t1\t1\t4\t3\n\
                    task\t1\t1\tfits\t77\t5\n\
                    wait\t2\t1\t1\t3\t1\n\
                    task\t2\t1\tfits\t47\t6\n\
                    all\tfits\n";
    assert_eq!(verdict_text(&text(&worked("D O"))), expected.as_bytes());
}

#[test]
fn k1_to_k6() {
    let out = listing("D O");
    let rows: Vec<&str> = out.lines().collect();
    let expected = [
        "vcpu 1 fits 12 2",
        "vcpu 2 fits 6 2",
        "wait 1 1 1 4 3",
        "task 1 1 fits 77 5",
        "wait 2 1 1 3 1",
        "task 2 1 fits 47 6",
    ];
    assert_eq!(rows[1..7], expected);
}

#[test]
fn k7_periodic_with_overrun_task() {
    let out = listing("P O");
    assert!(out.contains("\ntask 1 1 late - 4\n"));
    assert!(out.contains("\nwait 1 1 1 20 "));
    assert!(out.ends_with("\nall late\n"));
}

#[test]
fn k8_periodic_with_overrun_vcpus() {
    let out = listing("P O");
    assert!(out.contains("\nvcpu 1 fits 8 "));
    assert!(out.contains("\nvcpu 2 fits 5 "));
}

#[test]
fn k9_deferrable_without_overrun_responses() {
    let sections = global_sections(&plan(&worked("D N")));
    let responses: Vec<u64> = sections.iter().map(|s| s.response).collect();
    assert_eq!(responses, [20, 10]);
}

#[test]
fn k10_to_k12_in_sequence() {
    let events = "ask 1 1 1/ask 2 1 1/use 1 3/use 1 2/use 1 1/ask 1 1 1/free 1 1 1/";
    let out = spaced(&board_text(&text(&worked("D O")), &text(events)));
    assert_eq!(
        out,
        "granted\nwaits\nleft 0 1\nrefused 15\nleft 0 0\nrefused 12\nfreed 2 1\n"
    );
}
