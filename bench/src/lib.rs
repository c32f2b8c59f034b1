//! The oracle's `verdict_text` and `board_text`, and its clock and its writer written for speed, with the proved functions'
//! signatures.

use std::slice::{from_raw_parts, from_raw_parts_mut};

use oracle::clock::Outcome;

/// The text, or the numbers, into out; -8 where it has too little room.
fn put<T: Copy>(text: &[T], out: &mut [T]) -> i64 {
    match out.get_mut(..text.len()) {
        Some(room) => {
            room.copy_from_slice(text);
            text.len() as i64
        }
        None => -8,
    }
}

/// # Safety
/// Each pointer is to as many bytes as the size after it says; `out` to bytes of its own.
#[no_mangle]
pub unsafe extern "C" fn rust_verdict(
    input: *const u8,
    input_size: usize,
    out: *mut u8,
    out_size: usize,
) -> i64 {
    let text = oracle::verdict::verdict_text(from_raw_parts(input, input_size));
    put(&text, from_raw_parts_mut(out, out_size))
}

/// # Safety
/// As above.
#[no_mangle]
pub unsafe extern "C" fn rust_board(
    plan: *const u8,
    plan_size: usize,
    events: *const u8,
    events_size: usize,
    out: *mut u8,
    out_size: usize,
) -> i64 {
    let plan = from_raw_parts(plan, plan_size);
    let events = from_raw_parts(events, events_size);
    let text = oracle::events::board_text(plan, events);
    put(&text, from_raw_parts_mut(out, out_size))
}

/// The run of a plan on a clock, without its events: 0 where it comes to the horizon; 1 where a job is late, with its
/// tick, v and n in `missed`; minus a refusal's number: the plan's, 8 for one above 65,536 bytes, or 3 for the horizon.
///
/// # Safety
/// As above; `missed` is to three numbers of its own.
#[no_mangle]
pub unsafe extern "C" fn rust_run(
    plan: *const u8,
    plan_size: usize,
    horizon: u64,
    missed: *mut u64,
) -> i64 {
    let bytes = from_raw_parts(plan, plan_size);
    if bytes.len() > oracle::limits::INPUT_BYTES {
        return -8;
    }
    let plan = match oracle::reading::read(bytes) {
        Ok(plan) => plan,
        Err(refusal) => return -i64::from(refusal.number),
    };
    if !(1..=oracle::limits::TICKS).contains(&horizon) {
        return -3;
    }
    match oracle::swift::run(&plan, horizon) {
        Outcome::Ended => 0,
        Outcome::Missed { tick, v, n } => {
            from_raw_parts_mut(missed, 3).copy_from_slice(&[tick, v, n]);
            1
        }
    }
}

/// The text of the plan that these tables are of: its size, or minus the refusal's number, 9 or 8. By the oracle's own
/// writer.
///
/// # Safety
/// Each pointer is to as many numbers as the size after it says; `out` to bytes of its own.
#[no_mangle]
pub unsafe extern "C" fn rust_write(
    record: *const u64,
    record_size: usize,
    vcpus: *const u64,
    vcpus_size: usize,
    mutexes: *const u64,
    mutexes_size: usize,
    opens: *const u64,
    opens_size: usize,
    tasks: *const u64,
    tasks_size: usize,
    out: *mut u8,
    out_size: usize,
) -> i64 {
    let tables = oracle::write::Tables {
        record: from_raw_parts(record, record_size).to_vec(),
        vcpus: from_raw_parts(vcpus, vcpus_size).to_vec(),
        mutexes: from_raw_parts(mutexes, mutexes_size).to_vec(),
        opens: from_raw_parts(opens, opens_size).to_vec(),
        tasks: from_raw_parts(tasks, tasks_size).to_vec(),
    };
    match oracle::write::write(&tables, out_size) {
        Ok(text) => {
            from_raw_parts_mut(out, text.len()).copy_from_slice(&text);
            text.len() as i64
        }
        Err(number) => -i64::from(number),
    }
}

/// The same by the writer for speed.
///
/// # Safety
/// As above.
#[no_mangle]
pub unsafe extern "C" fn rust_swift_write(
    record: *const u64,
    record_size: usize,
    vcpus: *const u64,
    vcpus_size: usize,
    mutexes: *const u64,
    mutexes_size: usize,
    opens: *const u64,
    opens_size: usize,
    tasks: *const u64,
    tasks_size: usize,
    out: *mut u8,
    out_size: usize,
) -> i64 {
    let written = oracle::swift_write::write(
        from_raw_parts(record, record_size),
        from_raw_parts(vcpus, vcpus_size),
        from_raw_parts(mutexes, mutexes_size),
        from_raw_parts(opens, opens_size),
        from_raw_parts(tasks, tasks_size),
        from_raw_parts_mut(out, out_size),
    );
    match written {
        Ok(size) => size as i64,
        Err(number) => -i64::from(number),
    }
}

/// Table `which` of a plan into `to`: how many numbers it has, or minus the plan's refusal, or -8 where `to` has too little
/// room. 0 is the record; 1 to 4 are vcpus, mutexes, opens and tasks.
///
/// # Safety
/// As above; `to` is to numbers of its own.
#[no_mangle]
pub unsafe extern "C" fn rust_table(
    plan: *const u8,
    plan_size: usize,
    which: usize,
    to: *mut u64,
    to_size: usize,
) -> i64 {
    let tables = match oracle::reading::read(from_raw_parts(plan, plan_size)) {
        Ok(plan) => oracle::write::tables(&plan),
        Err(refusal) => return -i64::from(refusal.number),
    };
    let table = match which {
        0 => tables.record,
        1 => tables.vcpus,
        2 => tables.mutexes,
        3 => tables.opens,
        _ => tables.tasks,
    };
    put(&table, from_raw_parts_mut(to, to_size))
}
