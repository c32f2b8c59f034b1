//! The limits of document 01.

/// VCPU numbers are 1 to this.
pub const VCPUS: u64 = 16;
/// Guest numbers are 1 to this.
pub const GUESTS: u64 = 4;
/// Cores are 0 to this.
pub const TOP_CORE: u64 = 3;
/// Mutex numbers are 1 to this.
pub const MUTEXES: u64 = 32;
/// Task numbers n of one VCPU are 1 to this.
pub const PLACES: u64 = 8;
/// Periods, runs, locks and event ticks are at most this.
pub const TICKS: u64 = 1_000_000;
/// Tasks in a plan.
pub const TASKS: usize = 64;
/// Locks in a task.
pub const LOCKS: usize = 8;
/// Digits of a number.
pub const DIGITS: usize = 7;
/// A program judges no input longer than this.
pub const INPUT_BYTES: usize = 65_536;
