//! An independent reference for the plans, the verdict and the lock board of document 01, and for the
//! clock, a refusal's field, the ceiling equal to the task and plans written out of document 02.
#![forbid(unsafe_code)]

pub mod board;
pub mod clock;
pub mod events;
pub mod figures;
pub mod frames;
pub mod generate;
pub mod limits;
pub mod plan;
pub mod reading;
pub mod search;
pub mod swift;
pub mod swift_write;
pub mod tally;
pub mod verdict;
pub mod watch;
pub mod write;
