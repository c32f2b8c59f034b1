//! The search by the paper's recurrence, with its rounds.

use crate::figures::Demand;

/// `w` is the smallest number up to the limit whose demand is not above it, None if late.
#[derive(Clone, Copy, PartialEq, Eq, Debug)]
pub struct Found {
    pub w: Option<u64>,
    pub rounds: u64,
}

/// The demand never falls as t rises and is never below the start, so the recurrence
/// climbs to the smallest answer; each evaluation is one round, the last one too.
pub fn search(start: u128, limit: u64, demand: &Demand) -> Found {
    let mut rounds = 0;
    let mut t = match within(start, limit) {
        Some(t) => t,
        None => return Found { w: None, rounds },
    };
    loop {
        let next = demand.at(t);
        rounds += 1;
        match within(next, limit) {
            None => return Found { w: None, rounds },
            Some(next) if next <= t => return Found { w: Some(t), rounds },
            Some(next) => t = next,
        }
    }
}

/// x as a window, if it does not pass the limit.
fn within(x: u128, limit: u64) -> Option<u64> {
    u64::try_from(x).ok().filter(|x| *x <= limit)
}
