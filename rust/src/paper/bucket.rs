//! The bucket: what one period does to it, and the trial of a bucket on a trace (01, "The bucket").

use super::terms::{weigh_factor, weigh_periods, Bucket};
use super::Answer;

/// What happens in one period, in the paper's words.
pub(super) struct Period {
    pub sent: u64,
    pub over: u64,
    pub held: u64,
    pub lost: u64,
}

/// A trial's answer: the least tokens to spare over the periods (below 0 where some are missing), and all that the
/// provider discards.
#[derive(Clone, Copy, Debug, PartialEq, Eq)]
pub struct Trial {
    pub spare: i64,
    pub over: u64,
}

/// The tokens that a fresh bucket holds: p × depth / q, rounded down. The factor has been weighed.
pub(super) fn starting_tokens(bucket: Bucket, p: u32, q: u32) -> u64 {
    u64::from(p) * u64::from(bucket.depth) / u64::from(q)
}

/// One period of a bucket that holds `tokens`, at most its depth.
pub(super) fn step(bucket: Bucket, tokens: u64, demand: u16) -> Period {
    let demand = u64::from(demand);
    let available = tokens + u64::from(bucket.rate);
    let sent = demand.min(available);
    let left = available - sent;
    let held = left.min(u64::from(bucket.depth));
    Period { sent, over: demand - sent, held, lost: left - held }
}

/// The trial of a bucket and factor on a trace: refusal 3 for the trace, 5 for the bucket or the factor.
pub fn trial(bucket: Bucket, p: u32, q: u32, trace: &[u16]) -> Answer<Trial> {
    weigh(bucket, p, q, trace)?;
    let mut tokens = starting_tokens(bucket, p, q);
    let mut trial = Trial { spare: i64::MAX, over: 0 };
    for &demand in trace {
        // Tokens are at most 1,000,000 and the rate 4,095, so the signed figure is exact.
        let spare = (tokens + u64::from(bucket.rate)) as i64 - i64::from(demand);
        let period = step(bucket, tokens, demand);
        trial.spare = trial.spare.min(spare);
        trial.over += period.over;
        tokens = period.held;
    }
    Ok(trial)
}

/// Whether over is 0 in each period. What a trial refuses is not carried.
pub fn carries(bucket: Bucket, p: u32, q: u32, trace: &[u16]) -> bool {
    if weigh(bucket, p, q, trace).is_err() {
        return false;
    }
    let mut tokens = starting_tokens(bucket, p, q);
    trace.iter().all(|&demand| {
        let period = step(bucket, tokens, demand);
        tokens = period.held;
        period.over == 0
    })
}

fn weigh(bucket: Bucket, p: u32, q: u32, trace: &[u16]) -> Answer<()> {
    weigh_periods(trace.len())?;
    bucket.weigh()?;
    weigh_factor(p, q)
}
