//! The depth at a rate, found by simulating buckets and by nothing else (01, "Depth at a rate").

use super::bucket::carries;
use super::terms::{weigh_order, Bucket, Tariff};
use super::{require, Answer, FIGURE, NO_PLAN};

/// The smallest depth inside the cap that carries the trace at that rate: refusals 3, 5 and 7.
///
/// Halving is allowed because carrying is monotone in the depth: the deeper of two buckets of one rate starts with at
/// least as many tokens and, as long as nothing is discarded, holds at least as many after each period.
pub fn depth_at(trace: &[u16], rate: u32, tariff: &Tariff) -> Answer<u32> {
    weigh(trace, rate, tariff)?;
    smallest(tariff.depth_cap, |depth| carries(Bucket { rate, depth }, tariff.p, tariff.q, trace))
}

/// The same answer with every depth tried in turn, for small caps.
pub fn depth_by_trying(trace: &[u16], rate: u32, tariff: &Tariff) -> Answer<u32> {
    weigh(trace, rate, tariff)?;
    let carried = |&depth: &u32| carries(Bucket { rate, depth }, tariff.p, tariff.q, trace);
    (0..=tariff.depth_cap).find(carried).ok_or(NO_PLAN)
}

/// The smallest depth up to the cap that serves, by halving, or 7: whatever is deeper than one that serves, serves too.
pub(super) fn smallest(cap: u32, serves: impl Fn(u32) -> bool) -> Answer<u32> {
    require(serves(cap), NO_PLAN)?;
    // `high` serves; every depth below `low` does not.
    let (mut low, mut high) = (0, cap);
    while low < high {
        let middle = low + (high - low) / 2;
        if serves(middle) {
            high = middle;
        } else {
            low = middle + 1;
        }
    }
    Ok(high)
}

/// 3 for the trace, then 5 for the tariff or a rate above its cap.
pub(super) fn weigh(trace: &[u16], rate: u32, tariff: &Tariff) -> Answer<()> {
    weigh_order(trace, tariff)?;
    require(rate <= tariff.rate_cap, FIGURE)
}
