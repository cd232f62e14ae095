//! The single bucket that costs least for a whole trace (01, "Single").

use super::bucket::carries;
use super::depth::depth_at;
use super::terms::{weigh_order, Bucket, Tariff};
use super::walk::walked_depth;
use super::{Answer, NO_PLAN};

/// A bucket and its cost for the trace it was sought for, the fee included.
#[derive(Clone, Copy, Debug, PartialEq, Eq)]
pub struct Priced {
    pub bucket: Bucket,
    pub cost: u64,
}

/// The least dear bucket inside the caps that carries the trace: refusals 3, 5 and 7. At one rate a deeper bucket is
/// never cheaper, so each rate is weighed with its smallest depth, and that by simulation.
pub fn single(trace: &[u16], tariff: &Tariff) -> Answer<Priced> {
    weigh_order(trace, tariff)?;
    least_cost(trace.len(), tariff, |rate| depth_at(trace, rate, tariff).ok())
}

/// The same answer with each rate's depth from one walk, for long traces.
pub fn single_by_walk(trace: &[u16], tariff: &Tariff) -> Answer<Priced> {
    weigh_order(trace, tariff)?;
    least_cost(trace.len(), tariff, |rate| walked_depth(trace, rate, tariff))
}

/// The same answer with every pair inside the caps tried in turn, for small caps.
pub fn single_by_trying(trace: &[u16], tariff: &Tariff) -> Answer<Priced> {
    weigh_order(trace, tariff)?;
    let pairs = (0..=tariff.rate_cap)
        .flat_map(|rate| (0..=tariff.depth_cap).map(move |depth| Bucket { rate, depth }))
        .filter(|&bucket| carries(bucket, tariff.p, tariff.q, trace))
        .map(|bucket| Priced { bucket, cost: tariff.cost(bucket, trace.len()) });
    pairs.min_by_key(|priced| (priced.cost, priced.bucket.rate, priced.bucket.depth)).ok_or(NO_PLAN)
}

/// The least cost over all rates, from the smallest up; an equal cost leaves the smaller rate standing. A rate with no
/// depth is passed over.
fn least_cost(periods: usize, tariff: &Tariff, depth_of: impl Fn(u32) -> Option<u32>) -> Answer<Priced> {
    let mut best: Option<Priced> = None;
    for rate in 0..=tariff.rate_cap {
        let Some(depth) = depth_of(rate) else { continue };
        let bucket = Bucket { rate, depth };
        let cost = tariff.cost(bucket, periods);
        if best.is_none_or(|standing| cost < standing.cost) {
            best = Some(Priced { bucket, cost });
        }
    }
    best.ok_or(NO_PLAN)
}
