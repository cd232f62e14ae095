//! The product's own series in Rust, pruning included: the yardstick for its compiled code. The functions are those of
//! crates/first_runs, crates/series and crates/single, one for one; docs/ARCHITECTURE.md says what each stop rests on.

use crate::paper::terms::{weigh_order, Bucket, Plan, Record, Tariff, PERIODS_MAX};
use crate::paper::{Answer, NO_PLAN};

/// Stands for the cost where there is no cutting.
const UNPRICED: u64 = 1_000_000_000_000_000_000;
/// Stands for the charge where no depth inside the cap serves.
const NO_CHARGE: u64 = 2 * UNPRICED;
/// A charge that no walk stops at.
const FAR: u64 = UNPRICED + 1;
/// How many rates are looked at together before each of them is weighed.
const TOGETHER: u32 = 16;

/// The cost of a cutting, its buckets, the periods of its first run and the rate of that.
#[derive(Clone, Copy)]
struct Choice {
    cost: u64,
    buckets: u32,
    first: u32,
    rate: u32,
}

impl Choice {
    fn is_ahead(&self, other: &Choice) -> bool {
        let fewer = self.buckets < other.buckets || (self.buckets == other.buckets && other.first < self.first);
        self.cost < other.cost || (self.cost == other.cost && fewer)
    }
}

/// A walk at one rate, the depth that it needs, and what that costs in a period.
#[derive(Clone, Copy, Default)]
struct Walk {
    sum: u32,
    gained: u32,
    opening: u32,
    ending: u32,
    stretch: u32,
    depth: u32,
    charge: u64,
}

impl Walk {
    /// One period more at the high rate. The charge is that of the low one.
    #[inline]
    fn push(self, tariff: &Tariff, high: u32, low: u32, demand: u16) -> Walk {
        let demand = u32::from(demand);
        let (sum, gained) = (self.sum + demand, self.gained + high);
        let ending = (self.ending + demand).saturating_sub(high);
        let opening = self.opening.max(sum.saturating_sub(gained));
        let stretch = self.stretch.max(ending);
        let walk = Walk { sum, gained, opening, ending, stretch, ..self };
        match walk.depth_after(self.opening, self.depth, tariff) {
            Some(depth) => {
                let charge = charge_of(tariff, Bucket { rate: low, depth });
                Walk { depth, charge, ..walk }
            }
            None => Walk { charge: NO_CHARGE, ..walk },
        }
    }

    /// The smallest depth inside the cap. While the opening is as it was nothing is divided.
    #[inline]
    fn depth_after(&self, opening: u32, depth: u32, tariff: &Tariff) -> Option<u32> {
        if self.stretch > tariff.depth_cap {
            return None;
        }
        if self.opening == opening {
            return Some(depth.max(self.stretch));
        }
        let need = u64::from(self.opening) * u64::from(tariff.q);
        if need > u64::from(tariff.p) * u64::from(tariff.depth_cap) {
            return None;
        }
        Some((need as u32).div_ceil(tariff.p).max(self.stretch))
    }
}

fn charge_of(tariff: &Tariff, bucket: Bucket) -> u64 {
    u64::from(tariff.rate_price) * u64::from(bucket.rate) + u64::from(tariff.depth_price) * u64::from(bucket.depth)
}

/// By the length of a first run, less 1: the least charge at which no run of that length or longer, with the best
/// cutting of what is left, costs as little as what is known.
fn stops_of(costs: &[u64], fee: u64, known: u64) -> [u64; PERIODS_MAX] {
    let mut stops = [0; PERIODS_MAX];
    let mut charge = 0;
    for (i, &cost) in costs.iter().enumerate().rev() {
        let stop = known.checked_sub(fee + cost).map_or(0, |left| left / (i as u64 + 1) + 1);
        charge = stop.max(charge);
        stops[i] = charge;
    }
    stops
}

/// What the search from one start looks at: the trace from there on, and the best cuttings of what is left after 1, 2,
/// 3, .. periods.
struct Start<'a> {
    trace: &'a [u16],
    tariff: &'a Tariff,
    costs: &'a [u64],
    counts: &'a [u32],
}

impl Start<'_> {
    /// One walk to the right at one rate, which weighs every run that it passes.
    fn weigh_rate(&self, rate: u32, stops: &[u64; PERIODS_MAX], found: Choice) -> Choice {
        let fee = u64::from(self.tariff.fee);
        let (mut best, mut walk) = (found, Walk::default());
        let rests = self.costs.iter().zip(self.counts).zip(stops);
        for (i, (&demand, ((&rest, &count), &stop))) in self.trace.iter().zip(rests).enumerate() {
            walk = walk.push(self.tariff, rate, rate, demand);
            if stop <= walk.charge {
                return best;
            }
            let cost = walk.charge * (i as u64 + 1) + fee + rest;
            let run = Choice { cost, buckets: count + 1, first: i as u32 + 1, rate };
            if run.is_ahead(&best) {
                best = run;
            }
        }
        best
    }

    /// Whether some run at a rate from low to high may cost as little as what is known.
    fn may_better(&self, low: u32, high: u32, stops: &[u64; PERIODS_MAX], known: u64) -> bool {
        let fee = u64::from(self.tariff.fee);
        let mut walk = Walk::default();
        for (i, (&demand, (&rest, &stop))) in self.trace.iter().zip(self.costs.iter().zip(stops)).enumerate() {
            walk = walk.push(self.tariff, high, low, demand);
            if stop <= walk.charge {
                return false;
            }
            if walk.charge * (i as u64 + 1) + fee + rest <= known {
                return true;
            }
        }
        false
    }

    /// The best cutting, with a rate to begin with that gives a cost to stop at.
    fn best_cut(&self, begin: u32) -> Choice {
        let none = Choice { cost: UNPRICED, buckets: 0, first: 0, rate: begin };
        let mut best = self.weigh_rate(begin, &[FAR; PERIODS_MAX], none);
        let stops = stops_of(self.costs, u64::from(self.tariff.fee), best.cost);
        let greatest = self.trace.iter().copied().max().unwrap_or(0);
        let end = self.tariff.rate_cap.min(u32::from(greatest)) + 1;
        for low in (0..end).step_by(TOGETHER as usize) {
            let next = end.min(low + TOGETHER);
            if self.may_better(low, next - 1, &stops, best.cost) {
                for rate in low..next {
                    best = self.weigh_rate(rate, &stops, best);
                }
            }
        }
        best
    }
}

/// The series answer: refusals 3, 5 and 7.
pub fn series(trace: &[u16], tariff: &Tariff) -> Answer<Plan> {
    weigh_order(trace, tariff)?;
    let end = trace.len() + 1;
    let (mut costs, mut counts, mut firsts) = ([0; PERIODS_MAX + 1], [0; PERIODS_MAX + 1], [0; PERIODS_MAX + 1]);
    let mut begin = 0;
    for start in (0..trace.len()).rev() {
        let (left, counted) = (&costs[start + 1..end], &counts[start + 1..end]);
        let best = Start { trace: &trace[start..], tariff, costs: left, counts: counted }.best_cut(begin);
        (costs[start], counts[start], firsts[start], begin) = (best.cost, best.buckets, best.first, best.rate);
    }
    if costs[0] == UNPRICED {
        return Err(NO_PLAN);
    }
    let mut records = Vec::with_capacity(counts[0] as usize);
    let mut start = 0;
    while start < trace.len() {
        let run = &trace[start..start + firsts[start] as usize];
        records.push(Record { periods: firsts[start], bucket: single(run, tariff).ok_or(NO_PLAN)? });
        start += run.len();
    }
    Ok(Plan { cost: costs[0], records })
}

/// The single bucket of a run: each rate at its smallest depth, until those left cost more even at depth 0.
pub fn single(run: &[u16], tariff: &Tariff) -> Option<Bucket> {
    let greatest = run.iter().copied().max().unwrap_or(0);
    let mut best: Option<(u64, Bucket)> = None;
    for rate in 0..=tariff.rate_cap.min(u32::from(greatest)) {
        let Some(depth) = depth_at(run, rate, tariff) else { continue };
        let bucket = Bucket { rate, depth };
        let charge = charge_of(tariff, bucket);
        if best.is_none_or(|(least, _)| charge < least) {
            best = Some((charge, bucket));
        }
        if best.is_some_and(|(least, _)| least < charge_of(tariff, Bucket { rate, depth: 0 })) {
            break;
        }
    }
    best.map(|(_, bucket)| bucket)
}

/// The smallest depth inside the cap at one rate, by one walk through the run.
fn depth_at(run: &[u16], rate: u32, tariff: &Tariff) -> Option<u32> {
    let (mut sum, mut gained, mut opening, mut ending, mut stretch) = (0u32, 0u32, 0u32, 0u32, 0u32);
    for &demand in run {
        let demand = u32::from(demand);
        sum += demand;
        gained += rate;
        opening = opening.max(sum.saturating_sub(gained));
        ending = (ending + demand).saturating_sub(rate);
        stretch = stretch.max(ending);
    }
    let need = u64::from(opening) * u64::from(tariff.q);
    if stretch > tariff.depth_cap || need > u64::from(tariff.p) * u64::from(tariff.depth_cap) {
        return None;
    }
    Some(if need == 0 { stretch } else { (need as u32).div_ceil(tariff.p).max(stretch) })
}
