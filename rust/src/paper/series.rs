//! The series: the cutting of a trace into runs, a bucket each, that costs least (01, "Series").

use super::single::{single, single_by_walk};
use super::terms::{weigh_order, Bucket, Plan, Record, Tariff};
use super::walk::Walk;
use super::{require, Answer, LIST, NO_PLAN};
use std::cmp::{Ordering, Reverse};

/// The series answer, for a lent list of `room` records: refusals 3, 5, 6 and 7.
pub fn series(trace: &[u16], tariff: &Tariff, room: usize) -> Answer<Plan> {
    weigh_order(trace, tariff)?;
    require(room >= trace.len(), LIST)?;
    series_plain(trace, tariff)
}

/// The series answer with every cutting tried in turn and compared whole, for a dozen periods at most.
pub fn series_by_trying(trace: &[u16], tariff: &Tariff) -> Answer<Plan> {
    weigh_order(trace, tariff)?;
    let mut best = None;
    let mut cutting = Some(vec![trace.len()]);
    while let Some(runs) = cutting {
        let plan = booked(trace, &runs, tariff);
        best = best.into_iter().chain(plan).min_by(preference);
        cutting = next_cutting(runs);
    }
    best.ok_or(NO_PLAN)
}

/// The paper's order of plans: the least cost, then fewer buckets, then the longer first run, the longer second run,
/// and so on.
fn preference(one: &Plan, other: &Plan) -> Ordering {
    let runs = |plan: &Plan| plan.records.iter().map(|record| Reverse(record.periods)).collect::<Vec<_>>();
    let key = |plan: &Plan| (plan.cost, plan.records.len(), runs(plan));
    key(one).cmp(&key(other))
}

/// The plan of one cutting, each run with its single bucket; none where some run has no bucket.
fn booked(trace: &[u16], runs: &[usize], tariff: &Tariff) -> Option<Plan> {
    let mut plan = Plan { cost: 0, records: Vec::new() };
    let mut rest = trace;
    for &periods in runs {
        let (run, after) = rest.split_at_checked(periods)?;
        let priced = single(run, tariff).ok()?;
        plan.cost += priced.cost;
        plan.records.push(Record { periods: periods as u32, bucket: priced.bucket });
        rest = after;
    }
    Some(plan)
}

/// The cutting after this one, where all cuttings stand from the one whole run down to single periods: the last run
/// that can be shortened gives up a period, and all after it becomes one run.
fn next_cutting(mut runs: Vec<usize>) -> Option<Vec<usize>> {
    let last = runs.iter().rposition(|&periods| periods > 1)?;
    let after: usize = runs.drain(last + 1..).sum();
    runs[last] -= 1;
    runs.push(after + 1);
    Some(runs)
}

/// The best cutting of the periods from one start to the end: its cost, its buckets, the length of its first run.
#[derive(Clone, Copy)]
struct Suffix {
    cost: u64,
    buckets: u32,
    first: usize,
}

/// The cost where a run has no bucket.
const NO_BUCKET: u64 = u64::MAX;

/// The series answer by the plain dynamic programme: every start, every rate, every end is priced, and nothing is
/// skipped. Each run's record is its single bucket.
pub fn series_plain(trace: &[u16], tariff: &Tariff) -> Answer<Plan> {
    weigh_order(trace, tariff)?;
    let suffixes = best_suffixes(trace, tariff);
    let whole = suffixes[0].ok_or(NO_PLAN)?;
    let mut records = Vec::with_capacity(whole.buckets as usize);
    let mut start = 0;
    while start < trace.len() {
        let first = suffixes[start].ok_or(NO_PLAN)?.first;
        let run = &trace[start..start + first];
        let bucket = single_by_walk(run, tariff)?.bucket;
        records.push(Record { periods: first as u32, bucket });
        start += first;
    }
    Ok(Plan { cost: whole.cost, records })
}

/// The best suffix from each start, found from the end of the trace to its start; after the last period there is
/// nothing left to book.
fn best_suffixes(trace: &[u16], tariff: &Tariff) -> Vec<Option<Suffix>> {
    let mut suffixes = vec![None; trace.len()];
    suffixes.push(Some(Suffix { cost: 0, buckets: 0, first: 0 }));
    let mut costs = vec![NO_BUCKET; trace.len()];
    for start in (0..trace.len()).rev() {
        let demands = &trace[start..];
        let costs = &mut costs[..demands.len()];
        costs.fill(NO_BUCKET);
        for rate in 0..=tariff.rate_cap {
            price_runs(demands, rate, tariff, costs);
        }
        suffixes[start] = best_suffix(costs, &suffixes[start + 1..]);
    }
    suffixes
}

/// One walk to the right at one rate: the cost of each run that begins here is lowered to this rate's, where that is
/// less. `costs` is as long as `demands`.
fn price_runs(demands: &[u16], rate: u32, tariff: &Tariff, costs: &mut [u64]) {
    let (Some((&first, demands)), Some((cost, costs))) = (demands.split_first(), costs.split_first_mut()) else {
        return;
    };
    let mut walk = Walk::open(first, rate, tariff);
    *cost = run_cost(&walk, rate, tariff, 1).min(*cost);
    for (i, (&demand, cost)) in demands.iter().zip(costs).enumerate() {
        walk.push(demand);
        *cost = run_cost(&walk, rate, tariff, i + 2).min(*cost);
    }
}

/// The cost of the run walked so far, with its smallest depth.
#[inline]
fn run_cost(walk: &Walk, rate: u32, tariff: &Tariff, periods: usize) -> u64 {
    let depth = walk.depth();
    if depth > u64::from(tariff.depth_cap) {
        return NO_BUCKET;
    }
    tariff.cost(Bucket { rate, depth: depth as u32 }, periods)
}

/// The best choice of the first run: `costs` holds the cost of each run from this start, and `after` the best suffix
/// behind each of them.
fn best_suffix(costs: &[u64], after: &[Option<Suffix>]) -> Option<Suffix> {
    let mut best: Option<Suffix> = None;
    for (i, (&cost, rest)) in costs.iter().zip(after).enumerate() {
        let (Some(rest), true) = (rest, cost != NO_BUCKET) else {
            continue;
        };
        let suffix = Suffix { cost: cost + rest.cost, buckets: 1 + rest.buckets, first: i + 1 };
        let key = |suffix: Suffix| (suffix.cost, suffix.buckets, Reverse(suffix.first));
        if best.is_none_or(|standing| key(suffix) < key(standing)) {
            best = Some(suffix);
        }
    }
    best
}
