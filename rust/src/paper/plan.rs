//! The plan file: a cost and the runs with their buckets (01, "The two files").

use super::terms::{weigh_periods, Bucket, Plan, Record, COST_MAX};
use super::words::{bytes_of, words_of};
use super::{require, Answer, FIGURE, FOREIGN, MISPLACED, PERIODS, SHORT};

const KIND: u32 = 2;
const COST_AT: u32 = 24;
const BUCKETS_AT: u32 = 32;

/// The file of a plan over that many periods: refusals 3 and 5.
pub fn write_plan(periods: u32, plan: &Plan) -> Answer<Vec<u8>> {
    weigh_counts(periods, plan.records.len())?;
    weigh_figures(periods, plan)?;
    let count = plan.records.len() as u32;
    let mut words = vec![KIND, periods, count, COST_AT, BUCKETS_AT, length(count)];
    words.extend([plan.cost as u32, (plan.cost >> 32) as u32]);
    words.extend(plan.records.iter().flat_map(|run| [run.periods, run.bucket.rate, run.bucket.depth]));
    Ok(bytes_of(&words))
}

/// The number of periods and the plan: refusals 1 to 5. Under 24 bytes there are not six words.
pub fn read_plan(file: &[u8]) -> Answer<(u32, Plan)> {
    let words = words_of(file);
    let Some((header, rest)) = words.split_first_chunk::<6>() else {
        return Err(SHORT);
    };
    let [kind, periods, count, places @ ..] = *header;
    require(kind == KIND, FOREIGN)?;
    weigh_counts(periods, count as usize)?;
    let length = length(count);
    require(places == [COST_AT, BUCKETS_AT, length] && file.len() == length as usize, MISPLACED)?;
    let Some((&[low, high], rest)) = rest.split_first_chunk() else {
        return Err(MISPLACED);
    };
    let records = rest.as_chunks().0.iter();
    let plan = Plan {
        cost: u64::from(low) | u64::from(high) << 32,
        records: records.map(|&[periods, rate, depth]| Record { periods, bucket: Bucket { rate, depth } }).collect(),
    };
    weigh_figures(periods, &plan)?;
    Ok((periods, plan))
}

/// 3 unless T is 1 to 512 and k is 1 to T.
fn weigh_counts(periods: u32, count: usize) -> Answer<()> {
    weigh_periods(periods as usize)?;
    require((1..=periods as usize).contains(&count), PERIODS)
}

/// 5 unless the cost and each bucket are in range and the run lengths, none of them 0, sum to T. The sum takes 64
/// bits, because in 32 it could pass the end and come back to T.
fn weigh_figures(periods: u32, plan: &Plan) -> Answer<()> {
    require(plan.cost <= COST_MAX, FIGURE)?;
    let sum: u64 = plan.records.iter().map(|run| u64::from(run.periods)).sum();
    require(sum == u64::from(periods) && plan.records.iter().all(|run| run.periods >= 1), FIGURE)?;
    plan.records.iter().try_for_each(|run| run.bucket.weigh())
}

/// The file's length, for a k that has been weighed.
fn length(count: u32) -> u32 {
    BUCKETS_AT + 12 * count
}
