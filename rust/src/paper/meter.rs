//! The meter: the bucket run a period at a time, with its record of nine figures (01, "The bucket").

use super::bucket::{starting_tokens, step};
use super::terms::{weigh_factor, Bucket, DEMAND_MAX, DEPTH_MAX, METER_PERIODS_MAX, METER_TOTAL_MAX, Q_MAX, RATE_MAX};
use super::{require, Answer, FULL, METER};

/// The record. Any figures may be handed over; an offer weighs them all.
#[derive(Clone, Copy, Debug, PartialEq, Eq)]
pub struct Meter {
    pub rate: u64,
    pub depth: u64,
    pub p: u64,
    pub q: u64,
    pub tokens: u64,
    pub periods: u64,
    pub sent: u64,
    pub over: u64,
    pub lost: u64,
}

/// A fresh meter on a bucket; 5 for a bucket or a factor out of range.
pub fn open(bucket: Bucket, p: u32, q: u32) -> Answer<Meter> {
    bucket.weigh()?;
    weigh_factor(p, q)?;
    Ok(Meter {
        rate: bucket.rate.into(),
        depth: bucket.depth.into(),
        p: p.into(),
        q: q.into(),
        tokens: starting_tokens(bucket, p, q),
        periods: 0,
        sent: 0,
        over: 0,
        lost: 0,
    })
}

/// One more period. 8 where the record breaks a rule, 9 where it has taken all its periods; the record then stays as
/// it was.
pub fn offer(record: &mut Meter, demand: u16) -> Answer<()> {
    require(sound(record), METER)?;
    require(record.periods < METER_PERIODS_MAX, FULL)?;
    let period = step(bucket_of(record), record.tokens, demand);
    record.tokens = period.held;
    record.periods += 1;
    record.sent += period.sent;
    record.over += period.over;
    record.lost += period.lost;
    Ok(())
}

/// Whether the record keeps every rule of refusal 8. The ranges come first, so that the sums after them are exact.
fn sound(record: &Meter) -> bool {
    let bucket = record.rate <= u64::from(RATE_MAX) && record.depth <= u64::from(DEPTH_MAX);
    let factor = (1..=u64::from(Q_MAX)).contains(&record.q) && record.p <= record.q;
    let counts = record.tokens <= record.depth && record.periods <= METER_PERIODS_MAX;
    let totals = [record.sent, record.over, record.lost].iter().all(|&total| total <= METER_TOTAL_MAX);
    bucket && factor && counts && totals && record.over <= DEMAND_MAX * record.periods && balanced(record)
}

/// Starting tokens + rate × periods = sent + lost + tokens held.
fn balanced(record: &Meter) -> bool {
    let start = record.p * record.depth / record.q;
    start + record.rate * record.periods == record.sent + record.lost + record.tokens
}

/// The bucket of a record whose ranges have been weighed, so that both figures fit.
fn bucket_of(record: &Meter) -> Bucket {
    Bucket { rate: record.rate as u32, depth: record.depth as u32 }
}
