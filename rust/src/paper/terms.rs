//! The terms of a booking: limits, tariff, buckets and plans, with the range of each figure (01, "The tariff and its
//! ranges").

use super::{require, Answer, FIGURE, PERIODS};

pub const PERIODS_MAX: usize = 512;
pub const PRICE_MAX: u32 = 65_535;
pub const FEE_MAX: u32 = 1_000_000_000;
pub const Q_MAX: u32 = 1_000;
pub const RATE_MAX: u32 = 4_095;
pub const DEPTH_MAX: u32 = 1_000_000;
pub const COST_MAX: u64 = 100_000_000_000_000;
pub const DEMAND_MAX: u64 = 65_535;
pub const METER_PERIODS_MAX: u64 = 1_000_000;
pub const METER_TOTAL_MAX: u64 = 100_000_000_000;

/// What the provider asks and allows: two prices and the setup fee, the starting factor p/q, and the caps.
#[derive(Clone, Copy, Debug, PartialEq, Eq)]
pub struct Tariff {
    pub rate_price: u32,
    pub depth_price: u32,
    pub fee: u32,
    pub p: u32,
    pub q: u32,
    pub rate_cap: u32,
    pub depth_cap: u32,
}

/// A token bucket: tokens gained in each period, and the most that it holds from one period to the next.
#[derive(Clone, Copy, Debug, PartialEq, Eq)]
pub struct Bucket {
    pub rate: u32,
    pub depth: u32,
}

/// One run of a plan: its length in periods and its bucket.
#[derive(Clone, Copy, Debug, PartialEq, Eq)]
pub struct Record {
    pub periods: u32,
    pub bucket: Bucket,
}

/// A cutting of the whole trace into runs, first to last, with its cost.
#[derive(Clone, Debug, PartialEq, Eq)]
pub struct Plan {
    pub cost: u64,
    pub records: Vec<Record>,
}

impl Tariff {
    /// The seven figures in the paper's order.
    pub fn figures(&self) -> [u32; 7] {
        [self.rate_price, self.depth_price, self.fee, self.p, self.q, self.rate_cap, self.depth_cap]
    }

    /// The tariff with these seven figures, in range or not.
    pub fn from_figures(figures: [u32; 7]) -> Tariff {
        let [rate_price, depth_price, fee, p, q, rate_cap, depth_cap] = figures;
        Tariff { rate_price, depth_price, fee, p, q, rate_cap, depth_cap }
    }

    /// 5 unless each figure is in its range.
    pub fn weigh(&self) -> Answer<()> {
        let prices = self.rate_price <= PRICE_MAX && self.depth_price <= PRICE_MAX && self.fee <= FEE_MAX;
        let caps = self.rate_cap <= RATE_MAX && self.depth_cap <= DEPTH_MAX;
        require(prices && caps, FIGURE)?;
        weigh_factor(self.p, self.q)
    }

    /// What a bucket costs for a run of that many periods. The figures have been weighed, so the cost is far below
    /// 64 bits.
    pub(super) fn cost(&self, bucket: Bucket, periods: usize) -> u64 {
        let each =
            u64::from(self.rate_price) * u64::from(bucket.rate) + u64::from(self.depth_price) * u64::from(bucket.depth);
        each * periods as u64 + u64::from(self.fee)
    }
}

impl Bucket {
    /// 5 unless rate and depth are in the range of every bucket; the caps of a tariff have no part in it.
    pub fn weigh(&self) -> Answer<()> {
        require(self.rate <= RATE_MAX && self.depth <= DEPTH_MAX, FIGURE)
    }
}

/// 5 unless p/q is a starting factor: q in 1..1,000 and p at most q.
pub fn weigh_factor(p: u32, q: u32) -> Answer<()> {
    require((1..=Q_MAX).contains(&q) && p <= q, FIGURE)
}

/// 3 unless there are 1 to 512 periods.
pub fn weigh_periods(periods: usize) -> Answer<()> {
    require((1..=PERIODS_MAX).contains(&periods), PERIODS)
}

/// 3 for the trace, then 5 for the tariff.
pub fn weigh_order(trace: &[u16], tariff: &Tariff) -> Answer<()> {
    weigh_periods(trace.len())?;
    tariff.weigh()
}
