//! The walk: the depth of every run from one start at one rate, in one pass through the trace (01, "Depth at a rate";
//! report (16), (17), (31) to (33)).
//!
//! A bucket that discards nothing holds the smaller of two figures: the starting tokens plus what came in minus what
//! went out since the run began, and the depth plus the same since any later period. So it carries its run when the
//! starting tokens cover the opening need, and the depth covers every stretch that begins at period 2 or later.

use super::depth::weigh;
use super::terms::Tariff;
use super::{Answer, NO_PLAN};

/// A depth above every cap: no bucket that starts empty meets an opening need.
const NONE: u64 = u64::MAX;

/// The figures of a run at one rate. The trace and the tariff have been weighed: no sum passes 512 × 65,535.
pub(super) struct Walk {
    rate: u32,
    p: u64,
    q: u64,
    due: u32,
    gained: u32,
    opening: u32,
    opening_depth: u64,
    stretch: u32,
    deepest: u32,
}

impl Walk {
    /// The run of one period. No stretch begins in it.
    #[inline]
    pub(super) fn open(first: u16, rate: u32, tariff: &Tariff) -> Walk {
        let (p, q) = (u64::from(tariff.p), u64::from(tariff.q));
        let due = u32::from(first);
        let opening = due.saturating_sub(rate);
        let opening_depth = opening_depth(opening, p, q);
        Walk { rate, p, q, due, gained: rate, opening, opening_depth, stretch: 0, deepest: 0 }
    }

    /// The run with one period more.
    #[inline]
    pub(super) fn push(&mut self, demand: u16) {
        let demand = u32::from(demand);
        self.due += demand;
        self.gained += self.rate;
        let need = self.due.saturating_sub(self.gained);
        if need > self.opening {
            self.opening = need;
            self.opening_depth = opening_depth(need, self.p, self.q);
        }
        self.stretch = (self.stretch + demand).saturating_sub(self.rate);
        self.deepest = self.deepest.max(self.stretch);
    }

    /// The smallest depth that carries the run; it may be above every cap.
    #[inline]
    pub(super) fn depth(&self) -> u64 {
        self.opening_depth.max(u64::from(self.deepest))
    }
}

/// The smallest depth whose starting tokens meet the need: need × q / p, rounded up.
#[inline]
fn opening_depth(need: u32, p: u64, q: u64) -> u64 {
    if need == 0 {
        0
    } else if p == 0 {
        NONE
    } else {
        (u64::from(need) * q).div_ceil(p)
    }
}

/// The answer of `depth_at`, by one walk through the trace.
pub fn depth_by_walk(trace: &[u16], rate: u32, tariff: &Tariff) -> Answer<u32> {
    weigh(trace, rate, tariff)?;
    walked_depth(trace, rate, tariff).ok_or(NO_PLAN)
}

/// The smallest depth inside the cap that carries a run, where there is one. The figures have been weighed.
pub(super) fn walked_depth(run: &[u16], rate: u32, tariff: &Tariff) -> Option<u32> {
    let (&first, later) = run.split_first()?;
    let mut walk = Walk::open(first, rate, tariff);
    later.iter().for_each(|&demand| walk.push(demand));
    u32::try_from(walk.depth()).ok().filter(|&depth| depth <= tariff.depth_cap)
}
