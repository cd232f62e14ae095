//! Document 01 as a program, and what document 02 adds to it, written from the papers alone. Each file takes one
//! heading of 01 or one job of 02, in the plainest way that follows its words; the quicker ways (`walk`,
//! `depth_by_needs`, `series_plain`) are compared with those by the tests.

pub mod bucket;
pub mod causes;
pub mod check;
pub mod depth;
pub mod from_end;
pub mod meter;
pub mod order;
pub mod plan;
pub mod series;
pub mod sheet;
pub mod single;
pub mod terms;
pub mod walk;
mod words;

/// The figures, or the number of the refusal.
pub type Answer<T> = Result<T, u32>;

// 01, "Refusals by number". The lowest number that applies is given, so each call asks in this order.
pub const SHORT: u32 = 1;
pub const FOREIGN: u32 = 2;
pub const PERIODS: u32 = 3;
pub const MISPLACED: u32 = 4;
pub const FIGURE: u32 = 5;
pub const LIST: u32 = 6;
pub const NO_PLAN: u32 = 7;
pub const METER: u32 = 8;
pub const FULL: u32 = 9;
// 02, job 1: after both files' own refusals.
pub const UNEQUAL: u32 = 10;

/// The refusal, unless the rule holds.
fn require(holds: bool, refusal: u32) -> Answer<()> {
    if holds {
        Ok(())
    } else {
        Err(refusal)
    }
}
