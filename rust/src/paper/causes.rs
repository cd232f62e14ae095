//! The cause of a depth: nothing, an opening of v periods, or a stretch from u to v (02, job 3).

use super::bucket::starting_tokens;
use super::depth::depth_at;
use super::order::{read_order, trace_of};
use super::sheet::{megabits, refusal_line};
use super::terms::{Bucket, Tariff};
use super::Answer;

/// What a depth is paid for. Periods are counted from 1.
#[derive(Clone, Copy, Debug, PartialEq, Eq)]
pub enum Cause {
    Nothing,
    Opening { v: usize },
    Stretch { u: usize, v: usize },
}

/// A depth with its cause.
#[derive(Clone, Copy, Debug, PartialEq, Eq)]
pub struct Explained {
    pub depth: u32,
    pub cause: Cause,
}

/// The depth at a rate, by simulation, with its cause: refusals 3, 5 and 7.
pub fn explain(trace: &[u16], rate: u32, tariff: &Tariff) -> Answer<Explained> {
    let depth = depth_at(trace, rate, tariff)?;
    Ok(Explained { depth, cause: cause_of(depth, trace, rate, tariff) })
}

/// Of all openings and stretches that a depth one smaller falls short of, an opening before a stretch, then the least
/// v, then the least u.
fn cause_of(depth: u32, trace: &[u16], rate: u32, tariff: &Tariff) -> Cause {
    let Some(smaller) = depth.checked_sub(1) else {
        return Cause::Nothing;
    };
    let starting = starting_tokens(Bucket { rate, depth: smaller }, tariff.p, tariff.q) as i64;
    let periods = trace.len();
    let mut openings = (1..=periods).filter(|&v| starting < need(trace, 1, v, rate));
    let pairs = (2..=periods).flat_map(|v| (2..=v).map(move |u| (u, v)));
    let mut stretches = pairs.filter(|&(u, v)| i64::from(smaller) < need(trace, u, v, rate));
    let opening = openings.next().map(|v| Cause::Opening { v });
    let stretch = || stretches.next().map(|(u, v)| Cause::Stretch { u, v });
    opening.or_else(stretch).unwrap_or(Cause::Nothing)
}

/// The need of periods u..v: their summed demand less the rate for each. It may be below 0.
fn need(trace: &[u16], u: usize, v: usize, rate: u32) -> i64 {
    let periods = &trace[u - 1..v];
    let demand: i64 = periods.iter().copied().map(i64::from).sum();
    demand - i64::from(rate) * periods.len() as i64
}

/// What the program prints for an order and a rate: `depth DEPTH` in megabits with `nothing`, `opening V` or
/// `stretch U V`, or the refusal line.
pub fn explain_line(order: &[u8], rate: u32) -> String {
    let answer = read_order(order).and_then(|(_, tariff)| explain(&trace_of(order), rate, &tariff));
    let line = answer.map(|explained| {
        let cause = match explained.cause {
            Cause::Nothing => String::from("nothing"),
            Cause::Opening { v } => format!("opening {v}"),
            Cause::Stretch { u, v } => format!("stretch {u} {v}"),
        };
        format!("depth {} {cause}\n", megabits(explained.depth.into()))
    });
    line.unwrap_or_else(refusal_line)
}
