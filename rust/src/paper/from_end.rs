//! The depth worked from the end, on a list in archive order, last period first (02, job 2).

use super::bucket::starting_tokens;
use super::depth::{depth_at, smallest, weigh};
use super::order::{read_order, trace_of};
use super::sheet::{megabits, refusal_line};
use super::terms::{Bucket, Tariff};
use super::Answer;

/// The list turned round.
pub fn turned(list: &[u16]) -> Vec<u16> {
    list.iter().rev().copied().collect()
}

/// The answer as the paper defines it: the forward one, by simulation, on the list turned round. Refusals 3, 5 and 7.
pub fn depth_from_end(list: &[u16], rate: u32, tariff: &Tariff) -> Answer<u32> {
    depth_at(&turned(list), rate, tariff)
}

/// The same answer by the paper's recursion, in one pass through the list as it comes: the tokens needed before a
/// period are the demand minus the rate plus the need after it, never below 0.
///
/// A bucket carries the list when it holds each need before its period. Before period 1 it holds its starting tokens;
/// before a later one the smaller of its depth and what is left, and a need that is met leaves the next one.
pub fn depth_by_needs(list: &[u16], rate: u32, tariff: &Tariff) -> Answer<u32> {
    weigh(list, rate, tariff)?;
    let (mut need, mut greatest_after) = (0, 0);
    for &demand in list {
        greatest_after = need.max(greatest_after);
        need = (i64::from(demand) - i64::from(rate) + need).max(0);
    }
    let starting = |depth| starting_tokens(Bucket { rate, depth }, tariff.p, tariff.q) as i64;
    smallest(tariff.depth_cap, |depth| starting(depth) >= need && i64::from(depth) >= greatest_after)
}

/// What the program prints for an order, with the depth that this call gives for its demands at a rate: `depth DEPTH`
/// in megabits, or the refusal line.
pub fn depth_line(order: &[u8], rate: u32, depth: fn(&[u16], u32, &Tariff) -> Answer<u32>) -> String {
    let answer = read_order(order).and_then(|(_, tariff)| depth(&trace_of(order), rate, &tariff));
    answer.map_or_else(refusal_line, |depth| format!("depth {}\n", megabits(depth.into())))
}
