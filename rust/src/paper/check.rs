//! The check of a plan that another planning house has made (02, job 1).

use super::bucket::carries;
use super::order::{read_order, trace_of};
use super::plan::read_plan;
use super::series::{series_by_trying, series_plain};
use super::sheet::refusal_line;
use super::terms::{Plan, Tariff};
use super::words::words_of;
use super::{require, Answer, UNEQUAL};

/// What is said of a plan: yes, and by how much its true cost exceeds the least, or no.
#[derive(Clone, Copy, Debug, PartialEq, Eq)]
pub enum Verdict {
    Yes(u64),
    No,
}

/// The check of a plan file for an order file: the order's refusal, then the plan's, then 10 where the numbers of
/// periods differ.
pub fn check(order: &[u8], plan: &[u8]) -> Answer<Verdict> {
    check_with(order, plan, series_plain)
}

/// The same answer with every cutting tried in turn for the least cost, for a dozen periods at most.
pub fn check_by_trying(order: &[u8], plan: &[u8]) -> Answer<Verdict> {
    check_with(order, plan, series_by_trying)
}

/// The check with some other way to the cheapest series.
pub fn check_with(order: &[u8], plan: &[u8], cheapest: impl Fn(&[u16], &Tariff) -> Answer<Plan>) -> Answer<Verdict> {
    let (periods, tariff) = read_order(order)?;
    let (planned, plan) = read_plan(plan)?;
    require(planned == periods, UNEQUAL)?;
    let trace = trace_of(order);
    let carried = carries_runs(&plan, &tariff, &trace);
    if !carried || !keeps_caps(&plan, &tariff) || plan.cost != true_cost(&plan, &tariff) {
        return Ok(Verdict::No);
    }
    // The plan is itself a cutting inside the caps, so there is a cheapest one, and it costs no more.
    let least = cheapest(&trace, &tariff)?.cost;
    Ok(Verdict::Yes(plan.cost - least))
}

/// Whether each bucket carries its run, the runs one after the other from period 1. The run lengths sum to T.
pub fn carries_runs(plan: &Plan, tariff: &Tariff, trace: &[u16]) -> bool {
    let mut rest = trace;
    plan.records.iter().all(|record| {
        let Some((run, after)) = rest.split_at_checked(record.periods as usize) else {
            return false;
        };
        rest = after;
        carries(record.bucket, tariff.p, tariff.q, run)
    })
}

/// Whether no rate and no depth is above its cap.
pub fn keeps_caps(plan: &Plan, tariff: &Tariff) -> bool {
    plan.records.iter().all(|run| run.bucket.rate <= tariff.rate_cap && run.bucket.depth <= tariff.depth_cap)
}

/// The cost of all runs under the tariff, whatever cost the plan states.
pub fn true_cost(plan: &Plan, tariff: &Tariff) -> u64 {
    plan.records.iter().map(|run| tariff.cost(run.bucket, run.periods as usize)).sum()
}

/// The two files on the program's standard input: the order as far as its stated file length, at least 20 bytes, and
/// the plan behind it.
pub fn two_files(input: &[u8]) -> (&[u8], &[u8]) {
    let stated = words_of(input).get(4).map_or(0, |&length| length as usize);
    input.split_at(stated.max(20).min(input.len()))
}

/// What the program prints for its standard input: `yes EXCESS`, `no` or the refusal line.
pub fn check_line(input: &[u8]) -> String {
    let (order, plan) = two_files(input);
    match check(order, plan) {
        Ok(Verdict::Yes(excess)) => format!("yes {excess}\n"),
        Ok(Verdict::No) => String::from("no\n"),
        Err(number) => refusal_line(number),
    }
}
