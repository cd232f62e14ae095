//! The printed sheet, and the lines of a single and of a trial (01, "The printed sheet").

use super::bucket::trial;
use super::order::{read_order, trace_of};
use super::series::series;
use super::single::single;
use super::terms::Bucket;
use super::Answer;

/// A signed figure in megabits. The sign is the figure's own: the whole part of -500 is 0 and has none.
pub fn megabits(figure: i64) -> String {
    let sign = if figure < 0 { "-" } else { "" };
    let size = figure.unsigned_abs();
    format!("{sign}{}.{:03}", size / 1_000, size % 1_000)
}

/// The line printed in place of any figures.
pub fn refusal_line(number: u32) -> String {
    format!("refused {number}\n")
}

/// What the sheet program prints for an order: the whole sheet, or the refusal line.
pub fn sheet(order: &[u8]) -> String {
    plan_lines(order).unwrap_or_else(refusal_line)
}

/// `single RATE DEPTH COST` for an order, or the refusal line.
pub fn single_line(order: &[u8]) -> String {
    let answer = read_order(order).and_then(|(_, tariff)| single(&trace_of(order), &tariff));
    let line = answer.map(|priced| {
        let Bucket { rate, depth } = priced.bucket;
        format!("single {} {} {}\n", megabits(rate.into()), megabits(depth.into()), priced.cost)
    });
    line.unwrap_or_else(refusal_line)
}

/// `trial SPARE OVER` for a bucket on an order's trace with its factor, or the refusal line.
pub fn trial_line(order: &[u8], bucket: Bucket) -> String {
    let answer = read_order(order).and_then(|(_, tariff)| trial(bucket, tariff.p, tariff.q, &trace_of(order)));
    // Over is at most 512 × 65,535, so the signed figure is exact.
    let line = answer.map(|trial| format!("trial {} {}\n", megabits(trial.spare), megabits(trial.over as i64)));
    line.unwrap_or_else(refusal_line)
}

/// The plan's line and one for each bucket: first and last period, rate, depth and spare.
fn plan_lines(order: &[u8]) -> Answer<String> {
    let (periods, tariff) = read_order(order)?;
    let trace = trace_of(order);
    let plan = series(&trace, &tariff, trace.len())?;
    let mut text = format!("plan {periods} {} {}\n", plan.records.len(), plan.cost);
    let mut start = 0;
    for record in &plan.records {
        let end = start + record.periods as usize;
        let Bucket { rate, depth } = record.bucket;
        let spare = trial(record.bucket, tariff.p, tariff.q, &trace[start..end])?.spare;
        let figures = [rate.into(), depth.into(), spare].map(megabits).join(" ");
        text += &format!("{} {end} {figures}\n", start + 1);
        start = end;
    }
    Ok(text)
}
