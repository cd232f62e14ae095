//! The product against the paper: what sets the depth at a rate, on orders of every kind and damage, and the program
//! that prints it.

mod shared;

use metqoraz::calls::{self, Depth, Rate};
use metqoraz::inputs::{any_tariff, for_small_depths, Seed};
use metqoraz::paper::causes::{explain, explain_line, Cause, Explained};
use metqoraz::paper::order::read_order;
use metqoraz::paper::terms::{Tariff, DEPTH_MAX, RATE_MAX};
use metqoraz::paper::NO_PLAN;
use shared::{
    any_file, any_order, any_rate, any_rate_for, any_trace, balanced, every_change, file_of, file_with, for_seeds,
    for_the_ends, on_order, printed, printed_case, same, small_order, Tally,
};

/// What is answered. A stretch is later if it begins after period 2; an opening and a stretch are longer if they have
/// more than one period, and go to the end if their last one is the trace's.
#[derive(Clone, Copy, Debug, PartialEq, Eq, PartialOrd, Ord)]
enum Outcome {
    Nothing,
    Opening { longer: bool, to_end: bool },
    Stretch { later: bool, longer: bool, to_end: bool },
    Refused(u32),
}

use Outcome::*;

/// Those of the order, of the rate, and of the depth.
const REFUSALS: [u32; 6] = [1, 2, 3, 4, 5, NO_PLAN];

fn openings() -> Vec<Outcome> {
    let to_each_end = |longer| [false, true].map(|to_end| Opening { longer, to_end });
    [false, true].into_iter().flat_map(to_each_end).collect()
}

fn stretches() -> Vec<Outcome> {
    let to_each_end = |(later, longer)| [false, true].map(|to_end| Stretch { later, longer, to_end });
    [(false, false), (false, true), (true, false), (true, true)].into_iter().flat_map(to_each_end).collect()
}

/// Every outcome with a depth, and these refusals.
fn outcomes(refusals: &[u32]) -> Vec<Outcome> {
    let refused = refusals.iter().copied().map(Refused).collect();
    [vec![Nothing], openings(), stretches(), refused].concat()
}

fn outcome(cause: Cause, periods: usize) -> Outcome {
    match cause {
        Cause::Nothing => Nothing,
        Cause::Opening { v } => Opening { longer: v > 1, to_end: v == periods },
        Cause::Stretch { u, v } => Stretch { later: u > 2, longer: u < v, to_end: v == periods },
    }
}

/// An outcome without its periods or its number.
#[derive(Clone, Copy, Debug, PartialEq, Eq, PartialOrd, Ord)]
enum Kind {
    Nothing,
    Opening,
    Stretch,
    Refused,
}

fn kind(outcome: Outcome) -> Kind {
    match outcome {
        Nothing => Kind::Nothing,
        Opening { .. } => Kind::Opening,
        Stretch { .. } => Kind::Stretch,
        Refused(_) => Kind::Refused,
    }
}

/// The three numbers of a cause: its own, its first and its last period.
fn numbers_of(cause: Cause) -> [u32; 3] {
    match cause {
        Cause::Nothing => [0, 0, 0],
        Cause::Opening { v } => [1, 1, v as u32],
        Cause::Stretch { u, v } => [2, u as u32, v as u32],
    }
}

/// A cause as the call for Rust names it.
fn called(explained: Explained) -> calls::Explained {
    let cause = match explained.cause {
        Cause::Nothing => calls::Cause::Nothing,
        Cause::Opening { v } => calls::Cause::Opening { periods: v as u32 },
        Cause::Stretch { u, v } => calls::Cause::Stretch { first: u as u32, last: v as u32 },
    };
    calls::Explained { depth: Depth(explained.depth), cause }
}

/// The call on an order's bytes: its answer and the numbers lent, which a refusal leaves as they were.
fn compare(file: &[u8], rate: u32) -> Outcome {
    let paper = on_order(file, |trace, tariff| explain(trace, rate, tariff));
    let before = [u32::MAX, 513, 7];
    let mut lent = before;
    let [cause, first, last] = &mut lent;
    let depth = calls::explain_into(file, Rate(rate), cause, first, last);
    same(&depth, &paper.map(|explained| Depth(explained.depth)));
    same(&lent, &paper.map_or(before, |explained| numbers_of(explained.cause)));
    same(&calls::explain(file, Rate(rate)), &paper.map(called));
    same(&depth, &calls::depth(file, Rate(rate)));
    let periods = read_order(file).map_or(0, |(periods, _)| periods as usize);
    paper.map_or_else(Refused, |explained| outcome(explained.cause, periods))
}

/// The tariff with a fresh bucket that is empty, full, or as it was.
fn with_any_start(tariff: Tariff, seed: &mut Seed) -> Tariff {
    let Tariff { p, q, .. } = tariff;
    Tariff { p: seed.pick([0, p, p, q]), ..tariff }
}

/// An order and a rate about the mean of its demands, and a fresh bucket of any kind.
fn about_the_mean(longest: u32, seed: &mut Seed) -> (Vec<u8>, u32) {
    let (tariff, demands, rate) = balanced(longest, seed);
    (file_of(&(with_any_start(tariff, seed), demands)), rate)
}

/// An order whose demands are the rate or a step more or less, so that many needs are equal.
fn in_steps(longest: u32, seed: &mut Seed) -> (Vec<u8>, u32) {
    let tariff = Tariff { rate_cap: RATE_MAX, depth_cap: DEPTH_MAX, ..any_tariff(seed) };
    let rate = 1 + seed.of_any_size(RATE_MAX - 1);
    let step = 1 + seed.of_any_size(rate - 1);
    let least = if seed.once_in(8) { longest } else { 1 };
    let periods = seed.between(least, longest);
    let demands = (0..periods).map(|_| seed.pick([rate - step, rate, rate + step]) as u16).collect();
    (file_of(&(with_any_start(tariff, seed), demands)), rate)
}

#[test]
fn causes_are_alike() {
    let tally = Tally::default();
    for_seeds(7_000_000, 100_000, |seed| {
        let file = any_file(24, seed);
        tally.meet(compare(&file, any_rate_for(&file, seed)));
    });
    for_seeds(7_100_000, 50_000, |seed| {
        for (file, rate) in [about_the_mean(24, seed), in_steps(24, seed)] {
            tally.meet(compare(&file, rate));
        }
    });
    tally.expect(&outcomes(&REFUSALS), 300);
}

#[test]
fn causes_at_every_rate_are_alike() {
    let tally = Tally::default();
    for_seeds(7_200_000, 40_000, |seed| {
        let (tariff, demands) = small_order(12, seed);
        let file = file_of(&(tariff, demands));
        for rate in 0..=tariff.rate_cap + 1 {
            tally.meet(compare(&file, rate));
        }
    });
    tally.expect(&outcomes(&[5, NO_PLAN]), 1_000);
}

#[test]
fn every_small_cause_is_alike() {
    let tally = Tally::default();
    for_small_depths(|demands, rate, tariff| tally.meet(compare(&file_of(&(*tariff, demands.to_vec())), rate)));
    tally.expect(&outcomes(&[5, NO_PLAN]), 100);
}

#[test]
fn causes_in_long_traces_are_alike() {
    let tally = Tally::default();
    for_seeds(7_300_000, 3_000, |seed| {
        let (tariff, demands) = (any_tariff(seed), any_trace(512, seed));
        let rate = any_rate(tariff.rate_cap, seed);
        for (file, rate) in [(file_of(&(tariff, demands)), rate), about_the_mean(512, seed), in_steps(512, seed)] {
            tally.meet(kind(compare(&file, rate)));
        }
    });
    tally.expect(&[Kind::Nothing, Kind::Opening, Kind::Stretch, Kind::Refused], 500);
}

/// Demands below the rate, then at it from period `level` on, above it from period `first` to period `last`, and after
/// that at it or below; and how much they are above it.
fn hump([level, first, last, periods]: [u32; 4], rate: u32, seed: &mut Seed) -> (Vec<u16>, u32) {
    let mut need = 0;
    let demand = |period| {
        let (above, below) = (seed.between(1, 900), seed.between(0, rate - 1));
        if (first..=last).contains(&period) {
            need += above;
            return (rate + above) as u16;
        }
        let level = (level..first).contains(&period) || period > last && seed.once_in(2);
        (if level { rate } else { below }) as u16
    };
    let demands = (1..=periods).map(demand).collect();
    (demands, need)
}

/// The call on an order whose depth and cause are known beforehand.
fn compare_known(order: &(Tariff, Vec<u16>), rate: u32, known: Explained) -> Outcome {
    let file = file_of(order);
    same(&calls::explain(&file, Rate(rate)), &Ok(called(known)));
    compare(&file, rate)
}

#[test]
fn known_openings_are_named() {
    let tally = Tally::default();
    for_seeds(7_400_000, 5_000, |seed| {
        let (longest, q) = (seed.pick([1, 2, 9, 512]), seed.between(1, 1_000));
        let tariff = Tariff { p: seed.between(q.div_ceil(2), q), q, ..printed_case().0 };
        let (periods, rate) = (seed.between(1, longest), seed.between(1, RATE_MAX));
        let inside = seed.between(1, periods);
        let last = seed.pick([1, inside, periods]);
        let (demands, need) = hump([1, 1, last, periods], rate, seed);
        let known = Explained { depth: (need * q).div_ceil(tariff.p), cause: Cause::Opening { v: last as usize } };
        tally.meet(compare_known(&(tariff, demands), rate, known));
    });
    tally.expect(&openings(), 500);
}

/// A full bucket in period 1, which leaves tokens: a stretch that is level with the rate at first begins there.
#[test]
fn known_stretches_are_named() {
    let tally = Tally::default();
    for_seeds(7_410_000, 5_000, |seed| {
        let longest = seed.pick([2, 9, 512, 512]);
        let tariff = Tariff { p: 1, q: 1, ..printed_case().0 };
        let (periods, rate) = (seed.between(2, longest), seed.between(1, RATE_MAX));
        let inside = seed.between(2, periods);
        let last = seed.pick([2, inside, inside, periods]);
        let inside = seed.between(2, last);
        let first = seed.pick([2, inside, inside, last]);
        let inside = seed.between(2, first);
        let level = seed.pick([2, inside, first]);
        let (demands, need) = hump([level, first, last, periods], rate, seed);
        let known = Explained { depth: need, cause: Cause::Stretch { u: level as usize, v: last as usize } };
        tally.meet(compare_known(&(tariff, demands), rate, known));
    });
    tally.expect(&stretches(), 100);
}

/// Demands above the rate, as many as it takes, by so much in all.
fn above(rate: u32, need: u32, seed: &mut Seed) -> Vec<u16> {
    let (mut demands, mut left) = (Vec::new(), need);
    while left > 0 {
        let most = left.min(60_000);
        let any = seed.between(1, most);
        let part = seed.pick([most, any]);
        demands.push((rate + part) as u16);
        left -= part;
    }
    demands
}

/// An order whose first demands need the starting tokens of a depth one smaller, or one token more or less, and whose
/// last ones need the depth. In between the bucket fills up.
fn at_the_brink(seed: &mut Seed) -> (Vec<u8>, u32) {
    let q = seed.between(1, 1_000);
    let any = seed.between(1, q);
    let p = seed.pick([any, any, q, 1]);
    let rate = seed.between(1, RATE_MAX);
    let depth = 1 + seed.of_any_size(DEPTH_MAX.min(200 * rate) - 1);
    let starting = p * (depth - 1) / q;
    let opening = seed.pick([starting, starting + 1, starting.saturating_sub(1)]);
    let idle = vec![0; depth.div_ceil(rate) as usize];
    let demands = [above(rate, opening, seed), idle, above(rate, depth, seed)].concat();
    (file_of(&(Tariff { p, q, ..printed_case().0 }, demands)), rate)
}

#[test]
fn causes_at_the_brink_are_alike() {
    let tally = Tally::default();
    for_seeds(7_420_000, 10_000, |seed| {
        let (file, rate) = at_the_brink(seed);
        tally.meet(kind(compare(&file, rate)));
    });
    tally.expect(&[Kind::Opening, Kind::Stretch], 2_000);
}

#[test]
fn figures_at_the_ends_of_their_ranges_are_alike() {
    let tally = Tally::default();
    for_the_ends(|file, rate| tally.meet(kind(compare(file, rate))));
    tally.expect(&[Kind::Nothing, Kind::Opening, Kind::Stretch, Kind::Refused], 100);
}

/// A depth cap that is just the depth, and one below it.
#[test]
fn a_cap_at_the_depth_changes_no_cause() {
    let tally = Tally::default();
    for_seeds(7_500_000, 20_000, |seed| {
        let (tariff, demands) = any_order(40, seed);
        let rate = seed.between(0, tariff.rate_cap);
        let capped = |depth_cap| file_of(&(Tariff { depth_cap, ..tariff }, demands.clone()));
        let wide = calls::explain(&capped(DEPTH_MAX), Rate(rate));
        let Ok(calls::Explained { depth: Depth(depth), .. }) = wide else { return };
        same(&calls::explain(&capped(depth), Rate(rate)), &wide);
        tally.meet(kind(compare(&capped(depth), rate)));
        if depth > 0 {
            same(&compare(&capped(depth - 1), rate), &Refused(NO_PLAN));
        }
    });
    tally.expect(&[Kind::Nothing, Kind::Opening, Kind::Stretch], 1_000);
}

#[test]
fn every_t_is_weighed_alike() {
    for_seeds(7_600_000, 100, |seed| {
        let tariff = any_tariff(seed);
        for periods in [0, 1, 511, 512, 513, 1_024, u32::MAX] {
            let outcome = compare(&file_with(periods, &tariff), any_rate(tariff.rate_cap, seed));
            assert_eq!(outcome == Refused(3), !(1..=512).contains(&periods));
        }
    });
}

#[test]
fn every_byte_of_an_order_counts_alike() {
    let tally = Tally::default();
    for_seeds(7_610_000, 200, |seed| {
        let file = file_of(&small_order(6, seed));
        for bytes in every_change(&file) {
            tally.meet(compare(&bytes, seed.between(0, 9)));
        }
    });
    tally.expect(&outcomes(&REFUSALS), 10);
}

#[test]
fn the_printed_case() {
    let file = file_of(&printed_case());
    let explained = [0, 4, 5, 6, 7, 8].map(|rate| {
        compare(&file, rate);
        calls::explain(&file, Rate(rate)).map(|explained| (explained.depth.0, explained.cause))
    });
    let opening = |depth, periods| Ok((depth, calls::Cause::Opening { periods }));
    let stretch = |depth, first, last| Ok((depth, calls::Cause::Stretch { first, last }));
    let nothing = Ok((0, calls::Cause::Nothing));
    assert_eq!(explained, [opening(28, 3), opening(8, 2), opening(4, 2), stretch(2, 2, 2), stretch(1, 2, 2), nothing]);
}

/// The program's line for an order's bytes and a rate, and the call.
fn compare_line(file: &[u8], rate: u32) -> Outcome {
    same(&printed("explain", &[&rate.to_string()], file), &explain_line(file, rate));
    compare(file, rate)
}

#[test]
fn the_program_prints_alike() {
    let (tally, refused) = (Tally::default(), Tally::default());
    let compare_kind = |file: &[u8], rate| {
        let outcome = compare_line(file, rate);
        tally.meet(kind(outcome));
        if let Refused(number) = outcome {
            refused.meet(number);
        }
    };
    for_seeds(7_700_000, 200, |seed| {
        let file = any_file(60, seed);
        compare_kind(&file, any_rate_for(&file, seed));
        for (file, rate) in [about_the_mean(512, seed), in_steps(512, seed), at_the_brink(seed)] {
            compare_kind(&file, rate);
        }
    });
    tally.expect(&[Kind::Nothing, Kind::Opening, Kind::Stretch, Kind::Refused], 50);
    refused.expect(&REFUSALS, 3);
}

/// The longest order, with nothing behind it, a byte, and more than the program has room for.
#[test]
fn the_program_takes_the_longest_order() {
    for_seeds(7_710_000, 20, |seed| {
        let demands: Vec<u16> = (0..512).map(|_| seed.between(0, 900) as u16).collect();
        let mut file = file_of(&(printed_case().0, demands));
        for (more, refused) in [(0, false), (1, true), (5_000, true)] {
            file.resize(file.len() + more, 0);
            assert_eq!(compare_line(&file, seed.between(400, 500)) == Refused(4), refused);
        }
    });
}
