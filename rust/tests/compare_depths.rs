//! The product against the paper: the depth at a rate, forward and from the end, on orders of every kind and damage,
//! and the program that prints either.

mod shared;

use metqoraz::calls::{self, Depth, Rate};
use metqoraz::inputs::{any_tariff, for_small_depths};
use metqoraz::paper::depth::{depth_at, depth_by_trying};
use metqoraz::paper::from_end::{depth_by_needs, depth_from_end, depth_line, turned};
use metqoraz::paper::terms::{Tariff, DEPTH_MAX, RATE_MAX};
use metqoraz::paper::walk::depth_by_walk;
use metqoraz::paper::{Answer, NO_PLAN};
use shared::{
    any_file, any_order, any_rate, any_rate_for, any_trace, balanced, compare_depths, every_change, file_of, file_with,
    for_seeds, for_the_ends, printed, printed_case, said, same, small_order, Tally,
};
use std::cmp::Ordering;

/// The depth from the end beside the forward one, of the same bytes.
#[derive(Clone, Copy, Debug, PartialEq, Eq, PartialOrd, Ord)]
enum Outcome {
    Equal,
    Smaller,
    Greater,
    OnlyForward,
    OnlyFromEnd,
    Refused(u32),
}

use Outcome::*;

const FOUND: [Outcome; 5] = [Equal, Smaller, Greater, OnlyForward, OnlyFromEnd];
const READING: [Outcome; 5] = [Refused(1), Refused(2), Refused(3), Refused(4), Refused(5)];

/// Both calls on an order's bytes, compared with the paper.
fn compare(file: &[u8], rate: u32) -> Outcome {
    match compare_depths(file, rate) {
        [Ok(forward), Ok(from_end)] => match from_end.cmp(&forward) {
            Ordering::Equal => Equal,
            Ordering::Less => Smaller,
            Ordering::Greater => Greater,
        },
        [Ok(_), Err(_)] => OnlyForward,
        [Err(_), Ok(_)] => OnlyFromEnd,
        [Err(forward), Err(from_end)] => {
            assert_eq!(forward, from_end, "one refusal for both");
            Refused(forward)
        }
    }
}

#[test]
fn depths_are_alike() {
    let tally = Tally::default();
    for_seeds(200_000, 150_000, |seed| {
        let file = any_file(24, seed);
        tally.meet(compare(&file, any_rate_for(&file, seed)));
    });
    for_seeds(350_000, 50_000, |seed| {
        let (tariff, demands, rate) = balanced(24, seed);
        tally.meet(compare(&file_of(&(tariff, demands)), rate));
    });
    tally.expect(&[&FOUND[..], &READING, &[Refused(NO_PLAN)]].concat(), 1_000);
}

/// Both calls against every depth tried in turn.
fn compare_tried(demands: &[u16], rate: u32, tariff: &Tariff) -> Outcome {
    let file = file_of(&(*tariff, demands.to_vec()));
    same(&calls::depth(&file, Rate(rate)), &depth_by_trying(demands, rate, tariff).map(Depth));
    same(&calls::depth_from_end(&file, Rate(rate)), &depth_by_trying(&turned(demands), rate, tariff).map(Depth));
    compare(&file, rate)
}

#[test]
fn depths_are_those_found_by_trying() {
    let tally = Tally::default();
    for_seeds(400_000, 60_000, |seed| {
        let (tariff, demands) = small_order(12, seed);
        for rate in 0..=tariff.rate_cap + 1 {
            tally.meet(compare_tried(&demands, rate, &tariff));
        }
    });
    tally.expect(&[&FOUND[..], &[Refused(5), Refused(NO_PLAN)]].concat(), 1_000);
}

#[test]
fn every_small_depth_is_that_found_by_trying() {
    let tally = Tally::default();
    for_small_depths(|demands, rate, tariff| tally.meet(compare_tried(demands, rate, tariff)));
    tally.expect(&[&FOUND[..], &[Refused(5), Refused(NO_PLAN)]].concat(), 1_000);
}

#[test]
fn depths_of_long_traces_are_alike() {
    let tally = Tally::default();
    let compare_long = |demands: &[u16], rate, tariff: &Tariff| {
        let file = file_of(&(*tariff, demands.to_vec()));
        tally.meet(compare(&file, rate));
        same(&calls::depth(&file, Rate(rate)), &depth_by_walk(demands, rate, tariff).map(Depth));
        same(&calls::depth_from_end(&file, Rate(rate)), &depth_from_end(demands, rate, tariff).map(Depth));
    };
    for_seeds(480_000, 10_000, |seed| {
        let (tariff, demands) = (any_tariff(seed), any_trace(512, seed));
        compare_long(&demands, any_rate(tariff.rate_cap, seed), &tariff);
    });
    for_seeds(6_000_000, 10_000, |seed| {
        let (tariff, demands, rate) = balanced(512, seed);
        compare_long(&demands, rate, &tariff);
    });
    tally.expect(&[&FOUND[..], &[Refused(5), Refused(NO_PLAN)]].concat(), 100);
}

/// Demands that rise, and the same ones as they fall.
#[test]
fn rises_and_falls_are_alike() {
    let tally = Tally::default();
    for_seeds(6_020_000, 5_000, |seed| {
        let (tariff, mut rise, rate) = balanced(512, seed);
        rise.sort_unstable();
        for demands in [turned(&rise), rise] {
            tally.meet(compare(&file_of(&(tariff, demands)), rate));
        }
    });
    tally.expect(&[&FOUND[..], &[Refused(NO_PLAN)]].concat(), 500);
}

/// Lists that are the same turned round: any, and the same from its end on, with its last demand once or twice.
#[test]
fn palindromes_have_one_depth() {
    let tally = Tally::default();
    for_seeds(6_100_000, 5_000, |seed| {
        let (tariff, half, rate) = balanced(256, seed);
        let whole = [&half[..], &turned(&half)[seed.place(2)..]].concat();
        tally.meet(compare(&file_of(&(tariff, whole)), rate));
    });
    tally.expect(&[Equal, Refused(NO_PLAN)], 500);
}

#[test]
fn figures_at_the_ends_of_their_ranges_are_alike() {
    let tally = Tally::default();
    for_the_ends(|file, rate| tally.meet(compare(file, rate)));
    tally.expect(&[&FOUND[..], &[Refused(5), Refused(NO_PLAN)]].concat(), 40);
}

/// A depth cap that is just the depth from the end, and one below it.
#[test]
fn a_cap_below_the_depth_is_refused_alike() {
    let tally = Tally::default();
    for_seeds(6_200_000, 30_000, |seed| {
        let (tariff, demands) = any_order(60, seed);
        let rate = seed.between(0, tariff.rate_cap);
        let from_end = |depth_cap| {
            let [_, from_end] = compare_depths(&file_of(&(Tariff { depth_cap, ..tariff }, demands.clone())), rate);
            from_end
        };
        let Ok(depth) = from_end(DEPTH_MAX) else { return };
        same(&from_end(depth), &Ok(depth));
        if depth > 0 {
            same(&from_end(depth - 1), &Err(NO_PLAN));
        }
        tally.meet(depth > 0);
    });
    tally.expect(&[false, true], 5_000);
}

#[test]
fn every_t_is_weighed_alike() {
    for_seeds(500_000, 300, |seed| {
        let tariff = any_tariff(seed);
        for periods in [0, 1, 511, 512, 513, 1_024, u32::MAX] {
            let outcome = compare(&file_with(periods, &tariff), any_rate(tariff.rate_cap, seed));
            assert_eq!(outcome == Refused(3), !(1..=512).contains(&periods));
        }
    });
}

#[test]
fn every_byte_of_an_order_counts_alike() {
    let tally = Tally::default();
    for_seeds(510_000, 100, |seed| {
        let file = file_of(&small_order(3, seed));
        for bytes in every_change(&file) {
            tally.meet(compare(&bytes, seed.between(0, 9)));
        }
    });
    tally.expect(&[&FOUND[..], &READING, &[Refused(NO_PLAN)]].concat(), 100);
}

#[test]
fn the_printed_case() {
    let (tariff, demands) = printed_case();
    let depths = |list: &[u16], rate| compare_depths(&file_of(&(tariff, list.to_vec())), rate);
    assert_eq!([4, 5, 6].map(|rate| depths(&demands, rate)), [[Ok(8), Ok(4)], [Ok(4), Ok(3)], [Ok(2), Ok(2)]]);
    assert_eq!([4, 5, 6].map(|rate| depths(&[2, 8, 4], rate)[1]), [Ok(8), Ok(4), Ok(2)]);
}

/// The line for an order's bytes and a rate, forward and from the end.
fn compare_lines(file: &[u8], rate: u32) -> [Answer<Vec<u8>>; 2] {
    let word = rate.to_string();
    let lines = [depth_line(file, rate, depth_at), depth_line(file, rate, depth_by_needs)];
    same(&printed("least_depth", &[&word], file), &lines[0]);
    same(&printed("least_depth", &[&word, "from-end"], file), &lines[1]);
    lines.map(|line| said(&line))
}

#[test]
fn the_program_prints_alike() {
    let (tally, differ) = (Tally::default(), Tally::default());
    let compare_both = |file: &[u8], rate| {
        let lines = compare_lines(file, rate);
        lines.iter().for_each(|line| tally.count(line));
        differ.meet(lines[0] != lines[1]);
    };
    for_seeds(6_300_000, 200, |seed| {
        let file = any_file(60, seed);
        compare_both(&file, any_rate_for(&file, seed));
        let (tariff, demands, rate) = balanced(512, seed);
        compare_both(&file_of(&(tariff, demands)), rate);
    });
    tally.expect(&[0, 1, 2, 3, 4, 5, 7], 5);
    differ.expect(&[false, true], 50);
}

/// The longest order, with nothing behind it, a byte, and more than the program has room for.
#[test]
fn the_program_takes_the_longest_order() {
    for_seeds(6_310_000, 20, |seed| {
        let tariff = Tariff { p: 1, q: 2, rate_cap: RATE_MAX, depth_cap: DEPTH_MAX, ..any_tariff(seed) };
        let demands: Vec<u16> = (0..512).map(|_| seed.between(0, 900) as u16).collect();
        let mut file = file_of(&(tariff, demands));
        for (more, refusal) in [(0, None), (1, Some(4)), (5_000, Some(4))] {
            file.resize(file.len() + more, 0);
            assert_eq!(compare_lines(&file, seed.between(400, 500)).map(Result::err), [refusal; 2]);
        }
    });
}
