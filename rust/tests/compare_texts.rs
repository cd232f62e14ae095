//! The product against the paper: trials and single buckets, as figures and as lines, and the printed sheet.

mod shared;

use metqoraz::calls::{self, Depth, Rate};
use metqoraz::inputs::{bucket, Seed};
use metqoraz::paper::bucket::trial;
use metqoraz::paper::sheet::{sheet, single_line, trial_line};
use metqoraz::paper::single::{single, Priced};
use metqoraz::paper::terms::Bucket;
use metqoraz::paper::Answer;
use shared::{
    any_file, any_order, any_trace, compare_filled, file_of, for_seeds, on_order, printed_case, said, same,
    small_order, Tally,
};

/// A text of the paper's against the product's, whole and in rooms of every size.
fn compare_text(
    right: &str,
    whole: Answer<String>,
    seed: &mut Seed,
    into: impl Fn(&mut [u8]) -> Answer<usize>,
) -> Answer<Vec<u8>> {
    let right = said(right);
    same(&whole.map(String::into_bytes), &right);
    compare_filled(&right, seed, into);
    right
}

fn compare_trial(file: &[u8], bucket: Bucket, seed: &mut Seed) -> Answer<Vec<u8>> {
    let (rate, depth) = (Rate(bucket.rate), Depth(bucket.depth));
    let right = on_order(file, |trace, tariff| trial(bucket, tariff.p, tariff.q, trace));
    let before = seed.bits() as i64;
    let mut spare = before;
    let over = calls::trial_into(file, rate, depth, &mut spare);
    same(&(over, spare), &(right.map(|found| found.over), right.map_or(before, |found| found.spare)));
    let line = calls::trial_line(file, rate, depth);
    compare_text(&trial_line(file, bucket), line, seed, |text| calls::trial_line_into(file, rate, depth, text))
}

/// The cost and the bucket, in numbers that held something else before.
fn compare_bucket(file: &[u8], right: Answer<Priced>, seed: &mut Seed) {
    let before = (Rate(seed.bits() as u32), Depth(seed.bits() as u32));
    let (mut rate, mut depth) = before;
    let cost = calls::single_into(file, &mut rate, &mut depth);
    let bucket = right.map_or(before, |found| (Rate(found.bucket.rate), Depth(found.bucket.depth)));
    same(&(cost, (rate, depth)), &(right.map(|found| found.cost), bucket));
}

fn compare_single(file: &[u8], seed: &mut Seed) -> Answer<Vec<u8>> {
    compare_bucket(file, on_order(file, single), seed);
    compare_text(&single_line(file), calls::single_line(file), seed, |text| calls::single_line_into(file, text))
}

#[test]
fn trials_are_alike() {
    let tally = Tally::default();
    for_seeds(2_000_000, 100_000, |seed| {
        let file = any_file(24, seed);
        tally.count(&compare_trial(&file, bucket(seed), seed));
    });
    tally.expect(&[0, 1, 2, 3, 4, 5], 1_000);
}

#[test]
fn small_trials_are_alike() {
    for_seeds(2_200_000, 100_000, |seed| {
        let file = file_of(&small_order(12, seed));
        let small = Bucket { rate: seed.between(0, 9), depth: seed.between(0, 25) };
        compare_trial(&file, small, seed).expect("the figures are in range");
    });
}

#[test]
fn trials_of_long_traces_are_alike() {
    let tally = Tally::default();
    for_seeds(2_400_000, 10_000, |seed| {
        let (tariff, _) = any_order(1, seed);
        let file = file_of(&(tariff, any_trace(512, seed)));
        tally.count(&compare_trial(&file, bucket(seed), seed));
    });
    tally.expect(&[0, 5], 500);
}

#[test]
fn single_buckets_are_alike() {
    let tally = Tally::default();
    for_seeds(2_500_000, 8_000, |seed| {
        let file = any_file(16, seed);
        tally.count(&compare_single(&file, seed));
    });
    tally.expect(&[0, 1, 2, 3, 4, 5, 7], 50);
}

#[test]
fn small_single_buckets_are_alike() {
    let tally = Tally::default();
    for_seeds(2_600_000, 60_000, |seed| {
        let file = file_of(&small_order(10, seed));
        tally.count(&compare_single(&file, seed));
    });
    tally.expect(&[0, 7], 10_000);
}

#[test]
fn single_buckets_of_long_traces_are_alike() {
    for_seeds(2_700_000, 60, |seed| {
        let (tariff, _) = any_order(1, seed);
        let file = file_of(&(tariff, any_trace(512, seed)));
        same(&calls::single_line(&file).map(String::into_bytes), &said(&single_line(&file)));
    });
}

#[test]
fn sheets_are_alike() {
    let tally = Tally::default();
    for_seeds(2_800_000, 8_000, |seed| {
        let file = any_file(10, seed);
        let right = said(&sheet(&file));
        same(&calls::sheet(&file).map(String::into_bytes), &right);
        tally.count(&right);
    });
    tally.expect(&[0, 1, 2, 3, 4, 5, 7], 50);
}

#[test]
fn small_sheets_are_alike_in_every_room() {
    let tally = Tally::default();
    for_seeds(2_900_000, 60_000, |seed| {
        let file = file_of(&small_order(10, seed));
        let right = said(&sheet(&file));
        compare_filled(&right, seed, |text| calls::sheet_into(&file, text));
        tally.count(&right);
    });
    tally.expect(&[0, 7], 10_000);
}

#[test]
fn the_printed_case() {
    let order = file_of(&printed_case());
    assert_eq!(calls::sheet(&order).as_deref(), Ok("plan 3 2 40\n1 2 0.005 0.004 0.000\n3 3 0.000 0.004 0.000\n"));
    assert_eq!(calls::single_line(&order).as_deref(), Ok("single 0.005 0.004 46\n"));
    assert_eq!(calls::single(&order), Ok(calls::Single { rate: Rate(5), depth: Depth(4), cost: 46 }));
    assert_eq!(calls::trial_line(&order, Rate(5), Depth(3)).as_deref(), Ok("trial -0.001 0.001\n"));
    assert_eq!(calls::trial(&order, Rate(5), Depth(3)), Ok(calls::Trial { spare: -1, over: 1 }));
}
