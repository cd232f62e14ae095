//! The product against the paper: damaged orders through every call that reads one. Where reading refuses, each call
//! gives that number and leaves what it is lent alone; where the damage leaves an order, each call answers for it.

mod shared;

use metqoraz::calls::{self, Depth, Rate};
use metqoraz::inputs::{any_tariff, bucket, damaged, Seed};
use metqoraz::paper::order::{read_order, trace_of};
use metqoraz::paper::plan::write_plan;
use metqoraz::paper::series::series_by_trying;
use metqoraz::paper::sheet::{sheet, single_line, trial_line};
use metqoraz::paper::terms::Tariff;
use metqoraz::paper::{Answer, PERIODS};
use shared::{
    any_order, compare_depths, compare_in, file_of, file_with, for_seeds, lent, on_order, said, same, small_order,
    Tally,
};

/// The plan file of the best of all cuttings.
fn booked(file: &[u8]) -> Answer<Vec<u8>> {
    let (periods, tariff) = read_order(file)?;
    write_plan(periods, &series_by_trying(&trace_of(file), &tariff)?)
}

fn compare_all(file: &[u8], seed: &mut Seed) {
    let (tried, rate) = (bucket(seed), seed.between(0, 10));
    let room = seed.between(0, 120) as usize;
    let _ = compare_depths(file, rate);
    same(&calls::series(file), &on_order(file, series_by_trying).map(|plan| plan.cost));
    compare_in(room, &said(&trial_line(file, tried)), seed, |text| {
        calls::trial_line_into(file, Rate(tried.rate), Depth(tried.depth), text)
    });
    compare_in(room, &said(&single_line(file)), seed, |text| calls::single_line_into(file, text));
    compare_in(room, &said(&sheet(file)), seed, |text| calls::sheet_into(file, text));
    compare_in(room, &booked(file), seed, |plan| calls::book_into(file, plan));
}

/// Orders of one kind, each damaged; every answer of reading is met at least so often.
fn compare_damaged(base: u64, count: u64, least: u32, order: impl Fn(&mut Seed) -> (Tariff, Vec<u16>)) {
    let tally = Tally::default();
    for_seeds(base, count, |seed| {
        let file = file_of(&order(seed));
        let bytes = damaged(&file, seed);
        compare_all(&bytes, seed);
        tally.count(&read_order(&bytes));
    });
    tally.expect(&[0, 1, 2, 3, 4, 5], least);
}

#[test]
fn damaged_small_orders_are_answered_alike() {
    compare_damaged(4_000_000, 60_000, 1_000, |seed| small_order(5, seed));
}

#[test]
fn damaged_orders_are_answered_alike() {
    compare_damaged(4_100_000, 2_000, 50, |seed| any_order(3, seed));
}

#[test]
fn a_t_outside_its_range_is_refused_alike() {
    for_seeds(4_150_000, 300, |seed| {
        for periods in [0, 513, 514, 1_024, u32::MAX] {
            let file = file_with(periods, &any_tariff(seed));
            assert_eq!(read_order(&file), Err(PERIODS));
            compare_all(&file, seed);
        }
    });
}

/// Any bytes at all, as short as none.
#[test]
fn any_bytes_are_answered_alike() {
    for_seeds(4_200_000, 20_000, |seed| {
        let length = seed.between(0, 80) as usize;
        let bytes = lent(length, seed, |bits| (bits % 3) as u8);
        compare_all(&bytes, seed);
    });
}
