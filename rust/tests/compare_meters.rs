//! The product against the paper: meters over lists of offers of any length, and every refusal.

mod shared;

use metqoraz::calls::{self, Depth, Rate, Totals};
use metqoraz::inputs::{bucket, Seed};
use metqoraz::paper::meter::{offer, open, Meter};
use metqoraz::paper::terms::Bucket;
use metqoraz::paper::{Answer, FIGURE, FULL, LIST};
use shared::{any_trace, for_seeds, lent, same, with_front, Tally};

/// The paper's meter after a list of offers: 5, then 6 for a list of totals under five, then what an offer refuses.
fn metered(bucket: Bucket, p: u32, q: u32, offers: &[u16], room: usize) -> Answer<Meter> {
    let mut meter = open(bucket, p, q)?;
    if room < 5 {
        return Err(LIST);
    }
    for &demand in offers {
        offer(&mut meter, demand)?;
    }
    Ok(meter)
}

fn totals_of(meter: &Meter) -> [u64; 5] {
    [meter.tokens, meter.periods, meter.sent, meter.over, meter.lost]
}

fn compare_meter(bucket: Bucket, factor: (u32, u32), offers: &[u16], room: usize, seed: &mut Seed) -> Answer<Meter> {
    let before = lent(room, seed, |bits| bits);
    let mut totals = before.clone();
    let answer = calls::meter_into(Rate(bucket.rate), Depth(bucket.depth), factor, offers, &mut totals);
    let right = metered(bucket, factor.0, factor.1, offers, room);
    let front = right.as_ref().map_or(Vec::new(), |meter| totals_of(meter).to_vec());
    same(&(answer, totals), &(right.map(|meter| meter.periods), with_front(&before, &front)));
    right
}

/// A factor, now and then out of its range or at an end of it.
fn any_factor(seed: &mut Seed) -> (u32, u32) {
    let q = seed.between(1, 1_000);
    let p = seed.between(0, q);
    seed.pick([(p, q), (p, q), (p, q), (0, q), (q, q), (q + 1, q), (0, 0), (p, 1_001), (1_000, 1_000), (u32::MAX, q)])
}

#[test]
fn meters_are_alike() {
    let tally = Tally::default();
    for_seeds(1_000_000, 200_000, |seed| {
        let factor = any_factor(seed);
        let offers = any_trace(60, seed);
        let room = seed.pick([5, 5, 5, 6, 9, 4, 0]);
        tally.count(&compare_meter(bucket(seed), factor, &offers, room, seed));
    });
    tally.expect(&[0, 5, 6], 20_000);
}

#[test]
fn small_meters_are_alike() {
    for_seeds(1_300_000, 200_000, |seed| {
        let q = seed.between(1, 5);
        let factor = (seed.between(0, q), q);
        let offers: Vec<u16> = (0..seed.between(0, 12)).map(|_| seed.between(0, 9) as u16).collect();
        let small = Bucket { rate: seed.between(0, 9), depth: seed.between(0, 25) };
        compare_meter(small, factor, &offers, 5, seed).expect("the figures are in range");
    });
}

#[test]
fn a_meter_takes_a_million_periods() {
    for_seeds(1_600_000, 20, |seed| {
        let factor = (seed.between(0, 7), 7);
        let steady = Bucket { rate: seed.of_any_size(4_095), depth: seed.of_any_size(1_000_000) };
        let high = seed.pick([0, 9, 8_000, 65_535]);
        let offers: Vec<u16> = (0..1_000_001).map(|_| seed.between(0, high) as u16).collect();
        let whole = compare_meter(steady, factor, &offers[..1_000_000], 5, seed);
        assert_eq!(whole.map(|meter| meter.periods), Ok(1_000_000));
        assert_eq!(compare_meter(steady, factor, &offers, 5, seed), Err(FULL));
        assert_eq!(compare_meter(steady, factor, &offers, 4, seed), Err(LIST));
        assert_eq!(compare_meter(Bucket { rate: 4_096, ..steady }, factor, &offers, 4, seed), Err(FIGURE));
    });
}

#[test]
fn the_lettered_meter() {
    let ended = Totals { tokens: 0, periods: 4, sent: 22, over: 1, lost: 0 };
    assert_eq!(calls::meter(Rate(5), Depth(4), (1, 2), &[4, 8, 2, 9]), Ok(ended), "J");
    let fresh = Totals { tokens: 2, periods: 0, sent: 0, over: 0, lost: 0 };
    assert_eq!(calls::meter(Rate(5), Depth(4), (1, 2), &[]), Ok(fresh));
}
