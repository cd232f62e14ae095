//! Inputs made from a seed: traces, tariffs, buckets and damaged files. The same seed always makes the same inputs. And
//! all small inputs of a depth.

use crate::paper::terms::{Bucket, Tariff, DEPTH_MAX, FEE_MAX, PRICE_MAX, Q_MAX, RATE_MAX};

/// A stream of random numbers (splitmix64).
#[derive(Clone, Debug)]
pub struct Seed(pub u64);

impl Seed {
    /// The next 64 random bits.
    pub fn bits(&mut self) -> u64 {
        self.0 = self.0.wrapping_add(0x9E37_79B9_7F4A_7C15);
        let mixed = (self.0 ^ (self.0 >> 30)).wrapping_mul(0xBF58_476D_1CE4_E5B9);
        let mixed = (mixed ^ (mixed >> 27)).wrapping_mul(0x94D0_49BB_1331_11EB);
        mixed ^ (mixed >> 31)
    }

    /// A number from `low` to `high`, both included.
    pub fn between(&mut self, low: u32, high: u32) -> u32 {
        let count = u64::from(high.saturating_sub(low)) + 1;
        low + (self.bits() % count) as u32
    }

    /// A place in a list of that many entries; 0 for an empty one.
    pub fn place(&mut self, entries: usize) -> usize {
        (self.bits() % entries.max(1) as u64) as usize
    }

    /// True once in so many times.
    pub fn once_in(&mut self, times: u32) -> bool {
        self.between(1, times) == 1
    }

    /// One of the choices.
    pub fn pick<T: Copy, const N: usize>(&mut self, choices: [T; N]) -> T {
        choices[self.place(N)]
    }

    /// A number up to `high` of any size: as often of one digit as of many.
    pub fn of_any_size(&mut self, high: u32) -> u32 {
        let bits = self.between(0, u32::BITS - high.leading_zeros());
        self.between(0, high.min(((1u64 << bits) - 1) as u32))
    }
}

/// The kinds of traces.
#[derive(Clone, Copy, Debug, PartialEq, Eq)]
pub enum Shape {
    /// A recorded programme: scenes, groups of 12 pictures, occasional peaks.
    Feature,
    /// One demand in every period.
    Flat,
    /// Any demands at all.
    Noise,
    /// Small demands with rare ones of 65,535.
    Spiky,
    /// Levels that last for some periods.
    Steps,
    /// Nothing due.
    Zero,
    /// Demands of 0 to 9, so that costs are often equal.
    Tiny,
}

pub const SHAPES: [Shape; 7] =
    [Shape::Feature, Shape::Flat, Shape::Noise, Shape::Spiky, Shape::Steps, Shape::Zero, Shape::Tiny];

/// A trace of that shape and length.
pub fn trace(shape: Shape, periods: usize, seed: &mut Seed) -> Vec<u16> {
    match shape {
        Shape::Feature => feature(periods, seed),
        Shape::Flat => vec![seed.of_any_size(65_535) as u16; periods],
        Shape::Noise => demands_up_to(65_535, periods, seed),
        Shape::Spiky => spiky(periods, seed),
        Shape::Steps => steps(periods, seed),
        Shape::Zero => vec![0; periods],
        Shape::Tiny => demands_up_to(9, periods, seed),
    }
}

fn demands_up_to(high: u32, periods: usize, seed: &mut Seed) -> Vec<u16> {
    (0..periods).map(|_| seed.between(0, high) as u16).collect()
}

fn spiky(periods: usize, seed: &mut Seed) -> Vec<u16> {
    let mut demands = demands_up_to(300, periods, seed);
    for demand in &mut demands {
        if seed.once_in(40) {
            *demand = u16::MAX;
        }
    }
    demands
}

/// Scenes of 10 to 60 periods with a base level each; in each group of 12 pictures the first is tall and every fourth
/// is middling; now and then a picture is a peak.
fn feature(periods: usize, seed: &mut Seed) -> Vec<u16> {
    let (mut left, mut base) = (0, 0);
    let picture = |period: usize| {
        if left == 0 {
            left = seed.between(10, 60);
            base = seed.between(200, 2_400);
        }
        left -= 1;
        let height = match period % 12 {
            0 => 400,
            place if place % 4 == 0 => 200,
            _ => 100,
        };
        let peak = if seed.once_in(80) { 3 } else { 1 };
        let percent = height * seed.between(85, 115) / 100 * peak;
        (base * percent / 100).min(65_535) as u16
    };
    (0..periods).map(picture).collect()
}

/// Levels of any size that last for 1 to 40 periods each.
fn steps(periods: usize, seed: &mut Seed) -> Vec<u16> {
    let mut demands = Vec::with_capacity(periods);
    while demands.len() < periods {
        let level = seed.of_any_size(65_535) as u16;
        let end = (demands.len() + seed.between(1, 40) as usize).min(periods);
        demands.resize(end, level);
    }
    demands
}

/// A tariff of any kind.
pub fn any_tariff(seed: &mut Seed) -> Tariff {
    match seed.between(0, 2) {
        0 => random_tariff(seed),
        1 => small_tariff(seed),
        _ => corner_tariff(seed),
    }
}

/// Figures anywhere in their ranges, the prices and the fee of any size.
pub fn random_tariff(seed: &mut Seed) -> Tariff {
    let q = seed.between(1, Q_MAX);
    Tariff {
        rate_price: seed.of_any_size(PRICE_MAX),
        depth_price: seed.of_any_size(PRICE_MAX),
        fee: seed.of_any_size(FEE_MAX),
        p: seed.between(0, q),
        q,
        rate_cap: seed.between(0, RATE_MAX),
        depth_cap: seed.between(0, DEPTH_MAX),
    }
}

/// Figures of a few units, so that many costs are equal and every pair inside the caps can be tried.
pub fn small_tariff(seed: &mut Seed) -> Tariff {
    let q = seed.between(1, 5);
    Tariff {
        rate_price: seed.between(0, 4),
        depth_price: seed.between(0, 4),
        fee: seed.between(0, 12),
        p: seed.between(0, q),
        q,
        rate_cap: seed.between(0, 9),
        depth_cap: seed.between(0, 25),
    }
}

/// Figures at the ends of their ranges.
pub fn corner_tariff(seed: &mut Seed) -> Tariff {
    let q = seed.pick([1, 2, Q_MAX - 1, Q_MAX]);
    Tariff {
        rate_price: seed.pick([0, 1, PRICE_MAX]),
        depth_price: seed.pick([0, 1, PRICE_MAX]),
        fee: seed.pick([0, 1, FEE_MAX]),
        p: seed.pick([0, 1, q - 1, q]),
        q,
        rate_cap: seed.pick([0, 1, RATE_MAX]),
        depth_cap: seed.pick([0, 1, DEPTH_MAX, DEPTH_MAX]),
    }
}

/// Every trace of 1 to `longest` periods with demands up to `high`.
fn every_trace(longest: u32, high: u16) -> Vec<Vec<u16>> {
    let (mut all, mut longer) = (Vec::new(), vec![Vec::new()]);
    for _ in 0..longest {
        let with_demands = |front: &Vec<u16>| (0..=high).map(|demand| [&front[..], &[demand]].concat()).collect();
        longer = longer.iter().flat_map::<Vec<_>, _>(with_demands).collect();
        all.extend_from_slice(&longer);
    }
    all
}

/// Runs the check for every trace of 1 to 5 periods with demands up to 3, at each rate up to one above a rate cap of 3,
/// with each factor of a q up to 3 and with depth caps from 0 to 45, the greatest depth of all.
pub fn for_small_depths(check: impl Fn(&[u16], u32, &Tariff)) {
    let factors = (1..=3).flat_map(|q| (0..=q).map(move |p| (p, q)));
    let tariffs = factors.flat_map(|(p, q)| {
        let capped = |depth_cap| Tariff { rate_price: 2, depth_price: 1, fee: 4, p, q, rate_cap: 3, depth_cap };
        [0, 1, 2, 4, 9, 45].map(capped)
    });
    let traces = every_trace(5, 3);
    for tariff in tariffs {
        for trace in &traces {
            (0..=tariff.rate_cap + 1).for_each(|rate| check(trace, rate, &tariff));
        }
    }
}

/// A bucket for a trial or a meter; now and then one of its figures is out of range.
pub fn bucket(seed: &mut Seed) -> Bucket {
    let mut bucket = Bucket { rate: seed.of_any_size(RATE_MAX), depth: seed.of_any_size(DEPTH_MAX) };
    match seed.between(0, 19) {
        0 => bucket.rate = seed.pick([RATE_MAX + 1, u32::MAX]),
        1 => bucket.depth = seed.pick([DEPTH_MAX + 1, u32::MAX]),
        _ => {}
    }
    bucket
}

/// A file with a damage chosen by the seed. Some damages leave a valid file, and a few leave the very same one.
pub fn damaged(file: &[u8], seed: &mut Seed) -> Vec<u8> {
    let mut bytes = file.to_vec();
    let words = bytes.len() / 4;
    match seed.between(0, 8) {
        0 => bytes.clear(),
        1 => bytes.truncate(seed.place(file.len())),
        2 => bytes.extend((0..seed.between(1, 9)).map(|_| seed.bits() as u8)),
        3 => flip_byte(&mut bytes, seed),
        4 => set_word(&mut bytes, 0, seed.between(0, 4)),
        5 => change_word(&mut bytes, seed.place(words.min(6)), seed),
        6 => change_word(&mut bytes, seed.place(words.min(12)), seed),
        7 => change_word(&mut bytes, seed.place(words), seed),
        _ => swap_words(&mut bytes, seed.place(words), seed.place(words)),
    }
    bytes
}

fn flip_byte(bytes: &mut [u8], seed: &mut Seed) {
    let at = seed.place(bytes.len());
    if let Some(byte) = bytes.get_mut(at) {
        *byte ^= seed.between(1, 255) as u8;
    }
}

/// The word at that place becomes 0, the greatest, its neighbour, or any other.
fn change_word(bytes: &mut [u8], word: usize, seed: &mut Seed) {
    let Some(old) = word_at(bytes, word) else { return };
    let any = seed.bits() as u32;
    let small = seed.of_any_size(u32::MAX);
    set_word(bytes, word, seed.pick([0, u32::MAX, old.wrapping_add(1), old.wrapping_sub(1), any, small]));
}

fn swap_words(bytes: &mut [u8], one: usize, other: usize) {
    if let (Some(first), Some(second)) = (word_at(bytes, one), word_at(bytes, other)) {
        set_word(bytes, one, second);
        set_word(bytes, other, first);
    }
}

fn word_at(bytes: &[u8], word: usize) -> Option<u32> {
    let (words, _) = bytes.as_chunks();
    words.get(word).map(|&word| u32::from_le_bytes(word))
}

fn set_word(bytes: &mut [u8], word: usize, value: u32) {
    let (words, _) = bytes.as_chunks_mut();
    if let Some(place) = words.get_mut(word) {
        *place = value.to_le_bytes();
    }
}
