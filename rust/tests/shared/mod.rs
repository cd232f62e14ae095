//! What the comparisons share: runs over seeds, orders and rates of many kinds, both depth calls, what is lent to a
//! call, and what a program prints.

// Each test program uses its own part of this.
#![allow(dead_code)]

use metqoraz::calls::{self, Depth, Rate};
use metqoraz::inputs::{any_tariff, corner_tariff, damaged, small_tariff, trace, Seed, Shape, SHAPES};
use metqoraz::paper::depth::depth_at;
use metqoraz::paper::from_end::{depth_by_needs, turned};
use metqoraz::paper::order::{read_order, trace_of, write_order};
use metqoraz::paper::terms::{Tariff, DEPTH_MAX, RATE_MAX};
use metqoraz::paper::{Answer, LIST};
use std::cell::RefCell;
use std::collections::BTreeMap;
use std::fmt::Debug;
use std::io::Write;
use std::panic::{catch_unwind, AssertUnwindSafe};
use std::process::{Command, Stdio};

/// Runs the check for each seed from `base` on, and names the seed that it panics with.
pub fn for_seeds(base: u64, count: u64, check: impl Fn(&mut Seed)) {
    for number in base..base + count {
        let checked = catch_unwind(AssertUnwindSafe(|| check(&mut Seed(number))));
        assert!(checked.is_ok(), "failing seed: {number}");
    }
}

/// A trace of 1 to `longest` periods, often of just so many, of any shape, or of demands at the ends of their range.
pub fn any_trace(longest: u32, seed: &mut Seed) -> Vec<u16> {
    let least = if seed.once_in(8) { longest } else { 1 };
    let periods = seed.between(least, longest) as usize;
    if seed.once_in(6) {
        return (0..periods).map(|_| seed.pick([0, 1, 4_095, 4_096, u16::MAX])).collect();
    }
    trace(seed.pick(SHAPES), periods, seed)
}

/// A small tariff and a trace that it may well carry; many costs are equal.
pub fn small_order(longest: u32, seed: &mut Seed) -> (Tariff, Vec<u16>) {
    let periods = seed.between(1, longest) as usize;
    let tariff = small_tariff(seed);
    (tariff, trace(Shape::Tiny, periods, seed))
}

/// A tariff and a trace of any kind, with an eye to those at the ends of their ranges.
pub fn any_order(longest: u32, seed: &mut Seed) -> (Tariff, Vec<u16>) {
    match seed.between(0, 3) {
        0 => small_order(longest, seed),
        1 => (corner_tariff(seed), any_trace(longest, seed)),
        _ => (any_tariff(seed), any_trace(longest, seed)),
    }
}

/// The file of an order whose figures are all in range.
pub fn file_of(order: &(Tariff, Vec<u16>)) -> Vec<u8> {
    write_order(&order.0, &order.1).expect("the figures are in range")
}

/// The bytes of an order whose header says T, with as many demands as that asks for.
pub fn file_with(periods: u32, tariff: &Tariff) -> Vec<u8> {
    let header = [1, periods, 20, 48, 48u32.wrapping_add(periods.wrapping_mul(2))];
    let words = header.into_iter().chain(tariff.figures());
    let mut file: Vec<u8> = words.flat_map(u32::to_le_bytes).collect();
    file.resize(48 + 2 * periods.min(2_000) as usize, 3);
    file
}

/// The file of an order, as often damaged as not.
pub fn any_file(longest: u32, seed: &mut Seed) -> Vec<u8> {
    let file = file_of(&any_order(longest, seed));
    if seed.once_in(2) {
        damaged(&file, seed)
    } else {
        file
    }
}

/// A rate inside the cap, at it, just above it, or any.
pub fn any_rate(cap: u32, seed: &mut Seed) -> u32 {
    let (inside, any) = (seed.between(0, cap), seed.bits() as u32);
    seed.pick([0, inside, inside, cap, cap.saturating_add(1), any])
}

/// The same for the order in a file, whole or damaged.
pub fn any_rate_for(file: &[u8], seed: &mut Seed) -> u32 {
    any_rate(read_order(file).map_or(0, |(_, tariff)| tariff.rate_cap), seed)
}

/// An order and a rate about the mean of its demands, with wide caps and a fresh bucket that is half full at the most:
/// the depth turns on which demands come first.
pub fn balanced(longest: u32, seed: &mut Seed) -> (Tariff, Vec<u16>, u32) {
    let tariff = any_tariff(seed);
    let depth_cap = seed.pick([DEPTH_MAX, DEPTH_MAX, 50_000]);
    let tariff = Tariff { p: tariff.p / 2, rate_cap: RATE_MAX, depth_cap, ..tariff };
    let limit = 1 + seed.of_any_size(2 * RATE_MAX);
    let demands: Vec<u16> = any_trace(longest, seed).iter().map(|&demand| (u32::from(demand) % limit) as u16).collect();
    let mean = demands.iter().copied().map(u32::from).sum::<u32>() / demands.len() as u32;
    (tariff, demands, seed.between(mean / 2, mean * 3 / 2).min(RATE_MAX))
}

/// Every list of one demand and, first or last, another, at the ends of their ranges.
fn lists_at_the_ends() -> Vec<Vec<u16>> {
    let demands = [0, 1, 4_095, 4_096, u16::MAX];
    let pairs = demands.into_iter().flat_map(|demand| demands.map(|other| (demand, other)));
    let lists = pairs.flat_map(|(demand, other)| {
        [1, 2, 511, 512].map(|periods| {
            let mut list = vec![demand; periods];
            list[0] = other;
            list
        })
    });
    lists.flat_map(|list| [turned(&list), list]).collect()
}

/// Runs the check for orders of such lists, with factor and caps at the ends of their ranges, and for rates about the
/// cap.
pub fn for_the_ends(check: impl Fn(&[u8], u32)) {
    let factors = [(0, 1), (1, 1), (0, 1_000), (1, 1_000), (999, 1_000), (1_000, 1_000)];
    let capped = |(p, q)| {
        let caps =
            [0, 1, RATE_MAX].into_iter().flat_map(|rate_cap| [0, 1, DEPTH_MAX].map(|depth_cap| (rate_cap, depth_cap)));
        caps.map(move |(rate_cap, depth_cap)| Tariff { p, q, rate_cap, depth_cap, ..printed_case().0 })
    };
    let lists = lists_at_the_ends();
    for tariff in factors.into_iter().flat_map(capped) {
        for list in &lists {
            let file = file_of(&(tariff, list.clone()));
            [0, tariff.rate_cap, tariff.rate_cap + 1, u32::MAX].into_iter().for_each(|rate| check(&file, rate));
        }
    }
}

/// The file with each of its bits changed, and cut to each length or with up to two bytes more.
pub fn every_change(file: &[u8]) -> Vec<Vec<u8>> {
    let with_bit = |bit: usize| {
        let mut bytes = file.to_vec();
        bytes[bit / 8] ^= 1 << (bit % 8);
        bytes
    };
    let with_length = |length| {
        let mut bytes = file.to_vec();
        bytes.resize(length, 0);
        bytes
    };
    (0..8 * file.len()).map(with_bit).chain((0..file.len() + 3).map(with_length)).collect()
}

/// What a call of the paper gives for an order's bytes: the refusal of reading them, or what the tariff and the trace
/// read give.
pub fn on_order<T>(file: &[u8], call: impl FnOnce(&[u16], &Tariff) -> Answer<T>) -> Answer<T> {
    let (_, tariff) = read_order(file)?;
    call(&trace_of(file), &tariff)
}

/// An order's bytes with the demands turned round; bytes that are no order stay as they are.
fn turned_order(file: &[u8]) -> Vec<u8> {
    on_order(file, |list, tariff| write_order(tariff, &turned(list))).unwrap_or_else(|_| file.to_vec())
}

/// The depth of an order's bytes, forward and from the end: the first against simulation; the second against the needs,
/// and against the product's first on the order turned round.
pub fn compare_depths(file: &[u8], rate: u32) -> [Answer<u32>; 2] {
    let forward = on_order(file, |trace, tariff| depth_at(trace, rate, tariff));
    same(&calls::depth(file, Rate(rate)), &forward.map(Depth));
    let from_end = on_order(file, |list, tariff| depth_by_needs(list, rate, tariff));
    let product = calls::depth_from_end(file, Rate(rate));
    same(&product, &from_end.map(Depth));
    same(&product, &calls::depth(&turned_order(file), Rate(rate)));
    [forward, from_end]
}

/// Entries that a call is lent, each of them any number.
pub fn lent<T>(entries: usize, seed: &mut Seed, entry: impl Fn(u64) -> T) -> Vec<T> {
    (0..entries).map(|_| entry(seed.bits())).collect()
}

/// What a list holds after its front is filled; all of it stays where nothing is to fill it.
pub fn with_front<T: Clone>(before: &[T], front: &[T]) -> Vec<T> {
    [front, &before[front.len()..]].concat()
}

/// A call that fills the front of lent bytes, with the room given: what it answers, and every byte afterwards.
pub fn compare_in(room: usize, right: &Answer<Vec<u8>>, seed: &mut Seed, call: impl Fn(&mut [u8]) -> Answer<usize>) {
    let before = lent(room, seed, |bits| bits as u8);
    let mut bytes = before.clone();
    let answer = call(&mut bytes);
    match right {
        Ok(front) if front.len() <= room => same(&(answer, bytes), &(Ok(front.len()), with_front(&before, front))),
        Ok(_) => same(&(answer, bytes), &(Err(LIST), before)),
        Err(number) => same(&(answer, bytes), &(Err(*number), before)),
    }
}

/// The same with just enough room, with more, with a byte too few, with many too few, and with none.
pub fn compare_filled(right: &Answer<Vec<u8>>, seed: &mut Seed, call: impl Fn(&mut [u8]) -> Answer<usize>) {
    let length = right.as_ref().map_or(40, Vec::len);
    let rooms = [length, length + seed.between(1, 50) as usize, length.saturating_sub(1), seed.place(length), 0];
    for room in rooms {
        compare_in(room, right, seed, &call);
    }
}

/// The product's answer and the paper's.
#[track_caller]
pub fn same<T: PartialEq + Debug>(product: &T, paper: &T) {
    assert_eq!(product, paper, "the product on the left, the paper on the right");
}

/// The case that the paper prints.
pub fn printed_case() -> (Tariff, Vec<u16>) {
    let tariff = Tariff { rate_price: 2, depth_price: 1, fee: 4, p: 1, q: 2, rate_cap: 4_095, depth_cap: 1_000_000 };
    (tariff, vec![4, 8, 2])
}

/// How often each answer was compared. It shows that the inputs reach them.
pub struct Tally<K>(RefCell<BTreeMap<K, u32>>);

impl<K> Default for Tally<K> {
    fn default() -> Tally<K> {
        Tally(RefCell::default())
    }
}

impl Tally<u32> {
    /// Figures under 0, refusals under their numbers.
    pub fn count<T>(&self, answer: &Answer<T>) {
        self.meet(answer.as_ref().err().copied().unwrap_or(0));
    }
}

impl<K: Ord + Debug> Tally<K> {
    pub fn meet(&self, answer: K) {
        *self.0.borrow_mut().entry(answer).or_default() += 1;
    }

    /// Exactly these answers were met, each of them so many times at least. They stand in their order.
    pub fn expect(&self, answers: &[K], least: u32) {
        let met = self.0.borrow();
        assert!(met.keys().eq(answers) && met.values().all(|&times| times >= least), "answers met: {met:?}");
    }
}

/// What a text says: the bytes, or the number of its refusal line.
pub fn said(text: &str) -> Answer<Vec<u8>> {
    match text.strip_prefix("refused ") {
        None => Ok(text.as_bytes().to_vec()),
        Some(number) => Err(number.trim_end().parse().expect("a refusal line has a number")),
    }
}

/// What a program prints for its words and its standard input.
pub fn printed(program: &str, words: &[&str], input: &[u8]) -> String {
    let path = format!("{}/../target/bin/{program}", env!("CARGO_MANIFEST_DIR"));
    let piped = Command::new(path).args(words).stdin(Stdio::piped()).stdout(Stdio::piped()).spawn();
    let mut child = piped.unwrap_or_else(|_| panic!("the program is not there: run `tools/build {program}` first"));
    child.stdin.take().expect("the input is piped").write_all(input).expect("the input is read");
    let output = child.wait_with_output().expect("the program ends");
    String::from_utf8(output.stdout).expect("the program prints text")
}
