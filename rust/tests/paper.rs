//! Tests of the package itself: the paper's lettered figures, every quick way against the plain one, both files, the
//! meter, the check of a plan, the depth from the end, the causes of a depth and the refusals. A failing random test
//! names its seed.

use metqoraz::inputs::{
    any_tariff, bucket, corner_tariff, damaged, for_small_depths, random_tariff, small_tariff, trace,
};
use metqoraz::inputs::{Seed, Shape, SHAPES};
use metqoraz::paper::bucket::{carries, trial, Trial};
use metqoraz::paper::causes::{explain, explain_line, Cause, Explained};
use metqoraz::paper::check::{check, check_by_trying, check_line, two_files, Verdict};
use metqoraz::paper::depth::{depth_at, depth_by_trying};
use metqoraz::paper::from_end::{depth_by_needs, depth_from_end, depth_line, turned};
use metqoraz::paper::meter::{offer, open, Meter};
use metqoraz::paper::order::{read_order, trace_of, write_order};
use metqoraz::paper::plan::{read_plan, write_plan};
use metqoraz::paper::series::{series, series_by_trying, series_plain};
use metqoraz::paper::sheet::{megabits, refusal_line, sheet, single_line, trial_line};
use metqoraz::paper::single::{single, single_by_trying, single_by_walk, Priced};
use metqoraz::paper::terms::{Bucket, Plan, Record, Tariff};
use metqoraz::paper::walk::depth_by_walk;
use metqoraz::paper::Answer;
use std::cell::Cell;
use std::panic::{catch_unwind, AssertUnwindSafe};

const TRACE: [u16; 3] = [4, 8, 2];
const TARIFF: Tariff =
    Tariff { rate_price: 2, depth_price: 1, fee: 4, p: 1, q: 2, rate_cap: 4_095, depth_cap: 1_000_000 };
const TARIFF_G: Tariff = Tariff { p: 0, q: 1, rate_cap: 5, depth_cap: 10, ..TARIFF };

const fn pair(rate: u32, depth: u32) -> Bucket {
    Bucket { rate, depth }
}

fn plan(cost: u64, runs: &[(u32, u32, u32)]) -> Plan {
    let records = runs.iter().map(|&(periods, rate, depth)| Record { periods, bucket: pair(rate, depth) });
    Plan { cost, records: records.collect() }
}

/// Runs the check for each seed from `base` on, and names the seed that it panics with.
fn for_seeds(base: u64, count: u64, check: impl Fn(&mut Seed)) {
    for number in base..base + count {
        let checked = catch_unwind(AssertUnwindSafe(|| check(&mut Seed(number))));
        assert!(checked.is_ok(), "failing seed: {number}");
    }
}

/// A trace of any shape, of 1 to `longest` periods.
fn any_trace(longest: u32, seed: &mut Seed) -> Vec<u16> {
    let periods = seed.between(1, longest) as usize;
    trace(seed.pick(SHAPES), periods, seed)
}

/// A trace of 1 to `longest` periods and of demands that small tariffs can carry.
fn tiny_trace(longest: u32, seed: &mut Seed) -> Vec<u16> {
    let periods = seed.between(1, longest) as usize;
    trace(Shape::Tiny, periods, seed)
}

// The lettered figures.

#[test]
fn lettered_depths() {
    let depths = [4, 5, 6].map(|rate| depth_at(&TRACE, rate, &TARIFF));
    assert_eq!(depths, [Ok(8), Ok(4), Ok(2)], "A");
    let capped = [4, 3].map(|depth_cap| depth_at(&TRACE, 5, &Tariff { depth_cap, ..TARIFF }));
    assert_eq!(capped, [Ok(4), Err(7)], "B");
}

#[test]
fn lettered_singles() {
    assert_eq!(single(&TRACE, &TARIFF), Ok(Priced { bucket: pair(5, 4), cost: 46 }), "C");
    let dearer = depth_at(&TRACE, 6, &TARIFF).map(|depth| (2 * 6 + depth) * 3 + 4);
    assert_eq!(dearer, Ok(46), "C, rate 6");
    let tariff = Tariff { p: 2, q: 3, rate_price: 7, depth_price: 5, fee: 0, ..TARIFF };
    assert_eq!(single(&[3], &tariff), Ok(Priced { bucket: pair(3, 0), cost: 21 }), "D");
    let costs = [0, 1, 2].map(|rate| depth_at(&[3], rate, &tariff).map(|depth| 7 * rate + 5 * depth));
    assert_eq!(costs, [Ok(25), Ok(22), Ok(24)], "D, rates 0, 1, 2");
    assert_eq!(single(&[0], &TARIFF), Ok(Priced { bucket: pair(0, 0), cost: 4 }), "I");
}

#[test]
fn lettered_series() {
    for way in [series_plain, series_by_trying, |trace: &[u16], tariff: &Tariff| series(trace, tariff, 3)] {
        let ten = Tariff { fee: 10, ..TARIFF };
        assert_eq!(way(&TRACE, &ten), Ok(plan(52, &[(3, 5, 4)])), "E");
        let three = Tariff { fee: 3, ..TARIFF };
        assert_eq!(way(&TRACE, &three), Ok(plan(37, &[(1, 0, 8), (1, 0, 16), (1, 0, 4)])), "F");
        assert_eq!(way(&[2, 8], &TARIFF_G), Ok(plan(30, &[(2, 5, 3)])), "G");
        assert_eq!(way(&[8], &TARIFF_G), Err(7), "G, period 2 alone");
        assert_eq!(way(&[8, 2], &TARIFF_G), Err(7), "H");
        assert_eq!(way(&[0], &TARIFF), Ok(plan(4, &[(1, 0, 0)])), "I");
    }
}

#[test]
fn lettered_meter_and_trial() {
    let mut meter = open(pair(5, 4), 1, 2).unwrap();
    for demand in [4, 8, 2, 9] {
        assert_eq!(offer(&mut meter, demand), Ok(()), "J");
    }
    let ended = Meter { rate: 5, depth: 4, p: 1, q: 2, tokens: 0, periods: 4, sent: 22, over: 1, lost: 0 };
    assert_eq!(meter, ended, "J");
    assert_eq!(trial(pair(5, 3), 1, 2, &TRACE), Ok(Trial { spare: -1, over: 1 }), "K");
}

#[test]
fn lettered_print() {
    assert_eq!([-500, 500, 0, -1_500].map(megabits), ["-0.500", "0.500", "0.000", "-1.500"], "L");
    assert_eq!([-1, 1, 999, 1_000].map(megabits), ["-0.001", "0.001", "0.999", "1.000"]);
    assert_eq!(megabits(i64::MAX), "9223372036854775.807");
    assert_eq!(megabits(i64::MIN), "-9223372036854775.808");
}

#[test]
fn printed_lines() {
    let order = write_order(&TARIFF, &TRACE).unwrap();
    assert_eq!(sheet(&order), "plan 3 2 40\n1 2 0.005 0.004 0.000\n3 3 0.000 0.004 0.000\n");
    assert_eq!(single_line(&order), "single 0.005 0.004 46\n");
    assert_eq!(trial_line(&order, pair(5, 3)), "trial -0.001 0.001\n");
    assert_eq!(trial_line(&order, pair(4_096, 3)), "refused 5\n");
    assert_eq!(trial_line(&order[1..], pair(4_096, 3)), "refused 2\n");
    let none = write_order(&TARIFF_G, &[8, 2]).unwrap();
    assert_eq!([sheet(&none), single_line(&none)], [refusal_line(7), refusal_line(7)]);
    assert_eq!([sheet(&[]), single_line(&[]), trial_line(&[], pair(0, 0))], ["refused 1\n"; 3]);
}

// The quick ways against the plain ones.

#[test]
fn depth_by_halving_is_depth_by_trying() {
    for_seeds(1_000, 20_000, |seed| {
        let (tariff, trace) = (small_tariff(seed), tiny_trace(12, seed));
        for rate in 0..=tariff.rate_cap {
            let tried = depth_by_trying(&trace, rate, &tariff);
            assert_eq!(depth_at(&trace, rate, &tariff), tried);
            assert_eq!(depth_by_walk(&trace, rate, &tariff), tried);
        }
    });
}

#[test]
fn a_deeper_bucket_carries_what_a_flatter_one_does() {
    for_seeds(2_000, 5_000, |seed| {
        let (tariff, trace) = (small_tariff(seed), tiny_trace(12, seed));
        let rate = seed.between(0, 9);
        let carried: Vec<bool> = (0..=40).map(|depth| carries(pair(rate, depth), tariff.p, tariff.q, &trace)).collect();
        assert!(carried.is_sorted(), "{carried:?}");
    });
}

#[test]
fn walk_is_simulation() {
    for_seeds(3_000, 30_000, |seed| {
        let (tariff, trace) = (any_tariff(seed), any_trace(64, seed));
        for _ in 0..3 {
            let rate = seed.between(0, tariff.rate_cap);
            assert_eq!(depth_by_walk(&trace, rate, &tariff), depth_at(&trace, rate, &tariff));
        }
    });
}

#[test]
fn walk_is_simulation_on_the_longest_traces() {
    for_seeds(4_000, 700, |seed| {
        let tariff = seed.pick([random_tariff, corner_tariff])(seed);
        let trace = trace(seed.pick(SHAPES), 512, seed);
        for rate in [0, tariff.rate_cap, seed.between(0, tariff.rate_cap), seed.of_any_size(tariff.rate_cap)] {
            assert_eq!(depth_by_walk(&trace, rate, &tariff), depth_at(&trace, rate, &tariff));
        }
    });
}

#[test]
fn single_is_single_by_trying() {
    for_seeds(5_000, 30_000, |seed| {
        let (tariff, trace) = (small_tariff(seed), tiny_trace(8, seed));
        let tried = single_by_trying(&trace, &tariff);
        assert_eq!(single(&trace, &tariff), tried);
        assert_eq!(single_by_walk(&trace, &tariff), tried);
    });
}

#[test]
fn single_by_walk_is_single() {
    for_seeds(6_000, 1_000, |seed| {
        let (tariff, trace) = (any_tariff(seed), any_trace(100, seed));
        assert_eq!(single_by_walk(&trace, &tariff), single(&trace, &tariff));
    });
}

#[test]
fn series_is_series_by_trying() {
    let (planned, refused) = (Cell::new(0), Cell::new(0));
    for_seeds(7_000, 40_000, |seed| {
        let (tariff, trace) = (small_tariff(seed), tiny_trace(8, seed));
        let tried = series_by_trying(&trace, &tariff);
        let counted = if tried.is_ok() { &planned } else { &refused };
        counted.set(counted.get() + 1);
        assert_eq!(series_plain(&trace, &tariff), tried);
    });
    assert!(planned.get() > 10_000 && refused.get() > 5_000, "{planned:?} planned, {refused:?} refused");
}

#[test]
fn series_without_prices_or_starting_tokens_is_series_by_trying() {
    for_seeds(8_000, 20_000, |seed| {
        let mut figures = small_tariff(seed).figures();
        figures[seed.place(4)] = 0;
        let mut tariff = Tariff::from_figures(figures);
        if seed.once_in(2) {
            (tariff.rate_price, tariff.depth_price) = (0, 0);
        }
        let trace = tiny_trace(8, seed);
        assert_eq!(series_plain(&trace, &tariff), series_by_trying(&trace, &tariff));
    });
}

#[test]
fn series_of_large_demands_is_series_by_trying() {
    for_seeds(9_000, 1_000, |seed| {
        let mut tariff = any_tariff(seed);
        tariff.rate_cap = tariff.rate_cap.min(200);
        let trace = any_trace(6, seed);
        assert_eq!(series_plain(&trace, &tariff), series_by_trying(&trace, &tariff));
    });
}

#[test]
fn long_series_is_carried_at_its_cost() {
    for_seeds(10_000, 200, |seed| {
        let mut tariff = seed.pick([random_tariff, corner_tariff])(seed);
        tariff.rate_cap = tariff.rate_cap.min(300);
        let trace = any_trace(200, seed);
        let Ok(plan) = series(&trace, &tariff, trace.len()) else { return };
        let (mut rest, mut cost) = (trace.as_slice(), 0);
        for record in &plan.records {
            let (run, after) = rest.split_at(record.periods as usize);
            let priced = single(run, &tariff).unwrap();
            assert_eq!(priced.bucket, record.bucket);
            assert!(carries(record.bucket, tariff.p, tariff.q, run));
            (rest, cost) = (after, cost + priced.cost);
        }
        assert_eq!((rest.len(), cost), (0, plan.cost));
        assert_eq!(write_plan(trace.len() as u32, &plan).map(|file| file.len()), Ok(32 + 12 * plan.records.len()));
    });
}

#[test]
fn the_longest_series_is_planned() {
    let trace = trace(Shape::Feature, 512, &mut Seed(11_000));
    let tariff = Tariff { rate_price: 200, depth_price: 3, fee: 2_000_000, ..TARIFF };
    let plan = series_plain(&trace, &tariff).unwrap();
    assert_eq!(plan.records.iter().map(|record| record.periods).sum::<u32>(), 512);
    assert!(plan.records.len() > 1 && plan.cost < single(&trace, &tariff).unwrap().cost);
}

// The two files.

/// A plan that keeps the rules of its file, and its number of periods.
fn valid_plan(seed: &mut Seed) -> (u32, Plan) {
    let periods = seed.between(1, 512);
    let mut plan = plan(seed.bits() % 100_000_000_000_001, &[]);
    let mut left = periods;
    while left > 0 {
        let run = if seed.once_in(9) { left } else { seed.between(1, left.min(30)) };
        let bucket = pair(seed.between(0, 4_095), seed.between(0, 1_000_000));
        plan.records.push(Record { periods: run, bucket });
        left -= run;
    }
    (periods, plan)
}

#[test]
fn files_have_the_bytes_of_the_paper() {
    let order = write_order(&TARIFF, &TRACE).unwrap();
    let words = [1, 3, 20, 48, 54, 2, 1, 4, 1, 2, 4_095, 1_000_000];
    let head: Vec<u8> = words.iter().flat_map(|word: &u32| word.to_le_bytes()).collect();
    assert_eq!(order, [&head[..], &[4, 0, 8, 0, 2, 0]].concat());
    let file = write_plan(3, &plan(0x0102_0304_0506, &[(2, 5, 4), (1, 0, 4)])).unwrap();
    let words = [2, 3, 2, 24, 32, 56, 0x0304_0506, 0x0102, 2, 5, 4, 1, 0, 4];
    assert_eq!(file, words.iter().flat_map(|word: &u32| word.to_le_bytes()).collect::<Vec<u8>>());
}

#[test]
fn a_written_order_reads_back() {
    for_seeds(12_000, 3_000, |seed| {
        let (tariff, trace) = (any_tariff(seed), any_trace(512, seed));
        let file = write_order(&tariff, &trace).unwrap();
        assert_eq!(read_order(&file), Ok((trace.len() as u32, tariff)));
        assert_eq!(trace_of(&file), trace);
    });
}

#[test]
fn a_written_plan_reads_back() {
    for_seeds(13_000, 3_000, |seed| {
        let (periods, plan) = valid_plan(seed);
        let file = write_plan(periods, &plan).unwrap();
        assert_eq!(read_plan(&file), Ok((periods, plan)));
    });
}

/// Counts each answer under its refusal's number, 0 for figures.
fn count(counts: &[Cell<u32>; 10], number: u32) {
    let cell = &counts[number as usize];
    cell.set(cell.get() + 1);
}

#[test]
fn a_damaged_order_is_refused_or_is_the_written_one() {
    let counts = [const { Cell::new(0) }; 10];
    for_seeds(14_000, 30_000, |seed| {
        let (tariff, trace) = (any_tariff(seed), any_trace(40, seed));
        let file = damaged(&write_order(&tariff, &trace).unwrap(), seed);
        let read = read_order(&file);
        count(&counts, read.err().unwrap_or(0));
        let demands = trace_of(&file);
        match read {
            Ok((periods, tariff)) => {
                assert_eq!(periods as usize, demands.len());
                assert_eq!(write_order(&tariff, &demands), Ok(file));
            }
            Err(number) => {
                assert!(demands.is_empty());
                let line = refusal_line(number);
                assert_eq!([sheet(&file), single_line(&file), trial_line(&file, bucket(seed))], [line.as_str(); 3]);
            }
        }
    });
    assert!(counts[..6].iter().all(|cell| cell.get() > 100), "{counts:?}");
}

#[test]
fn a_damaged_plan_is_refused_or_is_the_written_one() {
    let counts = [const { Cell::new(0) }; 10];
    for_seeds(15_000, 30_000, |seed| {
        let (periods, plan) = valid_plan(seed);
        let file = damaged(&write_plan(periods, &plan).unwrap(), seed);
        let read = read_plan(&file);
        count(&counts, read.as_ref().err().copied().unwrap_or(0));
        if let Ok((periods, plan)) = read {
            assert_eq!(write_plan(periods, &plan), Ok(file));
        }
    });
    assert!(counts[..6].iter().all(|cell| cell.get() > 100), "{counts:?}");
}

#[test]
fn any_bytes_get_an_answer() {
    for_seeds(16_000, 30_000, |seed| {
        let length = seed.of_any_size(1_200);
        let mut file: Vec<u8> = (0..length).map(|_| seed.bits() as u8).collect();
        if let Some(kind) = file.first_chunk_mut::<4>() {
            *kind = seed.between(1, 2).to_le_bytes();
        }
        assert!(sheet(&file).starts_with("refused "));
        assert!(read_plan(&file).is_err());
        assert!(trace_of(&file).is_empty());
    });
}

// Refusals, the lowest number first.

/// The file with the words at these places set.
fn with_words(file: &[u8], words: &[(usize, u32)]) -> Vec<u8> {
    let mut file = file.to_vec();
    for &(place, word) in words {
        file[4 * place..4 * place + 4].copy_from_slice(&word.to_le_bytes());
    }
    file
}

#[test]
fn order_refusals() {
    let file = write_order(&TARIFF, &TRACE).unwrap();
    let refusal = |words: &[(usize, u32)]| read_order(&with_words(&file, words)).unwrap_err();
    assert_eq!(read_order(&file[..19]), Err(1));
    assert_eq!([20, 47, 48, 53].map(|length| read_order(&file[..length]).unwrap_err()), [4; 4]);
    assert_eq!(read_order(&[&file[..], &[0]].concat()), Err(4));
    assert_eq!(read_order(&with_words(&file[..20], &[(1, 0)])), Err(3));
    assert_eq!(refusal(&[(0, 2), (1, 0), (2, 0), (9, 0)]), 2);
    assert_eq!([0, 513, 1 << 31, u32::MAX].map(|periods| refusal(&[(1, periods), (2, 0), (9, 0)])), [3; 4]);
    assert_eq!([(1, 2), (2, 21), (3, 0), (4, 53)].map(|word| refusal(&[word, (9, 0)])), [4; 4]);
    let broken =
        [(5, 65_536), (6, 65_536), (7, 1_000_000_001), (8, 3), (9, 0), (9, 1_001), (10, 4_096), (11, 1_000_001)];
    assert_eq!(broken.map(|word| refusal(&[word])), [5; 8]);
    let ends = [(5, 65_535), (6, 65_535), (7, 1_000_000_000), (8, 2), (9, 1_000), (10, 4_095), (11, 1_000_000)];
    assert!(ends.iter().all(|&word| read_order(&with_words(&file, &[word])).is_ok()));
}

#[test]
fn plan_refusals() {
    let file = write_plan(3, &plan(40, &[(2, 5, 4), (1, 0, 4)])).unwrap();
    let refusal = |words: &[(usize, u32)]| read_plan(&with_words(&file, words)).unwrap_err();
    assert_eq!(read_plan(&file[..23]), Err(1));
    assert_eq!([24, 32, 55].map(|length| read_plan(&file[..length]).unwrap_err()), [4; 3]);
    assert_eq!(read_plan(&[&file[..], &[0]].concat()), Err(4));
    assert_eq!(refusal(&[(0, 1), (1, 0), (3, 0), (8, 0)]), 2);
    assert_eq!([(1, 0), (1, 1), (1, 513), (2, 0), (2, 4), (2, u32::MAX)].map(|word| refusal(&[word, (3, 0)])), [3; 6]);
    assert_eq!([(2, 1), (2, 3), (3, 23), (4, 33), (5, 57)].map(|word| refusal(&[word, (8, 0)])), [4; 5]);
    let broken = [(7, 23_284), (8, 0), (8, 1), (8, 3), (9, 4_096), (10, 1_000_001), (11, 0)];
    assert_eq!(broken.map(|word| refusal(&[word])), [5; 7]);
    assert_eq!(refusal(&[(8, 3), (11, 0)]), 5);
    assert_eq!(refusal(&[(8, u32::MAX), (11, 4)]), 5, "3 in 32 bits");
    let ends = [[(6, 276_447_232), (7, 23_283)], [(9, 4_095), (10, 1_000_000)]];
    assert_eq!(ends.map(|words| read_plan(&with_words(&file, &words)).is_ok()), [true; 2]);
    assert_eq!(refusal(&[(6, 276_447_233), (7, 23_283)]), 5);
}

#[test]
fn plan_writing_refusals() {
    let write = |periods, cost, runs: &[(u32, u32, u32)]| write_plan(periods, &plan(cost, runs));
    let limit = 100_000_000_000_000;
    assert!(write(1, limit, &[(1, 4_095, 1_000_000)]).is_ok());
    assert_eq!(write(0, limit + 1, &[]), Err(3));
    assert_eq!(write(513, limit + 1, &[(513, 0, 0)]), Err(3));
    assert_eq!(write(3, limit + 1, &[]), Err(3));
    assert_eq!(write(1, limit + 1, &[(1, 0, 0), (0, 0, 0)]), Err(3));
    assert_eq!(write(1, limit + 1, &[(1, 0, 0)]), Err(5));
    assert_eq!(write(3, 0, &[(3, 0, 0), (0, 0, 0)]), Err(5));
    assert_eq!(write(3, 0, &[(2, 0, 0)]), Err(5));
    assert_eq!(write(3, 0, &[(u32::MAX, 0, 0), (4, 0, 0)]), Err(5));
    assert_eq!(write(3, 0, &[(3, 4_096, 0)]), Err(5));
    assert_eq!(write(3, 0, &[(3, 0, 1_000_001)]), Err(5));
}

/// Every call that takes a trace and a tariff, with its figures left out.
fn answers(trace: &[u16], tariff: &Tariff) -> [Answer<()>; 12] {
    [
        depth_at(trace, 0, tariff).map(drop),
        depth_by_trying(trace, 0, tariff).map(drop),
        depth_by_walk(trace, 0, tariff).map(drop),
        depth_from_end(trace, 0, tariff).map(drop),
        depth_by_needs(trace, 0, tariff).map(drop),
        explain(trace, 0, tariff).map(drop),
        single(trace, tariff).map(drop),
        single_by_walk(trace, tariff).map(drop),
        single_by_trying(trace, tariff).map(drop),
        series(trace, tariff, 512).map(drop),
        series_plain(trace, tariff).map(drop),
        write_order(tariff, trace).map(drop),
    ]
}

#[test]
fn trace_and_tariff_refusals() {
    let small = Tariff { rate_cap: 2, depth_cap: 2, ..TARIFF };
    let broken = [(0, 65_536), (1, 65_536), (2, 1_000_000_001), (3, 3), (4, 0), (4, 1_001), (5, 4_096), (6, 1_000_001)];
    for (place, figure) in broken {
        let mut figures = small.figures();
        figures[place] = figure;
        let tariff = Tariff::from_figures(figures);
        assert_eq!(answers(&[0; 512], &tariff), [Err(5); 12], "{tariff:?}");
        assert_eq!(answers(&[0; 513], &tariff), [Err(3); 12]);
        assert_eq!(answers(&[], &tariff), [Err(3); 12]);
    }
    assert_eq!(answers(&[0; 512], &small), [Ok(()); 12]);
    assert_eq!(answers(&[0; 513], &small), [Err(3); 12]);
    assert_eq!(answers(&[9], &small)[..11], [Err(7); 11]);
}

#[test]
fn call_refusals() {
    let none = Tariff { rate_cap: 2, depth_cap: 0, ..TARIFF };
    for way in [depth_at, depth_from_end, depth_by_needs] {
        assert_eq!([0, 2, 3].map(|rate| way(&[9], rate, &none)), [Err(7), Err(7), Err(5)]);
        assert_eq!(way(&[], 3, &none), Err(3));
    }
    let wrong = Tariff { q: 0, ..none };
    assert_eq!(series(&[], &wrong, 0), Err(3));
    assert_eq!(series(&[9], &wrong, 0), Err(5));
    assert_eq!([0, 1].map(|room| series(&[9], &none, room)), [Err(6), Err(7)]);
    assert_eq!([2, 3].map(|room| series(&TRACE, &TARIFF, room).is_ok()), [false, true]);
    let wide = pair(4_095, 1_000_000);
    assert_eq!(trial(wide, 1, 1, &[u16::MAX; 512]), Ok(Trial { spare: -61_440, over: 30_457_280 }));
    let broken = [(pair(4_096, 0), 1, 1), (pair(0, 1_000_001), 1, 1), (wide, 1, 0), (wide, 2, 1), (wide, 0, 1_001)];
    for (bucket, p, q) in broken {
        assert_eq!([&[][..], &[0], &[0; 513]].map(|trace| trial(bucket, p, q, trace)), [Err(3), Err(5), Err(3)]);
        assert!(!carries(bucket, p, q, &[0]));
        assert_eq!(open(bucket, p, q), Err(5));
    }
}

// The meter.

#[test]
fn the_meter_is_the_trial() {
    for_seeds(17_000, 5_000, |seed| {
        let (tariff, trace, bucket) = (any_tariff(seed), any_trace(60, seed), bucket(seed));
        let tried = trial(bucket, tariff.p, tariff.q, &trace);
        let Ok(mut meter) = open(bucket, tariff.p, tariff.q) else {
            assert_eq!(tried, Err(5));
            return;
        };
        let start = meter.tokens;
        for &demand in &trace {
            assert_eq!(offer(&mut meter, demand), Ok(()));
        }
        let due: u64 = trace.iter().map(|&demand| u64::from(demand)).sum();
        let trial = tried.unwrap();
        assert_eq!((meter.over, meter.sent + meter.over), (trial.over, due));
        assert_eq!(trial.over == 0, trial.spare >= 0);
        assert_eq!(carries(bucket, tariff.p, tariff.q, &trace), trial.over == 0);
        assert_eq!(start + meter.rate * meter.periods, meter.sent + meter.lost + meter.tokens);
    });
}

#[test]
fn a_meter_takes_a_million_periods() {
    for demand in [0, u16::MAX] {
        let mut meter = open(pair(4_095, 1_000_000), 1, 1).unwrap();
        for _ in 0..1_000_000 {
            assert_eq!(offer(&mut meter, demand), Ok(()));
        }
        let full = meter;
        assert_eq!((offer(&mut meter, demand), meter), (Err(9), full));
        meter.lost += 1;
        let broken = meter;
        assert_eq!((offer(&mut meter, demand), meter), (Err(8), broken));
    }
}

#[test]
fn a_broken_meter_is_refused_and_unchanged() {
    let mut sound = open(pair(5, 4), 1, 2).unwrap();
    for demand in [4, 8, 2, 9] {
        assert_eq!(offer(&mut sound, demand), Ok(()));
    }
    let broken = [
        Meter { tokens: 1, ..sound },
        Meter { rate: 4_096, periods: 0, sent: 2, over: 0, ..sound },
        Meter { depth: 1_000_001, p: 0, sent: 20, ..sound },
        Meter { q: 0, ..sound },
        Meter { q: 1_001, p: 0, sent: 20, ..sound },
        Meter { p: 3, sent: 26, ..sound },
        Meter { tokens: 5, sent: 17, ..sound },
        Meter { periods: 1_000_001, sent: 5_000_007, ..sound },
        Meter { sent: 100_000_000_001, ..sound },
        Meter { over: 262_141, ..sound },
        Meter { over: u64::MAX, ..sound },
        Meter { sent: u64::MAX, lost: u64::MAX, tokens: u64::MAX, ..sound },
        Meter { p: u64::MAX, q: u64::MAX, rate: u64::MAX, periods: u64::MAX, depth: u64::MAX, ..sound },
    ];
    for record in broken {
        let mut offered = record;
        assert_eq!((offer(&mut offered, 1), offered), (Err(8), record));
    }
    let mut most = Meter { over: 262_140, ..sound };
    assert_eq!(offer(&mut most, 1), Ok(()), "over of 65,535 in each period");
}

// The check of a plan (02, job 1).

const LIMIT: u64 = 100_000_000_000_000;
const NO: Answer<Verdict> = Ok(Verdict::No);

const fn yes(excess: u64) -> Answer<Verdict> {
    Ok(Verdict::Yes(excess))
}

/// The file of a plan of one bucket.
fn one_bucket(periods: u32, (rate, depth): (u32, u32), cost: u64) -> Vec<u8> {
    write_plan(periods, &plan(cost, &[(periods, rate, depth)])).unwrap()
}

#[test]
fn plans_for_the_printed_order() {
    let order = write_order(&TARIFF, &TRACE).unwrap();
    let own = write_plan(3, &plan(40, &[(2, 5, 4), (1, 0, 4)])).unwrap();
    for way in [check, check_by_trying] {
        let one = |bucket, cost| way(&order, &one_bucket(3, bucket, cost));
        assert_eq!(way(&order, &own), yes(0));
        assert_eq!([one((5, 4), 46), one((6, 2), 46), one((5, 5), 49)], [yes(6), yes(6), yes(9)]);
        assert_eq!([0, 40, 45, 47, LIMIT].map(|cost| one((5, 4), cost)), [NO; 5]);
        assert_eq!(one((5, 3), 43), NO);
    }
}

#[test]
fn plans_at_the_caps() {
    let checked = |caps: (u32, u32), bucket| {
        let tariff = Tariff { rate_cap: caps.0, depth_cap: caps.1, ..TARIFF };
        check(&write_order(&tariff, &TRACE).unwrap(), &one_bucket(3, bucket, 46))
    };
    assert_eq!([(6, 2), (5, 4), (6, 1), (2, 6)].map(|caps| checked(caps, (6, 2))), [yes(6), NO, NO, NO]);
    assert_eq!([(5, 4), (6, 2), (5, 3), (4, 5)].map(|caps| checked(caps, (5, 4))), [yes(6), NO, NO, NO]);
}

#[test]
fn plans_for_rows_g_and_h() {
    let order = |trace| write_order(&TARIFF_G, trace).unwrap();
    let one = |trace, bucket, cost| check(&order(trace), &one_bucket(2, bucket, cost));
    assert_eq!([one(&[2, 8], (5, 3), 30), one(&[2, 8], (5, 4), 32)], [yes(0), yes(2)], "G");
    assert_eq!([one(&[8, 2], (5, 3), 30), one(&[8, 2], (5, 10), 44), one(&[8, 2], (8, 0), 36)], [NO; 3], "H");
    assert_eq!(check(&order(&[8, 2]), &one_bucket(1, (5, 3), 17)), Err(10), "H");
}

#[test]
fn check_refusals() {
    let order = write_order(&TARIFF, &TRACE).unwrap();
    let refusal = |plan: &[u8]| check(&order, plan).unwrap_err();
    let other = one_bucket(2, (5, 4), 32);
    assert_eq!(refusal(&other), 10);
    let words = [(0, 3), (2, 0), (3, 0), (9, 4_096)].map(|word| refusal(&with_words(&other, &[word])));
    assert_eq!(words, [2, 3, 4, 5], "the plan's own, then 10");
    assert_eq!([refusal(&[]), refusal(&other[..23]), refusal(&order)], [1, 1, 2]);
    let above = with_words(&one_bucket(3, (5, 4), LIMIT), &[(6, 276_447_233)]);
    assert_eq!(refusal(&above), 5);
    let orders = [(0, 2), (1, 0), (3, 0), (9, 0)].map(|word| with_words(&order, &[word]));
    for plan in [&[][..], &other, &above, &order] {
        assert_eq!(orders.each_ref().map(|order| check(order, plan)), [2, 3, 4, 5].map(Err), "the order's first");
        assert_eq!(check(&order[..19], plan), Err(1));
    }
}

#[test]
fn lines_of_a_check() {
    let order = write_order(&TARIFF, &TRACE).unwrap();
    let line = |order: &[u8], plan: &[u8]| check_line(&[order, plan].concat());
    let plan = one_bucket(3, (5, 4), 46);
    assert_eq!(two_files(&[&order[..], &plan].concat()), (&order[..], &plan[..]));
    assert_eq!(
        line(&order, &plan),
        "yes 6
"
    );
    assert_eq!(
        line(&order, &one_bucket(3, (5, 3), 43)),
        "no
"
    );
    assert_eq!(
        line(&order, &one_bucket(2, (5, 4), 32)),
        "refused 10
"
    );
    let lengths = [10, 19, 20, 53, 55, 99, 4_000_000_000];
    assert_eq!(
        lengths.map(|length| line(&with_words(&order, &[(4, length)]), &plan)),
        ["refused 4
"; 7]
    );
    assert_eq!(
        [line(&order[..19], &[]), line(&order[..20], &[])],
        [
            "refused 1
",
            "refused 4
"
        ]
    );
    assert_eq!(
        [line(&[], &[]), line(&order, &[]), line(&order, &plan[..23])],
        ["refused 1
"; 3]
    );
    assert_eq!(
        [line(&order, &plan[..43]), line(&order, &[&plan[..], &[0]].concat())],
        ["refused 4
"; 2]
    );
    assert_eq!(
        [line(&plan, &order), line(&order, &order)],
        ["refused 2
"; 2]
    );
}

// The depth from the end (02, job 2).

#[test]
fn figures_from_the_end() {
    for way in [depth_from_end, depth_by_needs] {
        assert_eq!([4, 5, 6].map(|rate| way(&[2, 8, 4], rate, &TARIFF)), [Ok(8), Ok(4), Ok(2)]);
        let capped = [4, 3].map(|depth_cap| way(&[2, 8, 4], 5, &Tariff { depth_cap, ..TARIFF }));
        assert_eq!(capped, [Ok(4), Err(7)]);
        let two = |tariff| [[2, 8], [8, 2]].map(|list| way(&list, 5, tariff));
        assert_eq!([two(&TARIFF), two(&Tariff { p: 0, q: 1, ..TARIFF })], [[Ok(6), Ok(3)], [Err(7), Ok(3)]]);
    }
}

#[test]
fn every_small_depth_from_the_end_is_that_found_by_trying() {
    for_small_depths(|list, rate, tariff| {
        let tried = depth_by_trying(&turned(list), rate, tariff);
        assert_eq!([depth_from_end(list, rate, tariff), depth_by_needs(list, rate, tariff)], [tried; 2]);
    });
}

#[test]
fn needs_are_simulation() {
    for_seeds(18_000, 30_000, |seed| {
        let (tariff, list) = if seed.once_in(2) {
            (small_tariff(seed), tiny_trace(12, seed))
        } else {
            (any_tariff(seed), any_trace(64, seed))
        };
        for rate in [0, tariff.rate_cap, tariff.rate_cap + 1, seed.between(0, tariff.rate_cap)] {
            assert_eq!(depth_by_needs(&list, rate, &tariff), depth_from_end(&list, rate, &tariff));
        }
    });
}

#[test]
fn needs_are_simulation_on_the_longest_lists() {
    for_seeds(19_000, 700, |seed| {
        let tariff = seed.pick([random_tariff, corner_tariff])(seed);
        let list = trace(seed.pick(SHAPES), 512, seed);
        for rate in [0, tariff.rate_cap, seed.between(0, tariff.rate_cap), seed.of_any_size(tariff.rate_cap)] {
            assert_eq!(depth_by_needs(&list, rate, &tariff), depth_from_end(&list, rate, &tariff));
        }
    });
}

#[test]
fn lines_of_a_depth() {
    let order = write_order(&TARIFF, &TRACE).unwrap();
    let lines = |order: &[u8], rate| [depth_at, depth_from_end].map(|way| depth_line(order, rate, way));
    assert_eq!(lines(&order, 5), ["depth 0.004\n", "depth 0.003\n"]);
    assert_eq!(lines(&order, 4_096), ["refused 5\n"; 2]);
    assert_eq!([lines(&[], 5), lines(&order[..53], 5)], [["refused 1\n"; 2], ["refused 4\n"; 2]]);
    let empty = write_order(&Tariff { p: 0, q: 1, ..TARIFF }, &[8, 2]).unwrap();
    assert_eq!(lines(&empty, 5), ["refused 7\n", "depth 0.003\n"]);
}

// The causes of a depth (02, job 3).

const NOTHING: Answer<Explained> = Ok(Explained { depth: 0, cause: Cause::Nothing });

const fn opening(depth: u32, v: usize) -> Answer<Explained> {
    Ok(Explained { depth, cause: Cause::Opening { v } })
}

const fn stretch(depth: u32, u: usize, v: usize) -> Answer<Explained> {
    Ok(Explained { depth, cause: Cause::Stretch { u, v } })
}

#[test]
fn figures_of_causes() {
    let openings = [0, 4, 5].map(|rate| explain(&TRACE, rate, &TARIFF));
    assert_eq!(openings, [opening(28, 3), opening(8, 2), opening(4, 2)]);
    let rest = [6, 7, 8].map(|rate| explain(&TRACE, rate, &TARIFF));
    assert_eq!(rest, [stretch(2, 2, 2), stretch(1, 2, 2), NOTHING]);
    let full = |trace: &[u16]| explain(trace, 5, &Tariff { p: 1, q: 1, ..TARIFF });
    assert_eq!([full(&[0, 5, 7]), full(&[0, 5, 5, 7, 7])], [stretch(2, 2, 3), stretch(4, 2, 5)]);
    assert_eq!([full(&[1, 7, 7, 1, 9]), full(&[5, 5, 7])], [stretch(4, 2, 3), opening(2, 3)]);
    assert_eq!([full(&[7, 5, 5]), full(&[7, 3, 7])], [opening(2, 1); 2], "equal needs");
    let empty = |trace: &[u16]| explain(trace, 5, &Tariff { p: 0, q: 1, ..TARIFF });
    assert_eq!([empty(&[2, 8]), empty(&[8, 2])], [stretch(3, 2, 2), Err(7)]);
}

/// What a cause says, against the bucket of a depth one smaller: fresh, it first discards in the last period of the
/// opening or the stretch; and it does not carry the stretch even if it is full where that begins.
fn holds_of_the_bucket(trace: &[u16], rate: u32, tariff: &Tariff) {
    let explained = explain(trace, rate, tariff);
    assert_eq!(explained.map(|explained| explained.depth), depth_at(trace, rate, tariff));
    let Ok(Explained { depth, cause }) = explained else { return };
    let smaller = pair(rate, depth.saturating_sub(1));
    let carried = |periods: usize| periods == 0 || carries(smaller, tariff.p, tariff.q, &trace[..periods]);
    match cause {
        Cause::Nothing => assert_eq!(depth, 0),
        Cause::Opening { v } => assert!(depth > 0 && tariff.p > 0 && carried(v - 1) && !carried(v)),
        Cause::Stretch { u, v } => {
            assert!(depth > 0 && u >= 2 && carried(v - 1) && !carried(v));
            assert!(!carries(smaller, 1, 1, &trace[u - 1..v]));
        }
    }
}

#[test]
fn every_small_cause_holds_of_the_bucket() {
    for_small_depths(holds_of_the_bucket);
}

#[test]
fn causes_hold_of_the_bucket() {
    for_seeds(20_000, 20_000, |seed| {
        let (tariff, trace) = (any_tariff(seed), any_trace(64, seed));
        for rate in [0, seed.between(0, tariff.rate_cap), seed.of_any_size(tariff.rate_cap)] {
            holds_of_the_bucket(&trace, rate, &tariff);
        }
    });
}

#[test]
fn lines_of_a_cause() {
    let order = write_order(&TARIFF, &TRACE).unwrap();
    let lines = ["depth 0.004 opening 2\n", "depth 0.002 stretch 2 2\n", "depth 0.000 nothing\n", "refused 5\n"];
    assert_eq!([5, 6, 8, 4_096].map(|rate| explain_line(&order, rate)), lines);
    assert_eq!([explain_line(&[], 5), explain_line(&order[..53], 5)], ["refused 1\n", "refused 4\n"]);
    let empty = write_order(&Tariff { p: 0, q: 1, ..TARIFF }, &[8, 2]).unwrap();
    assert_eq!(explain_line(&empty, 5), "refused 7\n");
}
