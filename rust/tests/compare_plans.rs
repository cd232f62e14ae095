//! The product against the paper: the cost of the series, the plan file booked, and plan files read, whole and damaged.

mod shared;

use metqoraz::calls::{self, Depth, PlanFigures, Rate};
use metqoraz::inputs::{corner_tariff, damaged, random_tariff, trace, Seed, Shape, SHAPES};
use metqoraz::paper::order::{read_order, trace_of};
use metqoraz::paper::plan::{read_plan, write_plan};
use metqoraz::paper::series::{series, series_by_trying, series_plain};
use metqoraz::paper::sheet::sheet;
use metqoraz::paper::terms::{Bucket, Plan, Record, Tariff, COST_MAX, DEPTH_MAX, RATE_MAX};
use metqoraz::paper::{Answer, FIGURE, LIST};
use shared::{
    any_file, compare_filled, file_of, for_seeds, lent, on_order, said, same, small_order, with_front, Tally,
};

/// The plan file of the paper's series for an order.
fn booked(file: &[u8]) -> Answer<Vec<u8>> {
    let (periods, tariff) = read_order(file)?;
    let trace = trace_of(file);
    write_plan(periods, &series(&trace, &tariff, trace.len())?)
}

/// A plan of the paper's as the product hands one back.
fn handed_back(periods: u32, plan: &Plan) -> calls::Plan {
    let record =
        |x: &Record| calls::Record { periods: x.periods, rate: Rate(x.bucket.rate), depth: Depth(x.bucket.depth) };
    calls::Plan { periods, cost: plan.cost, records: plan.records.iter().map(record).collect() }
}

/// The plan in the file that is booked for an order.
fn booked_plan(file: &[u8]) -> Answer<calls::Plan> {
    calls::book(file).and_then(|plan| calls::plan(&plan))
}

/// The paper's plan for an order of so many periods.
fn plan_of(demands: &[u16], plan: &Answer<Plan>) -> Answer<calls::Plan> {
    plan.as_ref().map(|plan| handed_back(demands.len() as u32, plan)).map_err(|&number| number)
}

/// The cost alone.
fn cost_of(plan: &Answer<Plan>) -> Answer<u64> {
    plan.as_ref().map(|plan| plan.cost).map_err(|&number| number)
}

fn compare_series(file: &[u8]) -> Answer<Plan> {
    let right = on_order(file, series_plain);
    same(&calls::series(file), &cost_of(&right));
    same(&calls::book(file), &booked(file));
    same(&booked_plan(file), &plan_of(&trace_of(file), &right));
    right
}

#[test]
fn small_series_are_those_found_by_trying() {
    let tally = Tally::default();
    for_seeds(3_000_000, 40_000, |seed| {
        let (tariff, demands) = small_order(8, seed);
        let file = file_of(&(tariff, demands.clone()));
        let tried = series_by_trying(&demands, &tariff);
        same(&calls::series(&file), &cost_of(&tried));
        same(&booked_plan(&file), &plan_of(&demands, &tried));
        tally.count(&tried);
    });
    tally.expect(&[0, 7], 10_000);
}

#[test]
fn series_and_their_files_are_alike() {
    let tally = Tally::default();
    for_seeds(3_100_000, 6_000, |seed| tally.count(&compare_series(&any_file(10, seed))));
    tally.expect(&[0, 1, 2, 3, 4, 5, 7], 50);
}

#[test]
fn small_plan_files_are_alike_in_every_room() {
    for_seeds(3_200_000, 40_000, |seed| {
        let file = file_of(&small_order(10, seed));
        compare_filled(&booked(&file), seed, |plan| calls::book_into(&file, plan));
    });
}

#[test]
fn series_at_equal_prices_are_alike() {
    let tally = Tally::default();
    for_seeds(3_300_000, 5_000, |seed| {
        let (tariff, demands) = small_order(24, seed);
        let free = Tariff { rate_price: 0, fee: seed.between(0, 2), p: seed.between(0, tariff.q), ..tariff };
        let flat = trace(seed.pick([Shape::Flat, Shape::Zero, Shape::Tiny]), demands.len(), seed);
        let demands = seed.pick([&demands, &flat]).clone();
        let deep = seed.pick([25, 1_000, DEPTH_MAX]);
        tally.count(&compare_series(&file_of(&(Tariff { depth_cap: deep, ..free }, demands))));
    });
    tally.expect(&[0, 7], 500);
}

#[test]
fn series_of_some_length_are_alike() {
    let tally = Tally::default();
    for_seeds(3_400_000, 120, |seed| {
        let tariff = Tariff { rate_cap: seed.between(0, 200), ..random_tariff(seed) };
        let periods = seed.between(100, 512) as usize;
        let demands = trace(seed.pick(SHAPES), periods, seed);
        tally.count(&compare_series(&file_of(&(tariff, demands))));
    });
    tally.expect(&[0, 7], 5);
}

/// Rates enough for several looks at sixteen together, and fees of every size, so that runs of every length are cut and
/// walks stop early.
#[test]
fn series_whose_walks_stop_are_alike() {
    let tally = Tally::default();
    for_seeds(3_600_000, 2_500, |seed| {
        let tariff = Tariff { rate_cap: seed.between(0, 400), ..seed.pick([random_tariff, corner_tariff])(seed) };
        let prices = Tariff { rate_price: seed.of_any_size(99), depth_price: seed.of_any_size(9), ..tariff };
        let cheap = Tariff { fee: seed.of_any_size(1_000_000), ..prices };
        let periods = seed.between(9, 70) as usize;
        let demands = trace(seed.pick(SHAPES), periods, seed).iter().map(|demand| demand % 900).collect();
        tally.count(&compare_series(&file_of(&(seed.pick([tariff, cheap, cheap]), demands))));
    });
    tally.expect(&[0, 7], 50);
}

/// Orders of 512 periods with a full rate cap, where the plain programme takes a second or more:
/// each seed makes one call.
#[test]
fn the_longest_series_are_alike() {
    for_seeds(3_500_000, 12, |seed| {
        let call = seed.0 % 3;
        let kind = seed.pick([random_tariff, corner_tariff]);
        let tariff = Tariff { rate_cap: RATE_MAX, depth_cap: DEPTH_MAX, ..kind(seed) };
        let shape = seed.pick([Shape::Feature, Shape::Noise, Shape::Steps, Shape::Spiky]);
        let file = file_of(&(tariff, trace(shape, 512, seed)));
        match call {
            0 => same(&calls::series(&file), &on_order(&file, series_plain).map(|plan| plan.cost)),
            1 => same(&calls::book(&file), &booked(&file)),
            _ => same(&calls::sheet(&file).map(String::into_bytes), &said(&sheet(&file))),
        }
    });
}

/// A plan that keeps every rule, of no order in particular.
fn any_plan(seed: &mut Seed) -> (u32, Plan) {
    let longest = seed.pick([1, 3, 20, 512]);
    let count = seed.between(1, longest);
    let mut runs = vec![1; count as usize];
    for _ in 0..seed.between(0, 512 - count) {
        let place = seed.place(runs.len());
        runs[place] += 1;
    }
    let periods = runs.iter().sum();
    let mut record = |periods| {
        let bucket = Bucket { rate: seed.of_any_size(RATE_MAX), depth: seed.of_any_size(DEPTH_MAX) };
        Record { periods, bucket }
    };
    let records = runs.into_iter().map(&mut record).collect();
    let cost = u64::from(seed.of_any_size(1 << 31)) * u64::from(seed.of_any_size(40_000));
    (periods, Plan { cost, records })
}

/// Three lists of the room given, or longer, the plan read into their fronts, and its two figures.
fn compare_read(file: &[u8], room: usize, seed: &mut Seed) {
    let short = seed.place(3);
    let before: [Vec<u32>; 3] = [0, 1, 2].map(|list| {
        let entries = if list == short { room } else { room + seed.place(5) };
        lent(entries, seed, |bits| bits as u32)
    });
    let held = PlanFigures { periods: seed.bits() as u32, buckets: seed.bits() as u32 };
    let mut figures = held;
    let [mut runs, rates, depths] = before.clone();
    let mut rates: Vec<Rate> = rates.into_iter().map(Rate).collect();
    let mut depths: Vec<Depth> = depths.into_iter().map(Depth).collect();
    let answer = calls::plan_into(file, &mut figures, &mut runs, &mut rates, &mut depths);
    let lists = [runs, rates.iter().map(|rate| rate.0).collect(), depths.iter().map(|depth| depth.0).collect()];
    let fits = |plan: &(u32, Plan)| plan.1.records.len() <= room;
    let right = read_plan(file).and_then(|plan| if fits(&plan) { Ok(plan) } else { Err(LIST) });
    let (said, fronts): (_, [Vec<u32>; 3]) = match &right {
        Err(_) => (held, Default::default()),
        Ok((periods, plan)) => (
            PlanFigures { periods: *periods, buckets: plan.records.len() as u32 },
            [|x: &Record| x.periods, |x: &Record| x.bucket.rate, |x: &Record| x.bucket.depth]
                .map(|figure| plan.records.iter().map(figure).collect()),
        ),
    };
    let filled = [0, 1, 2].map(|list| with_front(&before[list], &fronts[list]));
    same(&(answer, figures, lists), &(right.map(|(_, plan)| plan.cost), said, filled));
}

fn compare_reads(file: &[u8], count: usize, seed: &mut Seed) -> Answer<Plan> {
    for room in [count, count + 1, count.saturating_sub(1), seed.place(count), 0, 512] {
        compare_read(file, room, seed);
    }
    let right = read_plan(file);
    same(&calls::plan(file), &right.clone().map(|(periods, plan)| handed_back(periods, &plan)));
    right.map(|(_, plan)| plan)
}

#[test]
fn plans_are_read_alike() {
    for_seeds(3_600_000, 20_000, |seed| {
        let (periods, plan) = any_plan(seed);
        let file = write_plan(periods, &plan).expect("the figures are in range");
        compare_reads(&file, plan.records.len(), seed).expect("the figures are in range");
    });
}

#[test]
fn damaged_plans_are_read_alike() {
    let tally = Tally::default();
    for_seeds(3_700_000, 100_000, |seed| {
        let (periods, plan) = any_plan(seed);
        let file = write_plan(periods, &plan).expect("the figures are in range");
        let bytes = damaged(&file, seed);
        tally.count(&compare_reads(&bytes, plan.records.len(), seed));
    });
    tally.expect(&[0, 1, 2, 3, 4, 5], 1_000);
}

#[test]
fn costs_at_their_limit_are_read_alike() {
    for_seeds(3_850_000, 1_000, |seed| {
        let (periods, plan) = any_plan(seed);
        let mut file = write_plan(periods, &Plan { cost: COST_MAX, ..plan }).expect("the figures are in range");
        for cost in [0, COST_MAX - 1, COST_MAX, COST_MAX + 1, u64::MAX] {
            file[24..32].copy_from_slice(&cost.to_le_bytes());
            assert_eq!(calls::plan(&file).map(|plan| plan.cost), if cost > COST_MAX { Err(FIGURE) } else { Ok(cost) });
            compare_read(&file, 512, seed);
        }
    });
}

/// Every figure of a plan at the ends of its range, one at a time.
#[test]
fn every_word_of_a_plan_counts_alike() {
    for_seeds(3_900_000, 500, |seed| {
        let (_, mut plan) = any_plan(seed);
        plan.records.truncate(4);
        let periods = plan.records.iter().map(|record| record.periods).sum();
        let file = write_plan(periods, &plan).expect("the figures are in range");
        let words: [u32; 12] = [0, 1, 2, 24, 32, 512, 513, 4_095, 4_096, DEPTH_MAX, DEPTH_MAX + 1, u32::MAX];
        for at in (0..file.len()).step_by(4) {
            for word in words {
                let mut bytes = file.clone();
                bytes[at..at + 4].copy_from_slice(&word.to_le_bytes());
                compare_read(&bytes, 4, seed);
            }
        }
    });
}
