//! The product against the paper: plans checked for orders, the own ones, those of other houses, and files of every
//! damage. What the excess number holds afterwards is compared too.

mod shared;

use metqoraz::calls;
use metqoraz::inputs::{damaged, random_tariff, small_tariff, trace, Seed, Shape, SHAPES};
use metqoraz::paper::check::{
    carries_runs, check, check_by_trying, check_line, check_with, keeps_caps, true_cost, Verdict,
};
use metqoraz::paper::depth::depth_at;
use metqoraz::paper::order::{read_order, trace_of};
use metqoraz::paper::plan::{read_plan, write_plan};
use metqoraz::paper::series::series_plain;
use metqoraz::paper::terms::{Bucket, Plan, Record, Tariff, COST_MAX, DEPTH_MAX, RATE_MAX};
use metqoraz::paper::{Answer, FOREIGN, NO_PLAN, SHORT, UNEQUAL};
use shared::{any_order, file_of, for_seeds, on_order, printed, same, small_order, Tally};

/// What came of a check. A no is told by the one rule that the plan breaks.
#[derive(Clone, Copy, Debug, PartialEq, Eq, PartialOrd, Ord)]
enum Outcome {
    Least,
    Dearer,
    NotCarried,
    RateAboveCap,
    DepthAboveCap,
    FalseCost,
    SeveralFaults,
    Refused(u32),
}

use Outcome::*;

const VERDICTS: [Outcome; 7] = [Least, Dearer, NotCarried, RateAboveCap, DepthAboveCap, FalseCost, SeveralFaults];
const READING: [Outcome; 5] = [Refused(1), Refused(2), Refused(3), Refused(4), Refused(5)];

fn outcome(order: &[u8], plan: &[u8], answer: Answer<Verdict>) -> Outcome {
    match answer {
        Ok(Verdict::Yes(0)) => Least,
        Ok(Verdict::Yes(_)) => Dearer,
        Ok(Verdict::No) => fault(order, plan).expect("both are read where there is a verdict"),
        Err(number) => Refused(number),
    }
}

/// The rule that a plan breaks for an order.
fn fault(order: &[u8], plan: &[u8]) -> Answer<Outcome> {
    let (_, tariff) = read_order(order)?;
    let (_, plan) = read_plan(plan)?;
    let any = |broken: fn(&Bucket, &Tariff) -> bool| plan.records.iter().any(|run| broken(&run.bucket, &tariff));
    let rules = [
        (NotCarried, !carries_runs(&plan, &tariff, &trace_of(order))),
        (RateAboveCap, any(|bucket, tariff| bucket.rate > tariff.rate_cap)),
        (DepthAboveCap, any(|bucket, tariff| bucket.depth > tariff.depth_cap)),
        (FalseCost, plan.cost != true_cost(&plan, &tariff)),
    ];
    let broken: Vec<Outcome> = rules.into_iter().filter(|rule| rule.1).map(|rule| rule.0).collect();
    Ok(if let [only] = broken[..] { only } else { SeveralFaults })
}

/// The answer and the number lent, which held something else before, against what they should be.
fn compare_to(right: Answer<Verdict>, order: &[u8], plan: &[u8], seed: &mut Seed) -> Outcome {
    let held = seed.bits();
    let mut excess = held;
    let yes = calls::check_into(order, plan, &mut excess);
    let (sign, left) = match right {
        Ok(Verdict::Yes(above)) => (Ok(true), above),
        Ok(Verdict::No) => (Ok(false), held),
        Err(number) => (Err(number), held),
    };
    same(&(yes, excess), &(sign, left));
    outcome(order, plan, right)
}

fn compare(order: &[u8], plan: &[u8], seed: &mut Seed) -> Outcome {
    compare_to(check(order, plan), order, plan, seed)
}

/// The periods cut into runs: one, single periods, or any.
fn any_runs(periods: u32, seed: &mut Seed) -> Vec<u32> {
    if seed.once_in(4) {
        return vec![periods];
    }
    let longest = seed.pick([1, 3, 20, periods]);
    let (mut runs, mut left) = (Vec::new(), periods);
    while left > 0 {
        let run = seed.between(1, longest).min(left);
        runs.push(run);
        left -= run;
    }
    runs
}

/// A bucket inside the caps that carries a run, if there is one: at any rate, with the smallest depth or a deeper one.
fn carrying(run: &[u16], tariff: &Tariff, seed: &mut Seed) -> Bucket {
    let (any, small) = (seed.between(0, tariff.rate_cap), seed.of_any_size(tariff.rate_cap));
    let rate = seed.pick([any, any, small, tariff.rate_cap]);
    let Ok(depth) = depth_at(run, rate, tariff) else {
        return Bucket { rate: tariff.rate_cap, depth: tariff.depth_cap };
    };
    let slack = seed.of_any_size(tariff.depth_cap - depth);
    Bucket { rate, depth: seed.pick([depth, depth, depth + slack, tariff.depth_cap]) }
}

/// A plan of any runs with such a bucket for each, and its true cost.
fn honest(demands: &[u16], tariff: &Tariff, seed: &mut Seed) -> Plan {
    let runs = any_runs(demands.len() as u32, seed);
    honest_in(runs, demands, tariff, seed)
}

/// The same of these runs.
fn honest_in(runs: Vec<u32>, demands: &[u16], tariff: &Tariff, seed: &mut Seed) -> Plan {
    let mut rest = demands;
    let mut records = Vec::new();
    for periods in runs {
        let (run, after) = rest.split_at(periods as usize);
        records.push(Record { periods, bucket: carrying(run, tariff, seed) });
        rest = after;
    }
    priced(records, tariff)
}

fn priced(records: Vec<Record>, tariff: &Tariff) -> Plan {
    let plan = Plan { cost: 0, records };
    Plan { cost: true_cost(&plan, tariff), ..plan }
}

/// The same with one bucket changed: a token short of what carries its run, just above a cap, or any. The cost is still
/// the true one.
fn with_a_bad_bucket(plan: Plan, demands: &[u16], tariff: &Tariff, seed: &mut Seed) -> Plan {
    let mut records = plan.records;
    let place = seed.place(records.len());
    let start: u32 = records[..place].iter().map(|record| record.periods).sum();
    let run = &demands[start as usize..][..records[place].periods as usize];
    let bucket = &mut records[place].bucket;
    let wide = Tariff { rate_cap: RATE_MAX, depth_cap: DEPTH_MAX, ..*tariff };
    match seed.between(0, 4) {
        0 | 1 => bucket.depth = depth_at(run, bucket.rate, &wide).unwrap_or(0).saturating_sub(1),
        2 => bucket.rate = (tariff.rate_cap + 1).min(RATE_MAX),
        3 => bucket.depth = (tariff.depth_cap + 1).min(DEPTH_MAX),
        _ => *bucket = Bucket { rate: seed.of_any_size(RATE_MAX), depth: seed.of_any_size(DEPTH_MAX) },
    }
    priced(records, tariff)
}

/// A plan of another house for an order, good or bad, with a cost that is mostly the true one.
fn plan_of_others((tariff, demands): &(Tariff, Vec<u16>), seed: &mut Seed) -> Vec<u8> {
    let mut plan = honest(demands, tariff, seed);
    if seed.once_in(3) {
        plan = with_a_bad_bucket(plan, demands, tariff, seed);
    }
    let mut file = plan_file(&plan);
    if seed.once_in(3) {
        let (next, before, any) = (plan.cost + 1, plan.cost.wrapping_sub(1), seed.bits());
        let cost = seed.pick([next, next, before, before, 0, COST_MAX, COST_MAX + 1, any]);
        file[24..32].copy_from_slice(&cost.to_le_bytes());
    }
    file
}

/// The file of a plan that keeps the rules of its format.
fn plan_file(plan: &Plan) -> Vec<u8> {
    let periods = plan.records.iter().map(|record| record.periods).sum();
    write_plan(periods, plan).expect("the figures are in range")
}

/// A plan of another house, or now and then the product's own.
fn any_plan(order: &(Tariff, Vec<u16>), seed: &mut Seed) -> Vec<u8> {
    let own = if seed.once_in(6) { calls::book(&file_of(order)) } else { Err(NO_PLAN) };
    own.unwrap_or_else(|_| plan_of_others(order, seed))
}

#[test]
fn own_plans_get_a_yes_and_an_excess_of_0() {
    let tally = Tally::default();
    let own = |order: &[u8]| calls::book(order).map(|plan| assert_eq!(calls::check(order, &plan), Ok(Some(0))));
    for_seeds(5_000_000, 100_000, |seed| tally.count(&own(&file_of(&small_order(12, seed)))));
    for_seeds(5_100_000, 10_000, |seed| tally.count(&own(&file_of(&any_order(24, seed)))));
    for_seeds(5_110_000, 60, |seed| tally.count(&own(&file_of(&any_order(512, seed)))));
    tally.expect(&[0, NO_PLAN], 20_000);
}

#[test]
fn small_checks_are_those_found_by_trying() {
    let tally = Tally::default();
    for_seeds(5_200_000, 90_000, |seed| {
        let order = small_order(7, seed);
        let (file, plan) = (file_of(&order), any_plan(&order, seed));
        let tried = check_by_trying(&file, &plan);
        same(&check(&file, &plan), &tried);
        tally.meet(compare_to(tried, &file, &plan, seed));
    });
    tally.expect(&[&VERDICTS[..], &[Refused(5)]].concat(), 2_000);
}

#[test]
fn checks_are_alike() {
    let tally = Tally::default();
    for_seeds(5_300_000, 40_000, |seed| {
        let order = any_order(16, seed);
        tally.meet(compare(&file_of(&order), &any_plan(&order, seed), seed));
    });
    tally.expect(&[&VERDICTS[..], &[Refused(5)]].concat(), 500);
}

/// Some plans for each order; the least cost is found once.
fn compare_plans(order: &(Tariff, Vec<u16>), count: u32, tally: &Tally<Outcome>, seed: &mut Seed) {
    let file = file_of(order);
    let least = series_plain(&order.1, &order.0);
    for _ in 0..count {
        let plan = any_plan(order, seed);
        let right = check_with(&file, &plan, |_, _| least.clone());
        tally.meet(compare_to(right, &file, &plan, seed));
    }
}

#[test]
fn checks_of_some_length_are_alike() {
    let tally = Tally::default();
    for_seeds(5_400_000, 100, |seed| {
        let tariff = Tariff { rate_cap: seed.between(0, 200), ..random_tariff(seed) };
        let periods = seed.between(100, 512) as usize;
        compare_plans(&(tariff, trace(seed.pick(SHAPES), periods, seed)), 20, &tally, seed);
    });
    tally.expect(&[&VERDICTS[..], &[Refused(5)]].concat(), 20);
}

/// Orders of 512 periods with full caps, where the plain programme takes a second or more.
#[test]
fn the_longest_checks_are_alike() {
    let tally = Tally::default();
    for_seeds(5_410_000, 4, |seed| {
        let tariff = Tariff { rate_cap: RATE_MAX, depth_cap: DEPTH_MAX, ..random_tariff(seed) };
        let shape = seed.pick([Shape::Feature, Shape::Noise, Shape::Steps, Shape::Spiky]);
        compare_plans(&(tariff, trace(shape, 512, seed)), 20, &tally, seed);
    });
    tally.expect(&[Least, Dearer, NotCarried, FalseCost, SeveralFaults, Refused(5)], 2);
}

/// Plans that carry an order which has no plan inside its caps.
#[test]
fn an_order_without_a_plan_gets_a_no() {
    let tally = Tally::default();
    for_seeds(5_500_000, 100_000, |seed| {
        let (tariff, demands) = small_order(6, seed);
        let file = file_of(&(tariff, demands.clone()));
        if on_order(&file, series_plain) != Err(NO_PLAN) {
            return;
        }
        let wide = Tariff { rate_cap: tariff.rate_cap + 9, depth_cap: tariff.depth_cap + 40, ..tariff };
        tally.meet(compare(&file, &plan_file(&honest(&demands, &wide, seed)), seed));
        tally.meet(compare(&file, &plan_file(&honest(&demands, &tariff, seed)), seed));
    });
    tally.expect(&[NotCarried, RateAboveCap, DepthAboveCap, SeveralFaults], 1_000);
}

/// Every plan for an order of 1 to 3 periods, with rates and depths up to one above the caps.
fn every_plan(periods: u32, tariff: &Tariff) -> Vec<Vec<Record>> {
    if periods == 0 {
        return vec![Vec::new()];
    }
    let buckets =
        (0..=tariff.rate_cap + 1).flat_map(|rate| (0..=tariff.depth_cap + 1).map(move |depth| Bucket { rate, depth }));
    let firsts = buckets.flat_map(|bucket| (1..=periods).map(move |periods| Record { periods, bucket }));
    let with_rests = |first: Record| {
        let rests = every_plan(periods - first.periods, tariff);
        rests.into_iter().map(move |rest| [&[first], &rest[..]].concat())
    };
    firsts.flat_map(with_rests).collect()
}

/// The least cost is here the least of all plans that are carried inside the caps, and no series is asked for it.
#[test]
fn every_plan_of_a_small_order_is_checked_alike() {
    let tally = Tally::default();
    for_seeds(5_600_000, 1_000, |seed| {
        let (tariff, demands) = small_order(3, seed);
        let tariff = Tariff { rate_cap: seed.between(0, 2), depth_cap: seed.between(0, 2), ..tariff };
        let demands: Vec<u16> = demands.iter().map(|demand| demand % 4).collect();
        let file = file_of(&(tariff, demands.clone()));
        let plans = every_plan(demands.len() as u32, &tariff).into_iter().map(|records| priced(records, &tariff));
        let plans: Vec<Plan> = plans.collect();
        let holds = |plan: &&Plan| carries_runs(plan, &tariff, &demands) && keeps_caps(plan, &tariff);
        let least = plans.iter().filter(holds).map(|plan| plan.cost).min();
        for plan in &plans {
            let above = least.filter(|_| holds(&plan)).map(|least| plan.cost - least);
            let right = Ok(above.map_or(Verdict::No, Verdict::Yes));
            tally.meet(compare_to(right, &file, &plan_file(plan), seed));
        }
    });
    tally.expect(&[Least, Dearer, NotCarried, RateAboveCap, DepthAboveCap, SeveralFaults], 500);
}

/// A plan for an order, where one of the files, or each of them, is damaged.
#[test]
fn damaged_files_are_checked_alike() {
    let tally = Tally::default();
    for_seeds(5_700_000, 100_000, |seed| {
        let order = small_order(8, seed);
        let (mut file, mut plan) = (file_of(&order), any_plan(&order, seed));
        let which = seed.between(0, 4);
        if which == 0 || which == 1 {
            file = damaged(&file, seed);
        }
        if which > 0 {
            plan = damaged(&plan, seed);
        }
        tally.meet(compare(&file, &plan, seed));
    });
    tally.expect(&[&VERDICTS[..], &READING].concat(), 100);
}

/// Orders and plans of different numbers of periods, whole and damaged: 10 comes after all that reading refuses.
#[test]
fn other_numbers_of_periods_are_refused_alike() {
    let tally = Tally::default();
    for_seeds(5_800_000, 60_000, |seed| {
        let (order, other) = (small_order(8, seed), small_order(8, seed));
        if order.1.len() == other.1.len() {
            return;
        }
        let (file, plan) = (file_of(&order), plan_file(&honest(&other.1, &other.0, seed)));
        assert_eq!(compare(&file, &plan, seed), Refused(UNEQUAL));
        tally.meet(compare(&file, &damaged(&plan, seed), seed));
        tally.meet(compare(&damaged(&file, seed), &plan, seed));
    });
    tally.expect(&[&READING[..], &[Refused(UNEQUAL)]].concat(), 1_000);
}

#[test]
fn files_in_each_others_place_are_refused_alike() {
    for_seeds(5_900_000, 5_000, |seed| {
        let order = any_order(20, seed);
        let (file, plan) = (file_of(&order), plan_of_others(&order, seed));
        for (first, second, number) in [
            (&plan[..], &file[..], FOREIGN),
            (&plan, &plan, FOREIGN),
            (&file, &file, FOREIGN),
            (&plan, &[], FOREIGN),
            (&[], &plan, SHORT),
            (&[], &file, SHORT),
            (&file, &[], SHORT),
        ] {
            assert_eq!(compare(first, second, seed), Refused(number));
        }
    });
}

#[test]
fn every_byte_of_both_files_counts_alike() {
    let tally = Tally::default();
    for_seeds(5_910_000, 100, |seed| {
        let order = small_order(3, seed);
        let files = [file_of(&order), plan_file(&honest(&order.1, &order.0, seed))];
        for which in [0, 1] {
            for at in 0..8 * files[which].len() {
                let mut both = files.clone();
                both[which][at / 8] ^= 1 << (at % 8);
                tally.meet(compare(&both[0], &both[1], seed));
            }
            for length in 0..files[which].len() + 3 {
                let mut both = files.clone();
                both[which].resize(length, 0);
                tally.meet(compare(&both[0], &both[1], seed));
            }
        }
    });
    tally.expect(&[&VERDICTS[..], &READING].concat(), 100);
}

/// An order and a plan on one standard input: whole, damaged, or cut off.
#[test]
fn the_program_prints_alike() {
    for_seeds(5_920_000, 2_000, |seed| {
        let order = any_order(20, seed);
        let (file, plan) = (file_of(&order), any_plan(&order, seed));
        let whole = [&file[..], &plan].concat();
        let input = match seed.between(0, 3) {
            0 => whole,
            1 => damaged(&whole, seed),
            2 => [damaged(&file, seed), plan].concat(),
            _ => [file, damaged(&plan, seed)].concat(),
        };
        same(&printed("check_plan", &[], &input), &check_line(&input));
    });
}

/// The longest order and the longest plan, with nothing behind them, a byte, and more than the program has room for.
#[test]
fn the_program_takes_the_longest_files() {
    for_seeds(5_930_000, 20, |seed| {
        let tariff = Tariff { rate_cap: 9, ..small_tariff(seed) };
        let demands = trace(Shape::Tiny, 512, seed);
        let plan = honest_in(vec![1; 512], &demands, &tariff, seed);
        let mut input = [file_of(&(tariff, demands)), plan_file(&plan)].concat();
        for (more, answer) in [(0, "yes "), (1, "refused 4"), (5_000, "refused 4")] {
            input.resize(input.len() + more, 0);
            let line = printed("check_plan", &[], &input);
            assert!(line.starts_with(answer), "{line}");
            same(&line, &check_line(&input));
        }
    });
}
