//! The product against the paper: order files written.

mod shared;

use metqoraz::calls;
use metqoraz::inputs::{any_tariff, trace, Seed, SHAPES};
use metqoraz::paper::order::write_order;
use metqoraz::paper::terms::{weigh_periods, Tariff};
use metqoraz::paper::{Answer, FIGURE};
use shared::{any_order, compare_filled, for_seeds, same, Tally};

/// The order that the paper writes from any number of figures: 3 for T, 5 unless there are seven.
fn order_from(figures: &[u32], demands: &[u16]) -> Answer<Vec<u8>> {
    weigh_periods(demands.len())?;
    let seven = figures.try_into().map_err(|_| FIGURE)?;
    write_order(&Tariff::from_figures(seven), demands)
}

fn compare_written(figures: &[u32], demands: &[u16], seed: &mut Seed) -> Answer<Vec<u8>> {
    let right = order_from(figures, demands);
    compare_filled(&right, seed, |bytes| calls::order_into(figures, demands, bytes));
    right
}

#[test]
fn orders_are_written_alike() {
    for_seeds(100_000, 30_000, |seed| {
        let (tariff, demands) = any_order(40, seed);
        compare_written(&tariff.figures(), &demands, seed).expect("the figures are in range");
        same(&calls::order(&tariff.figures(), &demands), &write_order(&tariff, &demands));
    });
}

#[test]
fn bad_figures_are_refused_alike() {
    let tally = Tally::default();
    for_seeds(130_000, 30_000, |seed| {
        let (tariff, demands) = any_order(4, seed);
        let mut figures = tariff.figures();
        let place = seed.place(7);
        let any = seed.of_any_size(u32::MAX);
        figures[place] = seed.pick([0, 1_000, 1_001, 4_095, 4_096, 65_535, 65_536, 1_000_000, 1_000_001, any]);
        tally.count(&compare_written(&figures, &demands, seed));
    });
    tally.expect(&[0, 5], 5_000);
}

#[test]
fn any_number_of_figures_and_demands_is_weighed_alike() {
    let tally = Tally::default();
    for_seeds(160_000, 10_000, |seed| {
        let tariff = any_tariff(seed);
        let figures: Vec<u32> = tariff.figures().into_iter().cycle().take(seed.place(12)).collect();
        let periods = seed.pick([0, 1, 2, 511, 512, 513, 514, 2_000]);
        let demands = trace(seed.pick(SHAPES), periods, seed);
        tally.count(&compare_written(&figures, &demands, seed));
        tally.count(&compare_written(&tariff.figures(), &demands, seed));
    });
    tally.expect(&[0, 3, 5], 3_000);
}
