//! The yardstick of the benchmark plans as the paper does.

mod shared;

use metqoraz::inputs::{any_tariff, trace, Seed, SHAPES};
use metqoraz::paper::series::series_plain;
use metqoraz::paper::terms::Tariff;
use metqoraz::pruned;
use shared::{for_seeds, same};

#[test]
fn the_yardstick_is_the_series() {
    for_seeds(4_000_000, 3_000, |seed: &mut Seed| {
        let tariff = Tariff { rate_cap: seed.between(0, 200), ..any_tariff(seed) };
        let periods = seed.between(1, 60) as usize;
        let demands = trace(seed.pick(SHAPES), periods, seed);
        same(&pruned::series(&demands, &tariff), &series_plain(&demands, &tariff));
    });
}
