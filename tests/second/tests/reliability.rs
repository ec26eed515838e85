//! The f64 answer is units / 2^30, bit for bit.

use second::ffi;
use second::model::{exact_f64_bits, RELIABILITY, U};
use second::random::{seed, Random};

/// An area without gates whose output is its only input; its reliability word is free.
fn area_with(units: u32) -> [u32; 9] {
    let mut area = [1, 0, 1, 0, 0, 0, 0, 0, 0];
    area[RELIABILITY] = units;
    area
}

fn check(units: u32) {
    let reading = ffi::read_netlist(&area_with(units)).done();
    assert_eq!(reading.units, units);
    assert_eq!(reading.reliability_bits, exact_f64_bits(units), "{units} units");
    // Both the conversion and the division by a power of two lose nothing.
    let divided = f64::from(units) / U as f64;
    assert_eq!(reading.reliability_bits, divided.to_bits(), "{units} units");
}

#[test]
fn the_f64_is_exact_at_every_power_of_two_and_beside_it() {
    for power in 0..=30 {
        let at = 1u32 << power;
        check(at - 1);
        check(at);
        if at < U as u32 {
            check(at + 1);
        }
    }
}

#[test]
fn the_f64_is_exact_for_millions_of_units() {
    let mut random = Random::new(seed() ^ 10);
    for _ in 0..4_000_000 {
        check(random.below(U + 1) as u32);
    }
    for units in 0..500_000 {
        check(units);
        check(U as u32 - units);
    }
}
