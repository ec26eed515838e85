//! Whole numbers of any size, and the sum over all flip patterns worked out with them, term by term.

use crate::model::{Chance, Netlist, U};
use std::cmp::Ordering;

/// Every accepted chance is a whole number of 2^-1074, the smallest f64 above 0.
pub const CHANCE_BITS: u32 = 1074;

/// A whole number, lowest limb first, no zero limb at the top.
#[derive(Clone, Debug, PartialEq, Eq)]
pub struct Big(Vec<u32>);

impl Big {
    pub fn zero() -> Big {
        Big(Vec::new())
    }

    pub fn from_u64(number: u64) -> Big {
        Big(vec![number as u32, (number >> 32) as u32]).trimmed()
    }

    fn trimmed(mut self) -> Big {
        while self.0.last() == Some(&0) {
            self.0.pop();
        }
        self
    }

    pub fn add(&mut self, other: &Big) {
        if self.0.len() < other.0.len() {
            self.0.resize(other.0.len(), 0);
        }
        let mut carry = 0u64;
        for (at, limb) in self.0.iter_mut().enumerate() {
            if at >= other.0.len() && carry == 0 {
                break;
            }
            let sum = u64::from(*limb) + u64::from(other.0.get(at).copied().unwrap_or(0)) + carry;
            *limb = sum as u32;
            carry = sum >> 32;
        }
        if carry != 0 {
            self.0.push(carry as u32);
        }
    }

    /// `self - other`, which must not be negative.
    pub fn minus(&self, other: &Big) -> Big {
        assert!(self.compare(other) != Ordering::Less, "a difference below zero");
        let mut limbs = self.0.clone();
        let mut borrow = 0i64;
        for (at, limb) in limbs.iter_mut().enumerate() {
            let rest = i64::from(*limb) - i64::from(other.0.get(at).copied().unwrap_or(0)) - borrow;
            borrow = i64::from(rest < 0);
            *limb = rest as u32;
        }
        Big(limbs).trimmed()
    }

    /// The distance between two numbers.
    pub fn distance(&self, other: &Big) -> Big {
        match self.compare(other) {
            Ordering::Less => other.minus(self),
            _ => self.minus(other),
        }
    }

    pub fn times(&self, other: &Big) -> Big {
        let mut limbs = vec![0u32; self.0.len() + other.0.len()];
        // Common chances are a few limbs above a long run of zeros; skip these on both sides.
        let first = other.0.iter().position(|limb| *limb != 0).unwrap_or(0);
        for (low, left) in self.0.iter().enumerate().filter(|(_, left)| **left != 0) {
            let mut carry = 0u64;
            for (high, right) in other.0.iter().enumerate().skip(first) {
                let sum =
                    u64::from(*left) * u64::from(*right) + u64::from(limbs[low + high]) + carry;
                limbs[low + high] = sum as u32;
                carry = sum >> 32;
            }
            // The limb above this row's product has not been written by any earlier row.
            limbs[low + other.0.len()] = carry as u32;
        }
        Big(limbs).trimmed()
    }

    pub fn times_u64(&self, factor: u64) -> Big {
        self.times(&Big::from_u64(factor))
    }

    /// `self × 2^bits`.
    pub fn shifted(&self, bits: u32) -> Big {
        let mut limbs = vec![0u32; (bits / 32) as usize];
        let within = bits % 32;
        let mut carry = 0u64;
        for limb in &self.0 {
            let wide = (u64::from(*limb) << within) | carry;
            limbs.push(wide as u32);
            carry = wide >> 32;
        }
        limbs.push(carry as u32);
        Big(limbs).trimmed()
    }

    /// `self / 2^bits`, rounded down.
    pub fn shifted_down(&self, bits: u32) -> Big {
        let whole = (bits / 32) as usize;
        let within = bits % 32;
        let limbs = (whole..self.0.len())
            .map(|at| {
                let above = u64::from(self.0.get(at + 1).copied().unwrap_or(0));
                (((above << 32) | u64::from(self.0[at])) >> within) as u32
            })
            .collect();
        Big(limbs).trimmed()
    }

    /// The number itself, if it has at most 64 bits.
    pub fn to_u64(&self) -> Option<u64> {
        match self.0[..] {
            [] => Some(0),
            [low] => Some(u64::from(low)),
            [low, high] => Some(u64::from(low) | (u64::from(high) << 32)),
            _ => None,
        }
    }

    pub fn compare(&self, other: &Big) -> Ordering {
        self.0.len().cmp(&other.0.len()).then_with(|| self.0.iter().rev().cmp(other.0.iter().rev()))
    }

    pub fn at_most(&self, other: &Big) -> bool {
        self.compare(other) != Ordering::Greater
    }
}

/// A chance as a whole number of 2^-1074.
pub fn whole_chance(chance: Chance) -> Big {
    assert!(chance.shift <= CHANCE_BITS);
    Big::from_u64(chance.numerator).shifted(CHANCE_BITS - chance.shift)
}

/// A chance in units, straight from the definition, ties to even: the whole half units, and whether
/// anything is left over, say how far the number above is.
pub fn nearest_units(chance: Chance) -> u64 {
    let twice = whole_chance(chance).times_u64(2 * U);
    let halves = twice.shifted_down(CHANCE_BITS).to_u64().expect("a chance is at most 1");
    let left_over = Big::from_u64(halves).shifted(CHANCE_BITS).compare(&twice) != Ordering::Equal;
    let below = halves / 2;
    match (halves % 2, left_over) {
        (0, _) => below,
        (_, true) => below + 1,
        (_, false) => below.next_multiple_of(2),
    }
}

/// The exact sums of one netlist with its chances. All of them are over D^G, with D = 2^1074.
pub struct ExactSums {
    live: u64,
    /// The sharper error, in half units.
    halves: u64,
    denominator: Big,
    /// Entry f is the chance of the flip pattern f (bit j: gate j flips), times D^G.
    pattern_chances: Vec<Big>,
}

impl ExactSums {
    pub fn new(netlist: &Netlist) -> ExactSums {
        let gates = netlist.gates.len() as u32;
        let one = Big::from_u64(1).shifted(CHANCE_BITS);
        let mut pattern_chances = vec![Big::from_u64(1)];
        for gate in &netlist.gates {
            let flips = whole_chance(gate.chance);
            let stays = one.minus(&flips);
            let with = pattern_chances.iter().map(|product| product.times(&flips));
            let without = pattern_chances.iter().map(|product| product.times(&stays));
            pattern_chances = without.chain(with).collect();
        }
        ExactSums {
            live: u64::from(crate::model::live_count(netlist)),
            halves: error_halves(netlist),
            denominator: Big::from_u64(1).shifted(CHANCE_BITS * gates),
            pattern_chances,
        }
    }

    /// The chance that every output is right, times D^G.
    pub fn sum(&self, netlist: &Netlist, pattern: u32) -> Big {
        let intended = outputs_under(netlist, pattern, 0);
        let mut sum = Big::zero();
        for (flips, chance) in self.pattern_chances.iter().enumerate() {
            if outputs_under(netlist, pattern, flips as u32) == intended {
                sum.add(chance);
            }
        }
        sum
    }

    /// All flip patterns together have chance 1; shows that the terms are complete.
    pub fn terms_add_up(&self) -> bool {
        let mut sum = Big::zero();
        for chance in &self.pattern_chances {
            sum.add(chance);
        }
        sum == self.denominator
    }

    /// Whether `units` lies within the sharper error, and so within 1.5 × L, of U × the exact sum.
    pub fn reliability_is_near(&self, units: u32, exact_sum: &Big) -> bool {
        let have = self.denominator.times_u64(u64::from(units));
        let twice_distance = exact_sum.times_u64(U).distance(&have).times_u64(2);
        self.halves <= 3 * self.live
            && twice_distance.at_most(&self.denominator.times_u64(self.halves))
    }

    /// Whether `units` lies within the sharper error and half a unit of U × the exact average.
    pub fn average_is_near(&self, units: u32, netlist: &Netlist, weights: &[u32]) -> bool {
        let mut weighted = Big::zero();
        let mut weight_sum = 0u64;
        for (pattern, weight) in weights.iter().enumerate() {
            let exact = self.sum(netlist, pattern as u32);
            weighted.add(&exact.times_u64(u64::from(*weight)));
            weight_sum += u64::from(*weight);
        }
        let scale = self.denominator.times_u64(weight_sum);
        let have = scale.times_u64(u64::from(units));
        let twice_distance = weighted.times_u64(U).distance(&have).times_u64(2);
        twice_distance.at_most(&scale.times_u64(self.halves + 1))
    }

    /// U × the exact sum in thousandths of a unit, rounded down; only for messages and statistics.
    pub fn milli_units(&self, exact_sum: &Big, netlist: &Netlist) -> u64 {
        let bits = CHANCE_BITS * netlist.gates.len() as u32;
        exact_sum.times_u64(1000 * U).shifted_down(bits).to_u64().expect("a sum is at most 1")
    }
}

/// How many half units the figure may be off: 2 for a live gate whose kind is not 0, and 1 for each of
/// its pins that read gates but the first such pin; 1 for each output that reads a gate but the first.
pub fn error_halves(netlist: &Netlist) -> u64 {
    let further = |sources: &[u32]| {
        let gates = sources.iter().filter(|source| **source >= netlist.inputs).count() as u64;
        gates.saturating_sub(1)
    };
    let live = crate::model::live_gates(netlist);
    let of_gates = netlist.gates.iter().zip(live).filter(|(_, live)| *live).map(|(gate, _)| {
        let flips = if gate.kind == 0 { 0 } else { 2 };
        flips + further(gate.used_pins())
    });
    of_gates.sum::<u64>() + further(&netlist.outputs)
}

/// The outputs' values, bit by bit, when exactly the gates in `flips` flip.
pub fn outputs_under(netlist: &Netlist, pattern: u32, flips: u32) -> Vec<u32> {
    let mut values: Vec<u32> = (0..netlist.inputs).map(|input| (pattern >> input) & 1).collect();
    for (number, gate) in netlist.gates.iter().enumerate() {
        let mut row = 0;
        for (pin, source) in gate.used_pins().iter().enumerate() {
            row |= values[*source as usize] << pin;
        }
        values.push(((gate.table >> row) & 1) ^ ((flips >> number) & 1));
    }
    netlist.outputs.iter().map(|source| values[*source as usize]).collect()
}
