//! Random arguments for the calls, good ones mostly.

use crate::compare::Call;
use crate::counts::{Method, MAX_LISTED};
use crate::images::{bad_flip, damage, good_draft, good_flip, high_flip, noise, Size};
use crate::model::{Counts, HEAD, MAX_WEIGHT};
use crate::random::Random;
use crate::written;

/// A number that should name one of `count` things; once in ten it names none.
pub fn name(random: &mut Random, count: u32) -> u32 {
    if count == 0 || random.once_in(10) {
        return random.pick(&[count, count, count + 1, 31, 32, 1 << 16, 1 << 29, u32::MAX]);
    }
    random.below(u64::from(count)) as u32
}

/// A flip that is good three times in four.
pub fn flip(random: &mut Random) -> (u8, [u8; 8]) {
    match random.below(8) {
        0 => bad_flip(random),
        1 => high_flip(random),
        _ => good_flip(random),
    }
}

/// Leaves weights in a few places only, or in one run: a walk over the patterns may pass the rest by.
fn leave_few(random: &mut Random, weights: &mut [u32]) {
    let patterns = weights.len();
    let kept: Vec<usize> = if random.once_in(2) {
        (0..random.between(1, 4)).map(|_| random.index(patterns)).collect()
    } else {
        let start = random.index(patterns);
        (start..patterns).take(random.pick(&[1, 31, 32, 33, 64, 100])).collect()
    };
    for (pattern, weight) in weights.iter_mut().enumerate() {
        if !kept.contains(&pattern) {
            *weight = 0;
        }
    }
}

/// Weights for 2^inputs patterns, with every fault of refusal 12 now and then.
pub fn weights(random: &mut Random, inputs: u32) -> Vec<u32> {
    let right = 1usize << inputs;
    let length = match random.below(12) {
        0 => random.pick(&[0, right - 1, right + 1, 2 * right]),
        _ => right,
    };
    let most = random.pick(&[1, 3, 1000, MAX_WEIGHT]);
    let mut weights: Vec<u32> =
        (0..length).map(|_| random.below(u64::from(most) + 1) as u32).collect();
    if random.once_in(8) {
        weights.fill(random.pick(&[0, 0, 1, MAX_WEIGHT]));
    }
    if random.once_in(4) && !weights.is_empty() {
        leave_few(random, &mut weights);
    }
    if random.once_in(8) && !weights.is_empty() {
        // One or two that are too large, or one at the limit.
        for _ in 0..random.between(1, 2) {
            let at = random.index(weights.len());
            weights[at] = random.pick(&[MAX_WEIGHT, MAX_WEIGHT + 1, MAX_WEIGHT + 1, u32::MAX]);
        }
    }
    weights
}

/// A list of patterns, with the faults of refusals 15 and 16 now and then. A list without the first
/// of them has at most `most`.
pub fn patterns(random: &mut Random, inputs: u32, most: u64) -> Vec<u32> {
    let length = match random.below(16) {
        0 => random.pick(&[0, MAX_LISTED as u64 + 1]),
        1 => most,
        _ => random.between(1, most),
    };
    let end = 1u32 << inputs;
    let mut patterns: Vec<u32> = (0..length).map(|_| random.below(u64::from(end)) as u32).collect();
    if random.once_in(8) && !patterns.is_empty() {
        // One or two that are too large, or the largest that is not.
        for _ in 0..random.between(1, 2) {
            let at = random.index(patterns.len());
            patterns[at] = random.pick(&[end - 1, end, end, end + 1, 1 << 31, u32::MAX]);
        }
    }
    patterns
}

/// The length of a slice for the counts: that of the gates mostly, or some words more or fewer.
pub fn room(random: &mut Random, gates: u32) -> usize {
    let gates = gates as usize;
    match random.below(12) {
        0 => gates.saturating_sub(1),
        1 => random.index(gates + 1),
        2..=4 => gates + 1 + random.index(5),
        _ => gates,
    }
}

/// Counts on an area with these counts; the fewer patterns, the more work each of them is.
pub fn counting(random: &mut Random, counts: Counts, method: Method) -> Call {
    let gates = u64::from(counts.gates) + 1;
    let work = match method {
        Method::Flip => gates * gates / 2 + 1,
        Method::Mask => gates,
    };
    let most = (4_000 / work).clamp(1, 130);
    let patterns = patterns(random, counts.inputs, most);
    Call::Counts { method, patterns, room: room(random, counts.gates) }
}

/// The length of a slice for the image of an area: enough mostly, or some bytes fewer.
pub fn image_room(random: &mut Random, counts: Counts) -> usize {
    let length = written::length(counts);
    match random.below(12) {
        0 => length - 1,
        1 => random.index(length),
        2..=4 => length + 1 + random.index(40),
        _ => length,
    }
}

/// An image: whole, damaged in one to three ways, or noise.
pub fn image(random: &mut Random, size: Size) -> Vec<u8> {
    let mut draft = good_draft(random, size);
    match random.below(4) {
        0 => noise(random, &draft.bytes()),
        1 => {
            let mut numbers: Vec<u8> = (0..random.between(1, 3))
                .map(|_| random.pick(&[1, 2, 3, 4, 5, 6, 7, 8, 9, 22]))
                .collect();
            // Later parts first: damage to the lengths is measured on what the others left.
            numbers.sort_by(|a, b| b.cmp(a));
            for number in numbers {
                damage(random, &mut draft, number);
            }
            draft.bytes()
        }
        _ => draft.bytes(),
    }
}

/// How many words to lend: nearly always all of them.
pub fn lent(random: &mut Random, all: usize, needs: usize) -> usize {
    let wish = match random.below(40) {
        0 => random.index(HEAD + 1),
        1 => needs.saturating_sub(1),
        2 => needs,
        3 => random.index(all + 1),
        _ => all,
    };
    wish.min(all)
}

/// Any call on an area with these counts. Averages cost a whole evaluation for each pattern, so they
/// are made only where `averages` allows.
pub fn call(random: &mut Random, counts: Counts, size: Size, averages: bool) -> Call {
    match random.below(23) {
        0..=5 => Call::Toggle(name(random, counts.inputs)),
        6..=10 => {
            let (kind, field) = flip(random);
            Call::Set { gate: name(random, counts.gates), kind, field }
        }
        11..=12 => Call::ReadNetlist,
        13..=15 => Call::ReadGate(name(random, counts.gates)),
        16..=18 if averages => Call::Average(weights(random, counts.inputs)),
        16..=18 => Call::Toggle(name(random, counts.inputs)),
        19 => counting(random, counts, Method::Flip),
        20 => counting(random, counts, Method::Mask),
        21 => Call::WriteImage { room: image_room(random, counts) },
        _ => Call::Open(image(random, size)),
    }
}
