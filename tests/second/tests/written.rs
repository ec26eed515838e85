//! Images written from areas: known bytes, every size of slice, and areas left by calls and by none,
//! whose images are opened again and written again.

use second::answer::Answer;
use second::arguments;
use second::compare::{lent_bytes, perform, write, Call, Pair, Reply, Tally};
use second::ffi::{self, Library};
use second::images::{
    break_area, chain, chance, foreign_area, good_draft, strike, Draft, Record, Size, AREA_BREAKS,
    FIRST_CUT, NEVER,
};
use second::model::{decode_f64, gate_at, store_sum, Counts, MAX_FLIP};
use second::model::{FIGURE, FLIP, HEAD, PATTERN, PINS, PIN_COUNT, RELIABILITY, TABLE, U};
use second::random::{seed, Random};
use second::written::length;

const SMALL: Size = Size { inputs: 4, gates: 10, outputs: 4 };
const MIDDLE: Size = Size { inputs: 12, gates: 40, outputs: 12 };
const LARGE: Size = Size { inputs: 12, gates: 1024, outputs: 64 };

const SHORT: Answer<u32> = Answer::Refused { number: 21, place: 0 };

/// The library's image of an area, which must not be refused.
fn image(area: &[u32]) -> Vec<u8> {
    let room = length(Counts::of(area));
    let (answer, bytes) = write(&Library, area, room);
    assert_eq!(answer, Answer::Done(room as u32), "{area:?}");
    bytes
}

fn opened(draft: &Draft) -> Vec<u32> {
    let mut area = vec![0; draft.words()];
    ffi::open(&mut area, &draft.bytes()).done();
    area
}

fn noise(random: &mut Random, count: usize) -> Vec<u32> {
    (0..count).map(|_| random.word()).collect()
}

fn size(round: usize) -> Size {
    match round % 40 {
        0 => MIDDLE,
        _ => SMALL,
    }
}

// ---------------------------------------------------------------------------------------------
// Known bytes

#[test]
fn the_printed_sheet() {
    let gates = vec![
        Record::new(2, &[0], strike(1.0, 0.5)),
        Record::new(2, &[1], chance(0.5)),
        Record::new(8, &[2, 3], chance(-0.0)),
    ];
    let heading = b"any supplier".to_vec();
    let draft = Draft { inputs: 2, gates, outputs: vec![4], heading, ..Draft::default() };
    let half = [0, 0, 0, 0, 0, 0, 0xE0, 0x3F];
    let expected = [
        &[1, 1, 2, 0, 0, 0, 0, 0, 0, 0, 0, 0][..],
        &half,
        &[1, 1, 2, 0, 1, 0, 0, 0, 0, 0, 0, 0],
        &half,
        &[2, 0, 8, 0, 2, 0, 3, 0, 0, 0, 0, 0],
        &[0; 8],
        &[4, 0],
        &[2, 0, 3, 0, 1, 0, 1, 0, 62, 0, 0, 0, 78, 0, 0, 0],
    ];
    assert_eq!(image(&opened(&draft)), expected.concat());
}

/// No gate at all: one output word and the trailer.
#[test]
fn a_wire() {
    let area = [3, 0, 1, 5, U as u32, 0, 0, 0, 2];
    let bytes = [2, 0, 3, 0, 0, 0, 1, 0, 1, 0, 2, 0, 0, 0, 18, 0, 0, 0];
    assert_eq!(image(&area), bytes);
}

/// The field of a flip is the double that is units / U, and opening makes the same units of it.
#[test]
fn flips_of_every_size() {
    let mut random = Random::new(seed() ^ 21);
    let powers = (0..=29).map(|bit| 1u32 << bit);
    let beside = powers.flat_map(|power| [power - 1, power, power + 1]);
    let edges = beside.filter(|units| u64::from(*units) <= MAX_FLIP);
    let others: Vec<u32> =
        (0..200_000).map(|_| random.below(MAX_FLIP + 1) as u32 >> random.below(29)).collect();
    for units in edges.chain(others) {
        let mut area = vec![1, 1, 1, 0, 0, 0, 0, 0, 1, 2, 0, 0, 0, 0, units, 0, 1];
        store_sum(&mut area);
        let bytes = image(&area);
        let mut field = [0; 8];
        field.copy_from_slice(&bytes[12..20]);
        let number = u64::from_le_bytes(field);
        if units == 0 {
            assert_eq!((bytes[1], number), (0, 0));
        } else {
            let chance = decode_f64(number).expect("a chance");
            assert_eq!(bytes[1], 1);
            let exact = u128::from(units) << chance.shift;
            assert_eq!(u128::from(chance.numerator) << 30, exact, "{units} units");
        }
        let mut again = vec![7; area.len()];
        ffi::open(&mut again, &bytes).done();
        assert_eq!(again[HEAD + FLIP], units);
    }
}

// ---------------------------------------------------------------------------------------------
// Refusals

#[test]
fn slices_short_exact_and_longer() {
    let mut random = Random::new(seed() ^ 22);
    for round in 0..300 {
        let area = foreign_area(&mut random, size(round));
        let exact = image(&area);
        let most = exact.len();
        for room in (0..most).filter(|room| most - room < 40 || random.once_in(8)) {
            assert_eq!(write(&Library, &area, room), (SHORT, lent_bytes(room)), "of {most}");
        }
        for room in [most + 1, most + 2, most + 20, most + 4096] {
            let mut expected = lent_bytes(room);
            expected[..most].copy_from_slice(&exact);
            assert_eq!(write(&Library, &area, room), (Answer::Done(most as u32), expected));
        }
    }
}

/// Every way to break an area comes before a slice that is too short.
#[test]
fn broken_areas_are_told_first() {
    let mut random = Random::new(seed() ^ 23);
    for (way, name) in AREA_BREAKS.iter().enumerate() {
        let mut broken = 0;
        while broken < 50 {
            let mut area = foreign_area(&mut random, SMALL);
            let counts = Counts::of(&area);
            if !break_area(&mut random, &mut area, counts, way) {
                continue;
            }
            broken += 1;
            let expected =
                Answer::Refused { number: if way < FIRST_CUT { 14 } else { 13 }, place: 0 };
            for room in [0, length(counts) - 1, length(counts), 30_000] {
                let found = write(&Library, &area, room);
                assert_eq!(found, (expected, lent_bytes(room)), "{name}: {area:?}");
            }
        }
    }
}

// ---------------------------------------------------------------------------------------------
// Areas left by calls

/// The inputs that are 1, in some order.
fn ones(random: &mut Random, area: &[u32]) -> Vec<u32> {
    let mut ones: Vec<u32> = (0..area[0]).filter(|input| area[PATTERN] >> input & 1 == 1).collect();
    for at in (1..ones.len()).rev() {
        ones.swap(at, random.index(at + 1));
    }
    ones
}

/// Opens the area's image in another area with room, and gives that area; what is written from there
/// must be the same again.
fn reopened(random: &mut Random, area: &[u32]) -> Vec<u32> {
    let (bytes, needs) = (image(area), Counts::of(area).words());
    let words = needs + random.index(9);
    let before = noise(random, words);
    let mut other = before.clone();
    assert!(matches!(ffi::open(&mut other, &bytes), Answer::Done(_)), "{area:?}");
    assert_eq!(other[needs..], before[needs..]);
    assert_eq!(image(&other), bytes);
    other
}

#[test]
fn what_calls_left_is_opened_at_pattern_0() {
    let mut random = Random::new(seed() ^ 24);
    let (mut turned, mut calls) = (0, 0);
    for round in 0..4_000 {
        let size = size(round);
        let mut area = opened(&good_draft(&mut random, size));
        for _ in 0..random.below(12) {
            let counts = Counts::of(&area);
            let call = arguments::call(&mut random, counts, size, counts.inputs < 6);
            calls += u64::from(perform(&Library, &mut area, &call).refusal().is_none());
        }
        let needs = Counts::of(&area).words();
        let other = reopened(&mut random, &area);
        for input in ones(&mut random, &area) {
            ffi::toggle_input(&mut area, input).done();
            turned += 1;
        }
        assert_eq!(other[..needs], area[..needs]);
    }
    println!("{calls} calls before, {turned} inputs toggled after");
    assert!(calls >= 10_000 && turned >= 1_000);
}

/// Headings and kinds have no part in it: a strike and the chance that is its product are one flip.
#[test]
fn two_suppliers_give_the_same_bytes() {
    let mut random = Random::new(seed() ^ 25);
    for round in 0..2_000 {
        let mut draft = good_draft(&mut random, size(round));
        let first = image(&opened(&draft));
        for gate in &mut draft.gates {
            if gate.kind == 2 {
                let number = u64::from_le_bytes(gate.field);
                let (low, high) = (number as u32, (number >> 32) as u32);
                let product = f64::from(f32::from_bits(low)) * f64::from(f32::from_bits(high));
                (gate.kind, gate.field) = chance(product);
            } else if gate.kind == 0 {
                (gate.kind, gate.field) = random.pick(&[chance(0.0), chance(-0.0), NEVER]);
            }
        }
        draft.heading = (0..random.below(50)).map(|_| random.word() as u8).collect();
        assert_eq!(image(&opened(&draft)), first, "{draft:?}");
    }
}

// ---------------------------------------------------------------------------------------------
// Areas left by none

/// Figures of no gate's making are not written; opening works them out, or refuses the image with 9.
#[test]
fn what_no_call_left_is_opened_or_shared() {
    let mut random = Random::new(seed() ^ 26);
    let (mut shared, mut whole) = (0, 0);
    for round in 0..4_000 {
        let area = foreign_area(&mut random, size(round));
        let needs = Counts::of(&area).words();
        let refused = ffi::open(&mut vec![0; needs], &image(&area));
        if let Answer::Refused { number, .. } = refused {
            assert_eq!(number, 9, "{area:?}");
            shared += 1;
            continue;
        }
        let other = reopened(&mut random, &area);
        // Average leaves every figure worked out afresh for the pattern.
        let mut afresh = area.clone();
        afresh[PATTERN] = 0;
        ffi::average(&mut afresh, &vec![1; 1 << area[0]]).done();
        assert_eq!(other[..needs], afresh[..needs]);
        whole += 1;
    }
    println!("{shared} with shared gates, {whole} without");
    assert!(shared >= 500 && whole >= 500);
}

/// Changes one word to one that 14 passes too, and says whether a word that is written is another now.
fn change(random: &mut Random, area: &mut [u32]) -> bool {
    let Counts { inputs, gates, outputs } = Counts::of(area);
    let number = random.below(u64::from(gates)) as u32;
    let gate = gate_at(number);
    let pins = area[gate + PIN_COUNT] as usize;
    let (at, end, written) = match random.below(8) {
        0 => (PATTERN, 1 << inputs, false),
        1 => (RELIABILITY, U + 1, false),
        2 => (gate + FIGURE, 2 * U + 2, false),
        3 => (gate + FLIP, MAX_FLIP + 1, true),
        4 => (gate + TABLE, 1 << (1 << pins), true),
        5 if pins > 0 => (gate + PINS + random.index(pins), u64::from(inputs + number), true),
        6 => (gate_at(gates) + random.index(outputs as usize), u64::from(inputs + gates), true),
        // More inputs: every source still exists, though it may be another.
        _ => (0, 13, true),
    };
    let word = if at == 0 { random.between(u64::from(inputs), 12) } else { random.below(end) };
    let before = std::mem::replace(&mut area[at], word as u32);
    store_sum(area);
    written && before != area[at]
}

#[test]
fn bytes_are_equal_exactly_if_what_is_written_is() {
    let mut random = Random::new(seed() ^ 27);
    let mut others = 0;
    for round in 0..20_000 {
        let mut area = foreign_area(&mut random, size(round));
        if area[1] == 0 {
            continue;
        }
        let before = image(&area);
        let written = change(&mut random, &mut area);
        assert_eq!(image(&area) != before, written, "{area:?}");
        others += u64::from(written);
    }
    println!("{others} changes are written");
    assert!(others >= 5_000);
}

// ---------------------------------------------------------------------------------------------
// The largest netlists

#[test]
fn the_largest_netlists() {
    let mut random = Random::new(seed() ^ 28);
    let mut draft = chain(&mut random, 12, 1024);
    draft.outputs = (0..64).map(|at| if at == 63 { 12 + 1023 } else { at % 12 }).collect();
    let area = opened(&draft);
    assert_eq!(image(&area).len(), 20_624);
    assert_eq!(reopened(&mut random, &area)[..area.len()], area);
    let mut tally = Tally::default();
    for _ in 0..20 {
        let area = foreign_area(&mut random, LARGE);
        let (room, lent) = (length(Counts::of(&area)), area.len());
        let mut pair = Pair::new(area);
        let reply = pair.call(lent, &Call::WriteImage { room }, &mut tally);
        assert!(matches!(reply, Reply::WriteImage { answer: Answer::Done(_), .. }));
    }
}
