//! The model behind the library's names, so that every test can run against itself. With
//! `FAULT=name` in the environment it errs in one way, to show that the tests notice.

use crate::answer::{Answer, Bench};
use crate::blif;
use crate::counts::{self, Method};
use crate::model::{self, Counts, Limit, Model, Rounding, Variant, PATTERN, RELIABILITY};
use crate::shared;
use crate::standing::{self, Bent, Outcome};
use std::sync::OnceLock;

#[derive(Clone, Copy, Debug, PartialEq, Eq)]
enum Fault {
    None,
    /// Every division but the last of an average rounds down.
    RoundDown,
    /// A half goes up.
    HalfUp,
    /// Dead gates count as readers in refusal 9.
    DeadReaders,
    /// A chance that is no number is taken for 0.
    NotANumber,
    /// A strike and its window are multiplied in f32.
    StrikeInF32,
    /// A chance is held to 0.5 by its units.
    HalfByUnits,
    /// A chance of 0.5 is refused.
    HalfRefused,
    /// Opening looks at the area's length before anything else.
    LengthFirst,
    /// Turning an input leaves the reliability as it was.
    StaleReliability,
    /// Turning an input changes the pattern alone.
    Echo,
    /// Setting a flip works out that gate's flip word but no figure.
    SetOnly,
    /// Opening clears a word past the last output.
    PastEnd,
    /// A refused read writes its results.
    TouchOut,
    /// A refused turn changes the pattern.
    WriteRefused,
    /// Every place is 0.
    PlaceZero,
    /// The f64 passes through f32.
    ReliabilityInF32,
    /// Average leaves the figures of the last pattern.
    AverageLeaves,
    /// The last division of an average rounds down.
    AverageDown,
    /// The last division of an average takes a half up.
    AverageHalfUp,
    /// Opening lowers the reliability by two units for each live gate: only just too far off.
    TwoUnitsOff,
    /// The live count includes dead gates.
    AllLive,
    /// A list is filled up to whole words of 64 patterns, and all of these are counted.
    LastWord,
    /// A dead gate's flip is counted in every pattern.
    DeadSeen,
    /// Flips are counted by their masks.
    FlipsByMask,
    /// Counts are made under the area's own pattern.
    OwnPattern,
    /// A pattern that is listed twice counts once.
    RepeatsOnce,
    /// Counts past those of the gates are cleared.
    CountsPastEnd,
    /// A slice that is too short for the counts is cleared.
    CountsRefused,
    /// Bytes past the image are cleared.
    ImagePastEnd,
    /// A slice that is too short for the image is cleared.
    ImageRefused,
    /// A backslash before CR LF joins lines too.
    JoinsBeforeCr,
    /// A backslash that ends a comment joins lines too.
    JoinsComments,
    /// Bytes that no name may have part words.
    ControlParts,
    /// The flips of dead gates enter the sum at opening.
    DeadSummed,
    /// Setting a flip leaves the sum.
    StaleSum,
    /// The high word of the sum is always 0.
    NoCarry,
    /// Of the written image: a flip of no units is written as kind 1.
    ZeroAsChance,
    /// Its flips pass through f32.
    FlipsInF32,
    /// It has a heading of one byte.
    WrittenHeading,
    /// Its unused pins are not cleared of what stood in the slice.
    UnusedPins,
    /// Bytes past it are cleared.
    WrittenPastEnd,
    /// A slice as long as the image is refused.
    ExactRefused,
    /// A slice that is too short is filled all the same.
    WrittenRefused,
    /// A comparison leaves out the averages' own half units.
    NoHalves,
    /// A comparison counts only the greater error.
    OneError,
    /// Of two images that are refused the second is named.
    SecondFirst,
    /// The errors of the two modules are exchanged.
    ErrorsExchanged,
    /// Readers of a shared gate that is supposed wrong see it right.
    SeenRight,
    /// A shared gate is refused with 9 where it should not be.
    NineGiven,
    /// Eight shared gates are refused.
    EightRefused,
    /// A pattern's bits past the inputs make it pattern 0.
    HighBits,
    /// A shared gate's chance to be as supposed is left out.
    Unchecked,
    /// A sum of sets above U stays as it is.
    Uncut,
}

const FAULTS: [(&str, Fault); 53] = [
    ("round_down", Fault::RoundDown),
    ("half_up", Fault::HalfUp),
    ("dead_readers", Fault::DeadReaders),
    ("not_a_number", Fault::NotANumber),
    ("strike_in_f32", Fault::StrikeInF32),
    ("half_by_units", Fault::HalfByUnits),
    ("half_refused", Fault::HalfRefused),
    ("length_first", Fault::LengthFirst),
    ("stale_reliability", Fault::StaleReliability),
    ("echo", Fault::Echo),
    ("set_only", Fault::SetOnly),
    ("past_end", Fault::PastEnd),
    ("touch_out", Fault::TouchOut),
    ("write_refused", Fault::WriteRefused),
    ("place_zero", Fault::PlaceZero),
    ("reliability_in_f32", Fault::ReliabilityInF32),
    ("average_leaves", Fault::AverageLeaves),
    ("average_down", Fault::AverageDown),
    ("average_half_up", Fault::AverageHalfUp),
    ("two_units_off", Fault::TwoUnitsOff),
    ("all_live", Fault::AllLive),
    ("last_word", Fault::LastWord),
    ("dead_seen", Fault::DeadSeen),
    ("flips_by_mask", Fault::FlipsByMask),
    ("own_pattern", Fault::OwnPattern),
    ("repeats_once", Fault::RepeatsOnce),
    ("counts_past_end", Fault::CountsPastEnd),
    ("counts_refused", Fault::CountsRefused),
    ("image_past_end", Fault::ImagePastEnd),
    ("image_refused", Fault::ImageRefused),
    ("joins_before_cr", Fault::JoinsBeforeCr),
    ("joins_comments", Fault::JoinsComments),
    ("control_parts", Fault::ControlParts),
    ("dead_summed", Fault::DeadSummed),
    ("stale_sum", Fault::StaleSum),
    ("no_carry", Fault::NoCarry),
    ("zero_as_chance", Fault::ZeroAsChance),
    ("flips_in_f32", Fault::FlipsInF32),
    ("written_heading", Fault::WrittenHeading),
    ("unused_pins", Fault::UnusedPins),
    ("written_past_end", Fault::WrittenPastEnd),
    ("exact_refused", Fault::ExactRefused),
    ("written_refused", Fault::WrittenRefused),
    ("no_halves", Fault::NoHalves),
    ("one_error", Fault::OneError),
    ("second_first", Fault::SecondFirst),
    ("errors_exchanged", Fault::ErrorsExchanged),
    ("seen_right", Fault::SeenRight),
    ("nine_given", Fault::NineGiven),
    ("eight_refused", Fault::EightRefused),
    ("high_bits", Fault::HighBits),
    ("unchecked", Fault::Unchecked),
    ("uncut", Fault::Uncut),
];

fn fault() -> Fault {
    static CHOSEN: OnceLock<Fault> = OnceLock::new();
    *CHOSEN.get_or_init(|| {
        let Ok(name) = std::env::var("FAULT") else {
            return Fault::None;
        };
        match FAULTS.iter().find(|(known, _)| *known == name) {
            Some((_, fault)) => *fault,
            None => panic!("FAULT={name} is none of {:?}", FAULTS.map(|(known, _)| known)),
        }
    })
}

fn bench() -> Model {
    let mut variant = Variant::DOCUMENT;
    match fault() {
        Fault::RoundDown => variant.rounding = Rounding::Down,
        Fault::HalfUp => variant.rounding = Rounding::HalfUp,
        Fault::AverageDown => variant.average_rounding = Rounding::Down,
        Fault::AverageHalfUp => variant.average_rounding = Rounding::HalfUp,
        Fault::DeadReaders => variant.dead_readers_count = true,
        Fault::NotANumber => variant.not_a_number_passes = true,
        Fault::HalfByUnits => variant.limit = Limit::ByUnits,
        Fault::HalfRefused => variant.limit = Limit::Below,
        _ => {}
    }
    Model { variant }
}

/// An answer as the library returns it.
fn encode<T>(answer: &Answer<T>) -> u64 {
    match answer {
        Answer::Done(_) => 0,
        Answer::Refused { number, place } => {
            let place = if fault() == Fault::PlaceZero { 0 } else { *place };
            (u64::from(*number) << 32) + u64::from(place)
        }
    }
}

/// # Safety
/// The pointers and lengths must describe slices that may be used so for the time of the call.
#[no_mangle]
pub unsafe extern "C" fn bench_open(
    area: *mut u32,
    area_len: usize,
    image: *const u8,
    image_len: usize,
    live: *mut u32,
) -> u64 {
    let area = std::slice::from_raw_parts_mut(area, area_len);
    let image = std::slice::from_raw_parts(image, image_len);
    if fault() == Fault::LengthFirst && area.len() < model::HEAD {
        return 13 << 32;
    }
    let answer = bench().open(area, image);
    if let Answer::Done(count) = answer {
        let counts = Counts { inputs: area[0], gates: area[1], outputs: area[2] };
        *live = if fault() == Fault::AllLive { counts.gates } else { count };
        if fault() == Fault::PastEnd && area.len() > counts.words() {
            area[counts.words()] = 0;
        }
        if fault() == Fault::DeadSummed {
            let flip = |gate| u64::from(area[model::gate_at(gate) + model::FLIP]);
            let sum: u64 = (0..counts.gates).map(flip).sum();
            (area[5], area[6]) = (sum as u32, (sum >> 32) as u32);
        }
        if fault() == Fault::NoCarry {
            area[6] = 0;
        }
        if fault() == Fault::TwoUnitsOff {
            area[RELIABILITY] = area[RELIABILITY].saturating_sub(2 * count);
        }
    }
    encode(&answer)
}

/// # Safety
/// As for `bench_open`.
#[no_mangle]
pub unsafe extern "C" fn bench_toggle_input(area: *mut u32, area_len: usize, input: u32) -> u64 {
    let area = std::slice::from_raw_parts_mut(area, area_len);
    let before = area.to_vec();
    let answer = bench().toggle_input(area, input);
    match (fault(), answer) {
        (Fault::StaleReliability, Answer::Done(())) => area[RELIABILITY] = before[RELIABILITY],
        (Fault::Echo, Answer::Done(())) => {
            let pattern = area[PATTERN];
            area.copy_from_slice(&before);
            area[PATTERN] = pattern;
        }
        (Fault::WriteRefused, Answer::Refused { number: 10, .. }) => area[PATTERN] ^= 1,
        _ => {}
    }
    encode(&answer)
}

/// # Safety
/// As for `bench_open`.
#[no_mangle]
pub unsafe extern "C" fn bench_set_flip(
    area: *mut u32,
    area_len: usize,
    gate: u32,
    mut kind: u8,
    field: u64,
) -> u64 {
    let area = std::slice::from_raw_parts_mut(area, area_len);
    let before = area.to_vec();
    let mut field = field.to_le_bytes();
    if fault() == Fault::StrikeInF32 && kind == 2 && model::flip_chance(kind, field).is_some() {
        let number = u64::from_le_bytes(field);
        let product = f32::from_bits(number as u32) * f32::from_bits((number >> 32) as u32);
        (kind, field) = (1, f64::from(product).to_le_bytes());
    }
    let answer = bench().set_flip(area, gate, kind, field);
    match (fault(), answer) {
        (Fault::SetOnly, Answer::Done(())) => {
            let at = model::gate_at(gate) + model::FLIP;
            let units = area[at];
            area.copy_from_slice(&before);
            area[at] = units;
        }
        (Fault::StaleSum, Answer::Done(())) => area[5..7].copy_from_slice(&before[5..7]),
        _ => {}
    }
    encode(&answer)
}

/// # Safety
/// As for `bench_open`.
#[no_mangle]
pub unsafe extern "C" fn bench_read_netlist(
    area: *const u32,
    area_len: usize,
    pattern: *mut u32,
    units: *mut u32,
    reliability: *mut f64,
) -> u64 {
    let area = std::slice::from_raw_parts(area, area_len);
    let answer = bench().read_netlist(area);
    if let Answer::Done(reading) = answer {
        *pattern = reading.pattern;
        *units = reading.units;
        *reliability = f64::from_bits(reading.reliability_bits);
        if fault() == Fault::ReliabilityInF32 {
            *reliability = f64::from(*reliability as f32);
        }
    } else if fault() == Fault::TouchOut {
        *reliability = 0.0;
    }
    encode(&answer)
}

/// # Safety
/// As for `bench_open`.
#[no_mangle]
pub unsafe extern "C" fn bench_read_gate(
    area: *const u32,
    area_len: usize,
    gate: u32,
    right: *mut u32,
    failure: *mut u32,
) -> u64 {
    let area = std::slice::from_raw_parts(area, area_len);
    let answer = bench().read_gate(area, gate);
    if let Answer::Done(reading) = answer {
        *right = reading.right;
        *failure = reading.failure;
    }
    encode(&answer)
}

/// # Safety
/// As for `bench_open`.
#[no_mangle]
pub unsafe extern "C" fn bench_average(
    area: *mut u32,
    area_len: usize,
    weights: *const u32,
    weights_len: usize,
    units: *mut u32,
) -> u64 {
    let area = std::slice::from_raw_parts_mut(area, area_len);
    let weights = std::slice::from_raw_parts(weights, weights_len);
    let bench = bench();
    let mut last = area.to_vec();
    let answer = bench.average(area, weights);
    if let Answer::Done(average) = answer {
        if fault() == Fault::AverageLeaves {
            last[PATTERN] = weights.len() as u32 - 1;
            bench.average(&mut last, weights);
            last[PATTERN] = area[PATTERN];
            area.copy_from_slice(&last);
        }
        *units = average;
    }
    encode(&answer)
}

/// # Safety
/// As for `bench_open`.
#[no_mangle]
pub unsafe extern "C" fn bench_counts_by_flip(
    area: *const u32,
    area_len: usize,
    patterns: *const u32,
    patterns_len: usize,
    counts: *mut u32,
    counts_len: usize,
) -> u64 {
    let area = std::slice::from_raw_parts(area, area_len);
    let patterns = std::slice::from_raw_parts(patterns, patterns_len);
    let slice = std::slice::from_raw_parts_mut(counts, counts_len);
    let method = if fault() == Fault::FlipsByMask { Method::Mask } else { Method::Flip };
    counts_by(method, area, patterns, slice)
}

/// # Safety
/// As for `bench_open`.
#[no_mangle]
pub unsafe extern "C" fn bench_counts_by_mask(
    area: *const u32,
    area_len: usize,
    patterns: *const u32,
    patterns_len: usize,
    counts: *mut u32,
    counts_len: usize,
) -> u64 {
    let area = std::slice::from_raw_parts(area, area_len);
    let patterns = std::slice::from_raw_parts(patterns, patterns_len);
    let slice = std::slice::from_raw_parts_mut(counts, counts_len);
    counts_by(Method::Mask, area, patterns, slice)
}

fn counts_by(method: Method, area: &[u32], patterns: &[u32], slice: &mut [u32]) -> u64 {
    let answer = bench().counts(method, area, patterns, slice);
    match (fault(), answer) {
        (Fault::CountsRefused, Answer::Refused { number: 17, .. }) => slice.fill(0),
        (_, Answer::Done(())) => spoil_counts(method, area, patterns, slice),
        _ => {}
    }
    encode(&answer)
}

fn spoil_counts(method: Method, area: &[u32], patterns: &[u32], slice: &mut [u32]) {
    let of_area = Counts::of(area);
    let (seen, past) = slice.split_at_mut(of_area.gates as usize);
    let mut list = patterns.to_vec();
    match fault() {
        Fault::LastWord => list.resize(list.len().next_multiple_of(64), 0),
        Fault::OwnPattern => list.fill(area[PATTERN]),
        Fault::RepeatsOnce => {
            list.sort();
            list.dedup();
        }
        Fault::DeadSeen => {
            let live = counts::live(area, of_area);
            for (count, _) in seen.iter_mut().zip(live).filter(|(_, live)| !live) {
                *count = list.len() as u32;
            }
        }
        Fault::CountsPastEnd => past.fill(0),
        _ => {}
    }
    if list != patterns {
        seen.copy_from_slice(&counts::count(method, area, of_area, &list));
    }
}

/// # Safety
/// As for `bench_open`.
#[no_mangle]
pub unsafe extern "C" fn bench_write_image(
    area: *const u32,
    area_len: usize,
    image: *mut u8,
    image_len: usize,
    bytes: *mut u32,
) -> u64 {
    let area = std::slice::from_raw_parts(area, area_len);
    let slice = std::slice::from_raw_parts_mut(image, image_len);
    let before = slice.to_vec();
    let answer = bench().write_image(area, slice);
    match answer {
        Answer::Done(length)
            if fault() == Fault::ExactRefused && length as usize == before.len() =>
        {
            slice.copy_from_slice(&before);
            return 21 << 32;
        }
        Answer::Done(length) => {
            *bytes = spoil_image(&before, slice, length as usize) as u32;
        }
        Answer::Refused { number: 21, .. } if fault() == Fault::WrittenRefused => slice.fill(0),
        _ => {}
    }
    encode(&answer)
}

/// The written image as one of the faults leaves it, and its length.
fn spoil_image(before: &[u8], slice: &mut [u8], length: usize) -> usize {
    let trailer = length - model::TRAILER;
    let gates = usize::from(u16::from_le_bytes([slice[trailer + 2], slice[trailer + 3]]));
    match fault() {
        Fault::WrittenPastEnd => slice[length..].fill(0),
        Fault::WrittenHeading if length < slice.len() => {
            slice.copy_within(..length, 1);
            slice[length - 3..=length].copy_from_slice(&(length as u32 + 1).to_le_bytes());
            return length + 1;
        }
        Fault::ZeroAsChance | Fault::FlipsInF32 | Fault::UnusedPins => {
            for at in (0..gates).map(|gate| gate * model::RECORD) {
                spoil_record(&mut slice[at..at + model::RECORD], &before[at..]);
            }
        }
        _ => {}
    }
    length
}

fn spoil_record(record: &mut [u8], before: &[u8]) {
    let field = [0, 1, 2, 3, 4, 5, 6, 7].map(|byte| record[12 + byte]);
    match fault() {
        Fault::ZeroAsChance => record[1] = 1,
        Fault::FlipsInF32 => {
            let short = f64::from(f64::from_le_bytes(field) as f32);
            record[12..].copy_from_slice(&short.to_le_bytes());
        }
        _ => {
            let unused = 4 + 2 * usize::from(record[0])..12;
            record[unused.clone()].copy_from_slice(&before[unused]);
        }
    }
}

/// # Safety
/// As for `bench_open`.
#[no_mangle]
pub unsafe extern "C" fn bench_read_blif(
    text: *const u8,
    text_len: usize,
    image: *mut u8,
    image_len: usize,
    bytes: *mut u32,
) -> u64 {
    let text = spoil_text(std::slice::from_raw_parts(text, text_len));
    let slice = std::slice::from_raw_parts_mut(image, image_len);
    let answer = blif::read_blif(&text, slice);
    match (fault(), answer) {
        (Fault::ImagePastEnd, Answer::Done(length)) => slice[length as usize..].fill(0),
        (Fault::ImageRefused, Answer::Refused { number: 20, .. }) => slice.fill(0),
        _ => {}
    }
    if let Answer::Done(length) = answer {
        *bytes = length;
    }
    encode(&answer)
}

/// # Safety
/// As for `bench_open`.
#[no_mangle]
pub unsafe extern "C" fn bench_error_of_image(
    image: *const u8,
    image_len: usize,
    halves: *mut u32,
    live: *mut u32,
) -> u64 {
    let image = std::slice::from_raw_parts(image, image_len);
    let answer = standing::error_of_image(&bench(), image);
    if let Answer::Done((error, count)) = answer {
        (*halves, *live) = (error, count);
    }
    encode(&answer)
}

/// # Safety
/// As for `bench_open`.
#[no_mangle]
pub unsafe extern "C" fn bench_compare(
    first: *const u8,
    first_len: usize,
    second: *const u8,
    second_len: usize,
    result: *mut [u32; 16],
) -> u64 {
    let first = std::slice::from_raw_parts(first, first_len);
    let second = std::slice::from_raw_parts(second, second_len);
    let bent = Bent {
        no_halves: fault() == Fault::NoHalves,
        one_error: fault() == Fault::OneError,
        second_first: fault() == Fault::SecondFirst,
    };
    match standing::compare(&bench(), first, second, bent) {
        Outcome::Done(mut comparison) => {
            if fault() == Fault::ErrorsExchanged {
                let [one, other] = &mut comparison.modules;
                std::mem::swap(&mut one.error, &mut other.error);
            }
            *result = comparison.words();
            0
        }
        Outcome::Refused { image, number, place } => {
            (u64::from(image) << 40) + (u64::from(number) << 32) + u64::from(place)
        }
    }
}

/// # Safety
/// As for `bench_open`.
#[no_mangle]
pub unsafe extern "C" fn bench_shared_reliability(
    image: *const u8,
    image_len: usize,
    pattern: u32,
    units: *mut u32,
) -> u64 {
    let image = std::slice::from_raw_parts(image, image_len);
    let bent = shared::Bent {
        seen_right: fault() == Fault::SeenRight,
        nine_given: fault() == Fault::NineGiven,
        eight_refused: fault() == Fault::EightRefused,
        high_bits: fault() == Fault::HighBits,
        unchecked: fault() == Fault::Unchecked,
        uncut: fault() == Fault::Uncut,
    };
    let answer = shared::shared_reliability(&bench(), image, pattern, bent);
    if let Answer::Done(reliability) = answer {
        *units = reliability;
    }
    encode(&answer)
}

/// The text as one of the faults takes it.
fn spoil_text(text: &[u8]) -> Vec<u8> {
    let mut text = text.to_vec();
    let mut comment = false;
    for at in 0..text.len() {
        let (byte, next) = (text[at], text.get(at + 1).copied());
        comment = byte != b'\n' && (comment || byte == b'#');
        match fault() {
            Fault::JoinsBeforeCr if byte == b'\\' && next == Some(b'\r') => text.swap(at, at + 1),
            Fault::JoinsComments if comment && byte == b'\\' && next == Some(b'\n') => {
                text[at + 1] = b' '
            }
            Fault::ControlParts if byte < 32 && byte != b'\n' => text[at] = b' ',
            _ => {}
        }
    }
    text
}
