//! Which refusal comes first when several apply: every combination, with the answer written down
//! here and not taken from the model.

use second::answer::Answer;
use second::compare::{count, lent_bytes, lent_counts, write};
use second::counts::{Method, MAX_LISTED, METHODS};
use second::ffi::{self, Library};
use second::images::{chance, Draft, Record, NEVER};
use second::model::{gate_at, FIGURE, FLIP, MAX_FLIP, PINS, U};

/// Two buffers into an AND that the first output reads; the second output reads an input.
fn sound() -> Draft {
    Draft {
        inputs: 2,
        gates: vec![
            Record::new(2, &[0], NEVER),
            Record::new(2, &[1], NEVER),
            Record::new(8, &[2, 3], NEVER),
        ],
        outputs: vec![4, 0],
        ..Draft::default()
    }
}

fn spoil_gate(draft: &mut Draft, number: u8, gate: usize) {
    let own = draft.inputs + gate as u16;
    let record = &mut draft.gates[gate];
    match number {
        5 => record.pins[3] = 1,
        6 => record.pins[0] = own,
        7 => record.kind = 3,
        // Where the kind is 3 already it stays so: 7 comes first.
        22 if record.kind == 3 => {}
        22 => (record.kind, record.field) = chance(0.75),
        _ => unreachable!(),
    }
}

/// What a gate can be refused for, in the order in which it is tried.
const OF_A_GATE: [u8; 4] = [5, 6, 7, 22];

/// Applies the refusals of `set` (bit b stands for NUMBERS[b]) and gives the image and the length of
/// the area to lend.
const NUMBERS: [u8; 11] = [1, 2, 3, 4, 5, 6, 7, 22, 8, 9, 13];

fn spoilt(set: u32) -> (Vec<u8>, usize) {
    let has = |number: u8| {
        let bit = NUMBERS.iter().position(|known| *known == number).expect("a known number");
        (set >> bit) & 1 == 1
    };
    let mut draft = sound();
    for number in OF_A_GATE {
        if has(number) {
            spoil_gate(&mut draft, number, 1);
        }
    }
    if has(8) {
        draft.outputs[1] = draft.sources();
    }
    if has(9) {
        draft.outputs.push(4);
    }
    let words = draft.words();
    if has(4) {
        let body = 20 * draft.gates.len() as u32 + 2 * draft.outputs.len() as u32;
        draft.back = Some(body + 1);
    }
    if has(3) {
        draft.inputs = 13;
    }
    if has(2) {
        draft.format = Some(2);
    }
    if has(1) {
        draft.total = Some(draft.bytes().len() as u32 + 1);
    }
    (draft.bytes(), if has(13) { words - 1 } else { words })
}

#[test]
fn at_open_the_first_of_any_set_wins() {
    for set in 0..1u32 << NUMBERS.len() {
        let (image, words) = spoilt(set);
        let mut area = vec![9; words];
        let expected = if set == 0 {
            Answer::Done(3)
        } else {
            let number = NUMBERS[set.trailing_zeros() as usize];
            let place = match number {
                5..=8 | 22 => 1,
                9 => 2,
                _ => 0,
            };
            Answer::Refused { number, place }
        };
        assert_eq!(ffi::open(&mut area, &image), expected, "set {set:#b}");
        if set != 0 {
            assert_eq!(area, vec![9; words], "set {set:#b} changed the area");
        }
    }
}

#[test]
fn at_open_an_earlier_gate_comes_before_a_lower_number() {
    let mut area = [0; 64];
    for first in OF_A_GATE {
        for second in OF_A_GATE {
            let mut draft = sound();
            spoil_gate(&mut draft, first, 0);
            spoil_gate(&mut draft, second, 2);
            let expected = Answer::Refused { number: first, place: 0 };
            assert_eq!(ffi::open(&mut area, &draft.bytes()), expected);
        }
    }
}

#[test]
fn at_open_the_lowest_place_of_a_list_is_named() {
    let mut area = [0; 64];
    let mut draft = sound();
    draft.outputs = vec![0, 5, 1, 6];
    assert_eq!(ffi::open(&mut area, &draft.bytes()), Answer::Refused { number: 8, place: 1 });
    // Gate 1 and gate 2 both have two live readers; an output names gate 2 first.
    draft.outputs = vec![4, 4, 3];
    assert_eq!(ffi::open(&mut area, &draft.bytes()), Answer::Refused { number: 9, place: 1 });
}

#[test]
fn at_open_a_short_area_is_told_last() {
    let image = sound().bytes();
    let needs = sound().words();
    for words in 0..needs {
        let mut area = vec![1; words];
        let expected = Answer::Refused { number: 13, place: 0 };
        assert_eq!(ffi::open(&mut area, &image), expected, "{words} words");
    }
    assert_eq!(ffi::open(&mut vec![1; needs], &image), Answer::Done(3));
    // Lengths that no image can have, with nothing to read.
    for length in (0..16).chain([32_769, 40_000]) {
        let expected = Answer::Refused { number: 1, place: 0 };
        assert_eq!(ffi::open(&mut [], &vec![0; length]), expected, "{length} bytes");
    }
}

/// The conditions of the calls on an open area, in the order in which they are tried.
const BELOW_EIGHT: u32 = 1;
const COUNTS: u32 = 2;
const SHORT: u32 = 4;
const RULE: u32 = 8;
const NAMED: u32 = 16;
const ARGUMENT: u32 = 32;

/// An area with the chosen faults; `rule` picks the fault for `RULE`.
fn spoilt_area(set: u32, rule: usize) -> Vec<u32> {
    let draft = sound();
    let mut area = vec![0; draft.words()];
    assert_eq!(ffi::open(&mut area, &draft.bytes()), Answer::Done(3));
    if set & RULE != 0 {
        let (at, word) = rule_faults()[rule];
        area[at] = word;
    }
    if set & COUNTS != 0 {
        area[rule % 3] = 70_000;
    }
    if set & SHORT != 0 {
        area.pop();
    }
    if set & BELOW_EIGHT != 0 {
        area.truncate(7 - rule % 8);
    }
    area
}

/// A word and a value for each rule of 14 besides the counts.
fn rule_faults() -> Vec<(usize, u32)> {
    let gate = gate_at(2);
    vec![
        (3, 4),
        (4, U as u32 + 1),
        (5, 1),
        (6, 1),
        (7, 1),
        (gate, 5),
        (gate, 1),
        (gate + 1, 16),
        (gate + PINS, 4),
        (gate + PINS + 2, 1),
        (gate + FLIP, MAX_FLIP as u32 + 1),
        (gate + FLIP, U as u32),
        (gate + FIGURE, 2 * U as u32 + 2),
        // The first output only: the last word of the area is cut off by SHORT.
        (gate_at(3), 5),
    ]
}

fn expected<T>(set: u32, done: T, named: u32, argument: (u8, u32)) -> Answer<T> {
    let (number, place) = match set {
        0 => return Answer::Done(done),
        _ if set & BELOW_EIGHT != 0 => (13, 0),
        _ if set & COUNTS != 0 => (14, 0),
        _ if set & SHORT != 0 => (13, 0),
        _ if set & RULE != 0 => (14, 0),
        _ if set & NAMED != 0 => (10, named),
        _ => argument,
    };
    Answer::Refused { number, place }
}

#[test]
fn in_the_other_calls_the_first_of_any_set_wins() {
    for rule in 0..rule_faults().len() {
        for set in 0..64u32 {
            check_calls(set, rule);
        }
    }
}

fn check_calls(set: u32, rule: usize) {
    let before = spoilt_area(set, rule);
    let told = format!("set {set:#b}, rule {rule}");
    let bad_name = set & NAMED != 0;
    let bad_argument = set & ARGUMENT != 0;

    let mut area = before.clone();
    let gate = if bad_name { 3 } else { 1 };
    let flips: &[(u8, f64)] =
        if bad_argument { &[(11, f64::NAN), (11, -1.0), (22, 1.0)] } else { &[(0, 0.5)] };
    for (number, chance) in flips {
        let answer = ffi::set_flip(&mut area, gate, 1, chance.to_le_bytes());
        assert_eq!(answer, expected(set, (), 3, (*number, 1)), "set flip, {told}");
        assert!(set == 0 || area == before, "set flip wrote, {told}");
    }

    let area_only = set & !ARGUMENT;
    let mut area = before.clone();
    let input = if bad_name { 2 } else { 1 };
    let answer = ffi::toggle_input(&mut area, input);
    assert_eq!(answer, expected(area_only, (), 2, (0, 0)), "toggle, {told}");
    assert!(area_only == 0 || area == before, "toggle wrote, {told}");

    let answer = ffi::read_gate(&before, if bad_name { u32::MAX } else { 2 });
    let wanted = expected(area_only, (), u32::MAX, (0, 0));
    assert_eq!(answer.number(), wanted.number(), "read gate, {told}");
    if let (Answer::Refused { place, .. }, Answer::Refused { place: wanted, .. }) = (answer, wanted)
    {
        assert_eq!(place, wanted, "read gate, {told}");
    }

    let words_only = set & !(ARGUMENT | NAMED);
    let answer = ffi::read_netlist(&before);
    assert_eq!(answer.number(), expected(words_only, (), 0, (0, 0)).number(), "read, {told}");

    let mut area = before.clone();
    let without_name = set & !NAMED;
    let weights = if bad_argument { vec![1, 2, 1_048_576, 1_048_577] } else { vec![1, 2, 3, 4] };
    let answer = ffi::average(&mut area, &weights);
    assert_eq!(answer, expected(without_name, U as u32, 0, (12, 2)), "average, {told}");
    assert!(without_name == 0 || area == before, "average wrote, {told}");
}

#[test]
fn a_bad_flip_kind_is_told_whatever_the_field_holds() {
    let draft = sound();
    let mut area = vec![0; draft.words()];
    ffi::open(&mut area, &draft.bytes()).done();
    for kind in 3..=255 {
        for field in [[0; 8], chance(0.5).1, [255; 8]] {
            let expected = Answer::Refused { number: 11, place: 0 };
            assert_eq!(ffi::set_flip(&mut area, 0, kind, field), expected);
        }
    }
}

#[test]
fn weights_length_then_size_then_zero() {
    let draft = sound();
    let mut area = vec![0; draft.words()];
    ffi::open(&mut area, &draft.bytes()).done();
    let over = 1_048_576;
    let cases: [(&[u32], u32); 8] = [
        (&[], 0),
        (&[0, 0, over], 0),
        (&[0, 0, over, 0, 0], 0),
        (&[1, 1, 1, 1, 1, 1, 1, 1], 0),
        (&[0, over, 0, 0], 1),
        (&[0, 0, 0, u32::MAX], 3),
        (&[over, over, over, over], 0),
        (&[0, 0, 0, 0], 0),
    ];
    for (weights, place) in cases {
        let expected = Answer::Refused { number: 12, place };
        assert_eq!(ffi::average(&mut area, weights), expected, "{weights:?}");
    }
    assert_eq!(ffi::average(&mut area, &[0, 0, 0, over - 1]), Answer::Done(U as u32));
}

/// Writing has one condition after those of the area: room for the image, here of 80 bytes.
#[test]
fn in_writing_the_first_of_any_set_wins() {
    for rule in 0..rule_faults().len() {
        for set in 0..32u32 {
            let area = spoilt_area(set, rule);
            let before = area.clone();
            for room in if set & ROOM_FOR_IMAGE != 0 { [0, 16, 79] } else { [80, 81, 200] } {
                let told = format!("{room} bytes, set {set:#b}, rule {rule}");
                let (answer, bytes) = write(&Library, &area, room);
                let wanted = match set {
                    0 => Answer::Done(80),
                    ROOM_FOR_IMAGE => Answer::Refused { number: 21, place: 0 },
                    _ => expected(set & !ROOM_FOR_IMAGE, 0, 0, (0, 0)),
                };
                assert_eq!(answer, wanted, "{told}");
                let first = if set == 0 { 80 } else { 0 };
                assert_eq!(bytes[first..], lent_bytes(room)[first..], "{told}");
                assert!(set != 0 || bytes[..80] == sound().bytes(), "{told}");
                assert_eq!(area, before, "{told}");
            }
        }
    }
}

const ROOM_FOR_IMAGE: u32 = 16;

/// The conditions of counting after those of the area, in the order in which they are tried.
const LIST: u32 = 16;
const PATTERN: u32 = 32;
const ROOM: u32 = 64;

#[test]
fn in_counting_the_first_of_any_set_wins() {
    for rule in 0..rule_faults().len() {
        for set in 0..128u32 {
            for method in METHODS {
                check_counting(set, rule, method);
            }
        }
    }
}

fn check_counting(set: u32, rule: usize, method: Method) {
    let area = spoilt_area(set, rule);
    let before = area.clone();
    let room = if set & ROOM != 0 { 2 } else { 4 };
    let expected = match set {
        _ if set & (BELOW_EIGHT | COUNTS | SHORT | RULE) != 0 => expected(set, (), 0, (0, 0)),
        _ if set & LIST != 0 => Answer::Refused { number: 15, place: 0 },
        _ if set & PATTERN != 0 => Answer::Refused { number: 16, place: 2 },
        _ if set & ROOM != 0 => Answer::Refused { number: 17, place: 0 },
        _ => Answer::Done(()),
    };
    let mut counts = lent_counts(room);
    if set == 0 {
        counts[..3].copy_from_slice(&[2, 2, 4]);
    }
    for list in spoilt_lists(set) {
        let told = format!("{method:?}, {} patterns, set {set:#b}, rule {rule}", list.len());
        let found = count(&Library, method, &area, &list, room);
        assert_eq!(found, (expected, counts.clone()), "{told}");
        assert_eq!(area, before, "{told}");
    }
}

/// The lists with the chosen faults: an empty one has no pattern that could be too large.
fn spoilt_lists(set: u32) -> Vec<Vec<u32>> {
    let mut list = vec![0, 1, 2, 3];
    if set & PATTERN != 0 {
        list = vec![0, 1, 4, u32::MAX];
    }
    if set & LIST == 0 {
        return vec![list];
    }
    list.resize(MAX_LISTED + 1, 3);
    if set & PATTERN == 0 {
        vec![vec![], list]
    } else {
        vec![list]
    }
}
