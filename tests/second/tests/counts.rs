//! In how many patterns a flip shows at an output: known counts, lists and slices at their limits, and
//! random areas, left by calls and left by none, beside the model.

use second::answer::Answer;
use second::compare::{count, lent_counts, Call, Pair, Reply, Tally};
use second::counts::{live, Method, MAX_LISTED, METHODS};
use second::ffi::{self, Library};
use second::images::{
    break_area, chain, chance, foreign_area, good_draft, Draft, Record, Size, AREA_BREAKS,
    FIRST_CUT, NEVER,
};
use second::model::{
    gate_at, store_sum, Counts, FIGURE, FLIP, GATE_WORDS, MAX_FLIP, PATTERN, RELIABILITY, U,
};
use second::random::{seed, Random};

const SMALL: Size = Size { inputs: 4, gates: 10, outputs: 4 };
const MIDDLE: Size = Size { inputs: 12, gates: 40, outputs: 12 };
const LARGE: Size = Size { inputs: 12, gates: 1024, outputs: 64 };

fn refused(number: u8, place: u32) -> Answer<()> {
    Answer::Refused { number, place }
}

/// An area without figures: a table and the pins for each gate.
fn area(inputs: u32, gates: &[(u32, &[u32])], outputs: &[u32]) -> Vec<u32> {
    let mut area = vec![inputs, gates.len() as u32, outputs.len() as u32, 0, 0, 0, 0, 0];
    for (table, pins) in gates {
        let mut words = [0; GATE_WORDS];
        (words[0], words[1]) = (pins.len() as u32, *table);
        words[2..2 + pins.len()].copy_from_slice(pins);
        area.extend(words);
    }
    area.extend(outputs);
    area
}

fn opened(draft: &Draft) -> Vec<u32> {
    let mut area = vec![0; draft.words()];
    ffi::open(&mut area, &draft.bytes()).done();
    area
}

/// The library's counts, which must be done and leave the area.
fn counts(method: Method, area: &[u32], patterns: &[u32]) -> Vec<u32> {
    let before = area.to_vec();
    let (answer, counts) = count(&Library, method, area, patterns, area[1] as usize);
    assert_eq!(answer, Answer::Done(()), "{method:?} of {} patterns on {area:?}", patterns.len());
    assert_eq!(area, before);
    counts
}

/// The counts by the flip, which must be those by masks.
fn by_both(area: &[u32], patterns: &[u32]) -> Vec<u32> {
    let by_flip = counts(Method::Flip, area, patterns);
    assert_eq!(counts(Method::Mask, area, patterns), by_flip, "{patterns:?} on {area:?}");
    by_flip
}

fn some_patterns(random: &mut Random, inputs: u32, length: usize) -> Vec<u32> {
    (0..length).map(|_| random.below(1 << inputs) as u32).collect()
}

// ---------------------------------------------------------------------------------------------
// Known counts

#[test]
fn an_and_into_an_inverter() {
    let area = area(2, &[(8, &[0, 1]), (1, &[2])], &[3]);
    assert_eq!(by_both(&area, &[0, 1, 2, 3]), [4, 4]);
}

#[test]
fn two_buffers_into_an_and() {
    let area = area(2, &[(2, &[0]), (2, &[1]), (8, &[2, 3])], &[4]);
    assert_eq!(by_both(&area, &[0, 1, 2, 3]), [2, 2, 4]);
    // A buffer's flip shows where the other pin is 1.
    for (pattern, expected) in [[0, 0, 1], [0, 1, 1], [1, 0, 1], [1, 1, 1]].iter().enumerate() {
        assert_eq!(by_both(&area, &[pattern as u32]), expected, "pattern {pattern}");
    }
    // The same through an image, with flips that have no part in it.
    let gates = vec![
        Record::new(2, &[0], chance(0.5)),
        Record::new(2, &[1], NEVER),
        Record::new(8, &[2, 3], chance(0.25)),
    ];
    let draft = Draft { inputs: 2, gates, outputs: vec![4], ..Draft::default() };
    assert_eq!(by_both(&opened(&draft), &[3, 2, 1, 0]), [2, 2, 4]);
}

#[test]
fn dead_gates_count_nothing() {
    // A buffer that a live and a dead buffer read.
    let beside = area(1, &[(2, &[0]), (2, &[1]), (2, &[1])], &[2]);
    assert_eq!(by_both(&beside, &[0, 1]), [2, 2, 0]);
    // Two gates that only a dead one reads, and a netlist that is dead altogether.
    let behind = area(1, &[(2, &[0]), (1, &[]), (6, &[1, 2]), (1, &[0])], &[4]);
    assert_eq!(by_both(&behind, &[0, 1, 1]), [0, 0, 0, 3]);
    let all = area(1, &[(2, &[0]), (8, &[1, 1])], &[0]);
    assert_eq!(by_both(&all, &[0, 1]), [0, 0]);
}

#[test]
fn shared_gates_part_the_methods() {
    // On both pins of an XOR: the flip undoes itself, and each pin alone would pass it on.
    let xor = area(1, &[(2, &[0]), (6, &[1, 1])], &[2]);
    assert_eq!(counts(Method::Flip, &xor, &[0, 1]), [0, 2]);
    assert_eq!(counts(Method::Mask, &xor, &[0, 1]), [2, 2]);
    // On both pins of an AND, by way of buffers: at 0 it takes both wrong pins to be seen.
    let and = area(1, &[(2, &[0]), (2, &[1]), (2, &[1]), (8, &[2, 3])], &[4]);
    assert_eq!(counts(Method::Flip, &and, &[0, 1]), [2, 1, 1, 2]);
    assert_eq!(counts(Method::Mask, &and, &[0, 1]), [1, 1, 1, 2]);
    // On two outputs it is seen all the same, once for each pattern.
    assert_eq!(by_both(&area(1, &[(2, &[0])], &[1, 1, 0]), &[0, 1, 1]), [3]);
}

#[test]
fn without_inputs_there_is_one_pattern() {
    let constants = area(0, &[(1, &[]), (0, &[]), (8, &[0, 1])], &[2]);
    assert_eq!(by_both(&constants, &[0]), [0, 1, 1]);
    assert_eq!(by_both(&constants, &[0; MAX_LISTED]), [0, 4096, 4096]);
    for method in METHODS {
        let found = count(&Library, method, &constants, &[0, 0, 1], 3);
        assert_eq!(found, (refused(16, 2), lent_counts(3)));
    }
}

#[test]
fn without_gates_there_is_no_count() {
    let wire = area(1, &[], &[0]);
    for method in METHODS {
        for room in [0, 1, 70] {
            let of = |patterns: &[u32]| count(&Library, method, &wire, patterns, room);
            assert_eq!(of(&[1, 0]), (Answer::Done(()), lent_counts(room)));
            assert_eq!(of(&[]), (refused(15, 0), lent_counts(room)));
            assert_eq!(of(&[1, 2]), (refused(16, 1), lent_counts(room)));
        }
    }
}

// ---------------------------------------------------------------------------------------------
// Limits

#[test]
fn lists_of_every_length() {
    let mut random = Random::new(seed() ^ 12);
    let mut tally = Tally::default();
    let lengths = (0..=4).chain(60..=68).chain(124..=132).chain(4093..=4099);
    for length in lengths {
        for round in 0..8 {
            let area = match round % 2 {
                0 => opened(&good_draft(&mut random, SMALL)),
                _ => foreign_area(&mut random, SMALL),
            };
            let (inputs, room, lent) = (area[0], area[1] as usize, area.len());
            let mut pair = Pair::new(area);
            for method in METHODS {
                let patterns = some_patterns(&mut random, inputs, length);
                let reply = pair.call(lent, &Call::Counts { method, patterns, room }, &mut tally);
                let taken = (1..=MAX_LISTED).contains(&length);
                assert_eq!(reply.refusal(), if taken { None } else { Some((15, 0)) }, "{length}");
            }
        }
    }
    tally.print();
}

#[test]
fn patterns_at_their_limit() {
    for inputs in 0..=12 {
        let area = area(inputs, &[(1, &[])], &[inputs]);
        let end = 1 << inputs;
        for method in METHODS {
            let of = |patterns: &[u32]| count(&Library, method, &area, patterns, 1);
            assert_eq!(of(&[end - 1, 0, end - 1]), (Answer::Done(()), vec![3]));
            for bad in [end, end + 1, 2 * end, 1 << 31, u32::MAX] {
                assert_eq!(of(&[bad]), (refused(16, 0), lent_counts(1)));
                assert_eq!(of(&[0, end - 1, bad, 0, u32::MAX]), (refused(16, 2), lent_counts(1)));
            }
            let mut longest = vec![end - 1; MAX_LISTED];
            longest[MAX_LISTED - 1] = end;
            assert_eq!(of(&longest), (refused(16, 4095), lent_counts(1)));
        }
    }
}

#[test]
fn slices_short_exact_and_longer() {
    let mut random = Random::new(seed() ^ 13);
    for _ in 0..300 {
        let area = foreign_area(&mut random, SMALL);
        let gates = area[1] as usize;
        let patterns = some_patterns(&mut random, area[0], 70);
        for method in METHODS {
            let exact = counts(method, &area, &patterns);
            for room in 0..gates {
                let found = count(&Library, method, &area, &patterns, room);
                assert_eq!(found, (refused(17, 0), lent_counts(room)), "{room} for {gates} gates");
            }
            for room in [gates, gates + 1, gates + 2, gates + 64] {
                let mut expected = lent_counts(room);
                expected[..gates].copy_from_slice(&exact);
                let found = count(&Library, method, &area, &patterns, room);
                assert_eq!(found, (Answer::Done(()), expected), "{room} for {gates} gates");
            }
        }
    }
}

/// Every way to break an area comes before every fault of the list and of the slice.
#[test]
fn broken_areas_are_told_first() {
    let mut random = Random::new(seed() ^ 14);
    for (way, name) in AREA_BREAKS.iter().enumerate() {
        let mut broken = 0;
        while broken < 20 {
            let mut area = foreign_area(&mut random, SMALL);
            let counts = Counts::of(&area);
            if !break_area(&mut random, &mut area, counts, way) {
                continue;
            }
            broken += 1;
            let expected = refused(if way < FIRST_CUT { 14 } else { 13 }, 0);
            for method in METHODS {
                for list in [&[][..], &[0], &[0, u32::MAX], &[0; MAX_LISTED + 1]] {
                    for room in [0, counts.gates as usize] {
                        let found = count(&Library, method, &area, list, room);
                        assert_eq!(found, (expected, lent_counts(room)), "{name}: {area:?}");
                    }
                }
            }
        }
    }
}

// ---------------------------------------------------------------------------------------------
// Laws of the library alone

/// A list's counts are those of its patterns one by one, so neither order nor blocks matter.
#[test]
fn counts_of_single_patterns_add_up() {
    let mut random = Random::new(seed() ^ 15);
    for _ in 0..200 {
        let area = foreign_area(&mut random, SMALL);
        let length = random.between(1, 200) as usize;
        let patterns = some_patterns(&mut random, area[0], length);
        for method in METHODS {
            let mut sum = vec![0; area[1] as usize];
            for pattern in &patterns {
                for (sum, one) in sum.iter_mut().zip(counts(method, &area, &[*pattern])) {
                    *sum += one;
                }
            }
            assert_eq!(counts(method, &area, &patterns), sum);
            let twice: Vec<u32> = patterns.iter().rev().chain(&patterns).copied().collect();
            let doubled: Vec<u32> = sum.iter().map(|count| 2 * count).collect();
            assert_eq!(counts(method, &area, &twice), doubled);
        }
    }
}

/// Pattern, reliability, flips and figures may be any that rule 14 passes.
#[test]
fn what_the_area_holds_of_a_pattern_has_no_part() {
    let mut random = Random::new(seed() ^ 16);
    for _ in 0..300 {
        let mut area = foreign_area(&mut random, SMALL);
        let patterns = some_patterns(&mut random, area[0], 65);
        let before = METHODS.map(|method| counts(method, &area, &patterns));
        area[PATTERN] = random.below(1 << area[0]) as u32;
        area[RELIABILITY] = random.below(U + 1) as u32;
        for gate in 0..area[1] {
            area[gate_at(gate) + FLIP] = random.below(MAX_FLIP + 1) as u32;
            area[gate_at(gate) + FIGURE] = random.below(2 * U + 2) as u32;
        }
        store_sum(&mut area);
        assert_eq!(METHODS.map(|method| counts(method, &area, &patterns)), before);
    }
}

// ---------------------------------------------------------------------------------------------
// Random areas

/// What random areas have shown, by both methods.
#[derive(Default)]
struct Shown {
    dead: u64,
    seen: u64,
    unseen: u64,
    more_by_mask: u64,
    fewer_by_mask: u64,
}

/// Counts random patterns by both methods, beside the model; the counts of dead gates must be 0.
fn compare_both(random: &mut Random, area: Vec<u32>, shown: &mut Shown) {
    let (of_area, lent) = (Counts::of(&area), area.len());
    let live = live(&area, of_area);
    let length = random.pick(&[1, 3, 17, 64, 66]);
    let patterns = some_patterns(random, of_area.inputs, length);
    let mut pair = Pair::new(area);
    let [by_flip, by_mask] = METHODS.map(|method| {
        let (patterns, room) = (patterns.clone(), live.len());
        let call = Call::Counts { method, patterns, room };
        match pair.call(lent, &call, &mut Tally::default()) {
            Reply::Counts { answer: Answer::Done(()), counts } => counts,
            reply => panic!("{reply:?} to {call:?}"),
        }
    });
    for (gate, live) in live.iter().enumerate() {
        let (flip, mask) = (by_flip[gate], by_mask[gate]);
        assert!(*live || flip + mask == 0, "dead gate {gate} of {:?}", pair.area());
        shown.dead += u64::from(!live);
        shown.seen += u64::from(flip);
        shown.unseen += length as u64 - u64::from(flip);
        shown.more_by_mask += u64::from(mask > flip);
        shown.fewer_by_mask += u64::from(mask < flip);
    }
}

/// Three thousand areas, small ones mostly.
fn compare_areas(seed: u64, make: impl Fn(&mut Random, Size) -> Vec<u32>) -> Shown {
    let mut random = Random::new(seed);
    let mut shown = Shown::default();
    for round in 0..3_000 {
        let size = if round % 20 == 0 { MIDDLE } else { SMALL };
        let area = make(&mut random, size);
        compare_both(&mut random, area, &mut shown);
    }
    println!("{} dead gates; {} flips seen, {} not", shown.dead, shown.seen, shown.unseen);
    assert!(shown.dead >= 1_000 && shown.seen >= 30_000 && shown.unseen >= 30_000);
    shown
}

#[test]
fn the_methods_agree_on_opened_images() {
    let shown = compare_areas(seed() ^ 17, |random, size| opened(&good_draft(random, size)));
    assert_eq!((shown.more_by_mask, shown.fewer_by_mask), (0, 0));
}

#[test]
fn the_methods_part_on_areas_that_no_call_left() {
    let shown = compare_areas(seed() ^ 18, foreign_area);
    let (more, fewer) = (shown.more_by_mask, shown.fewer_by_mask);
    println!("masks count more for {more} gates, fewer for {fewer}");
    assert!(more >= 50 && fewer >= 50);
}

// ---------------------------------------------------------------------------------------------
// The largest netlists

/// All patterns there can be. The stand-in, which follows flip after flip under pattern after pattern,
/// would take half a minute for them, and gets fewer.
fn longest_list() -> Vec<u32> {
    let length = if cfg!(feature = "self_test") { 130 } else { MAX_LISTED };
    (0..4096).rev().take(length).collect()
}

/// An area with twelve inputs and hardly fewer than 1,024 gates.
fn largest(random: &mut Random, make: impl Fn(&mut Random, Size) -> Vec<u32>) -> Vec<u32> {
    loop {
        let area = make(random, LARGE);
        if area[0] == 12 && area[1] >= 900 {
            return area;
        }
    }
}

#[test]
fn a_chain_hides_no_flip() {
    let mut random = Random::new(seed() ^ 19);
    let mut draft = chain(&mut random, 12, 1024);
    draft.outputs = (0..64).map(|at| if at == 63 { 12 + 1023 } else { at % 12 }).collect();
    let list = longest_list();
    assert_eq!(by_both(&opened(&draft), &list), [list.len() as u32; 1024]);
}

#[test]
fn the_largest_netlists() {
    let mut random = Random::new(seed() ^ 20);
    let mut tally = Tally::default();
    let forest = largest(&mut random, |random, size| opened(&good_draft(random, size)));
    by_both(&forest, &longest_list());
    let shared = largest(&mut random, foreign_area);
    for area in [forest, shared] {
        let (room, lent) = (area[1] as usize, area.len());
        let mut pair = Pair::new(area);
        let call = Call::Counts { method: Method::Mask, patterns: longest_list(), room };
        pair.call(lent, &call, &mut tally);
        let patterns = some_patterns(&mut random, 12, 66);
        pair.call(lent, &Call::Counts { method: Method::Flip, patterns, room }, &mut tally);
    }
    assert_eq!(tally.of_number(0), 4);
}
