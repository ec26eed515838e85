//! Random calls on the library and on the model; the answers and every word of the area must agree.

use second::arguments;
use second::compare::{Call, Pair, Tally};
use second::images::{
    break_area, chain, damage, foreign_area, good_draft, Size, AREA_BREAKS, FIRST_CUT,
};
use second::model::Counts;
use second::random::{seed, Random};

const SMALL: Size = Size { inputs: 3, gates: 8, outputs: 4 };
const MIDDLE: Size = Size { inputs: 6, gates: 40, outputs: 12 };
const WIDE: Size = Size { inputs: 12, gates: 30, outputs: 64 };
const LARGE: Size = Size { inputs: 12, gates: 1024, outputs: 64 };

/// Calls made by the test over opened areas, and by the test over areas that no call left.
const OPENED_CALLS: u64 = 500_000;
const FOREIGN_CALLS: u64 = 300_000;
const DAMAGED_IMAGES: u64 = 150_000;

fn some_size(random: &mut Random) -> Size {
    match random.below(200) {
        0 => LARGE,
        1..=7 => WIDE,
        8..=50 => MIDDLE,
        _ => SMALL,
    }
}

/// Whether an average on these counts is worth its time.
fn average_is_cheap(random: &mut Random, counts: Counts) -> bool {
    let work = (u64::from(counts.gates) + 4) << counts.inputs;
    work <= 2_000 || random.below(work) < 1_000
}

/// The counts that the area's first words claim, made harmless; only to aim the arguments.
fn claimed(area: &[u32]) -> Counts {
    let word = |at: usize| area.get(at).copied().unwrap_or(0);
    Counts { inputs: word(0).min(12), gates: word(1).min(1024), outputs: word(2).min(64) }
}

fn some_calls(random: &mut Random, pair: &mut Pair, size: Size, count: u64, tally: &mut Tally) {
    for _ in 0..count {
        let counts = claimed(pair.area());
        let averages = average_is_cheap(random, counts);
        let call = arguments::call(random, counts, size, averages);
        let lent = arguments::lent(random, pair.len(), counts.words());
        pair.call(lent, &call, tally);
    }
}

fn random_words(random: &mut Random, count: usize) -> Vec<u32> {
    (0..count).map(|_| random.word()).collect()
}

#[test]
fn calls_on_opened_areas() {
    let mut random = Random::new(seed());
    let mut tally = Tally::default();
    while tally.calls() < OPENED_CALLS {
        let size = some_size(&mut random);
        let draft = match random.below(60) {
            0 => chain(&mut random, 1, size.gates as u16),
            _ => good_draft(&mut random, size),
        };
        let words = draft.words() + random.index(12);
        let mut pair = Pair::new(random_words(&mut random, words));
        pair.call(words, &Call::Open(draft.bytes()), &mut tally);
        let count = random.between(5, 40);
        some_calls(&mut random, &mut pair, size, count, &mut tally);
    }
    tally.print();
    tally.assert_answers(&[0, 10, 11, 12, 13, 15, 16, 17, 21, 22], 1_000);
}

#[test]
fn images_that_are_damaged() {
    let mut random = Random::new(seed() ^ 1);
    let mut tally = Tally::default();
    const NUMBERS: [u8; 10] = [1, 2, 3, 4, 5, 6, 7, 8, 9, 22];
    let mut alone = [0u64; NUMBERS.len()];
    while tally.calls() < DAMAGED_IMAGES {
        let size = if random.once_in(400) { WIDE } else { SMALL };
        let mut draft = good_draft(&mut random, size);
        let words = draft.words() + random.index(3);
        let mut pair = Pair::new(random_words(&mut random, words));
        let chosen = random.index(NUMBERS.len());
        let number = NUMBERS[chosen];
        if damage(&mut random, &mut draft, number) {
            let reply = pair.call(words, &Call::Open(draft.bytes()), &mut tally);
            assert_eq!(reply.number(), usize::from(number), "{draft:?}");
            alone[chosen] += 1;
        }
        let other = arguments::image(&mut random, size);
        let lent = arguments::lent(&mut random, words, words);
        pair.call(lent, &Call::Open(other), &mut tally);
    }
    tally.print();
    println!("damage of one kind alone: {alone:?} of {NUMBERS:?}");
    assert!(alone.iter().all(|times| *times >= 1_000), "{alone:?}");
    tally.assert_answers(&[0, 1, 2, 3, 4, 5, 6, 7, 8, 9, 13, 22], 500);
}

#[test]
fn calls_on_areas_that_no_call_left() {
    let mut random = Random::new(seed() ^ 2);
    let mut tally = Tally::default();
    let mut broken_alone = [0u64; AREA_BREAKS.len()];
    while tally.calls() < FOREIGN_CALLS {
        let size = some_size(&mut random);
        let mut area = foreign_area(&mut random, size);
        let counts = Counts { inputs: area[0], gates: area[1], outputs: area[2] };
        let ways = break_some(&mut random, &mut area, counts);
        let expected = match ways[..] {
            [] => Some(0),
            [way] if way >= FIRST_CUT => Some(13),
            [_] => Some(14),
            _ => None,
        };
        let lent = area.len();
        let mut pair = Pair::new(area);
        // The reads leave the area as it is, so that each other call comes first on some areas.
        let reply = pair.call(lent, &Call::ReadNetlist, &mut tally);
        if let Some(number) = expected {
            assert_eq!(reply.number(), number, "{ways:?}");
        }
        if let [way] = ways[..] {
            broken_alone[way] += 1;
        }
        let calls = if ways.is_empty() { random.between(1, 8) } else { 4 };
        some_calls(&mut random, &mut pair, size, calls, &mut tally);
    }
    tally.print();
    for (name, times) in AREA_BREAKS.iter().zip(&broken_alone) {
        println!("  broken alone, {name}: {times}");
        assert!(*times >= 100, "{name} was broken alone only {times} times");
    }
    tally.assert_answers(&[0, 10, 11, 12, 13, 14, 22], 1_000);
    tally.assert_answers(&[15, 16, 17, 21], 300);
}

/// Breaks the area in no, one or two ways, and says in which.
fn break_some(random: &mut Random, area: &mut Vec<u32>, counts: Counts) -> Vec<usize> {
    let wanted = random.pick(&[0, 0, 1, 1, 2]);
    let mut ways: Vec<usize> = (0..wanted).map(|_| random.index(AREA_BREAKS.len())).collect();
    ways.sort();
    ways.dedup();
    // Of two ways that take words away the first would leave the second nothing to work on.
    if ways.len() == 2 && ways[0] >= FIRST_CUT {
        ways.pop();
    }
    ways.retain(|way| break_area(random, area, counts, *way));
    ways
}

/// All answers of all calls in one tally: every refusal number occurs in every call that has it.
#[test]
fn every_answer_of_every_call() {
    let mut random = Random::new(seed() ^ 3);
    let mut tally = Tally::default();
    while tally.calls() < 90_000 {
        let draft = good_draft(&mut random, SMALL);
        let words = draft.words() + random.index(4);
        let mut pair = Pair::new(vec![0; words]);
        pair.call(words, &Call::Open(draft.bytes()), &mut tally);
        some_calls(&mut random, &mut pair, SMALL, 10, &mut tally);
        let mut area = foreign_area(&mut random, SMALL);
        let counts = Counts { inputs: area[0], gates: area[1], outputs: area[2] };
        break_some(&mut random, &mut area, counts);
        let mut pair = Pair::new(area);
        some_calls(&mut random, &mut pair, SMALL, 5, &mut tally);
    }
    tally.print();
    tally.assert_all_seen(20);
}

/// The largest netlist there is, averaged with the largest weights.
#[test]
fn the_largest_netlist() {
    let mut random = Random::new(seed() ^ 4);
    let mut tally = Tally::default();
    let mut draft = chain(&mut random, 12, 1024);
    draft.outputs = (0..64).map(|at| if at == 63 { 12 + 1023 } else { at % 12 }).collect();
    let words = draft.words();
    let mut pair = Pair::new(random_words(&mut random, words + 3));
    pair.call(words + 3, &Call::Open(draft.bytes()), &mut tally);
    pair.call(words, &Call::Toggle(0), &mut tally);
    pair.call(words, &Call::Average(vec![1_048_575; 4096]), &mut tally);
    let mut forest = good_draft(&mut random, LARGE);
    while forest.inputs != 12 || forest.gates.len() < 900 {
        forest = good_draft(&mut random, LARGE);
    }
    let mut pair = Pair::new(vec![0; forest.words()]);
    pair.call(forest.words(), &Call::Open(forest.bytes()), &mut tally);
    let weights = (0..4096).map(|_| random.below(1_048_576) as u32).collect();
    pair.call(forest.words(), &Call::Average(weights), &mut tally);
    assert_eq!(tally.of_number(0), 5);
}
