//! Lists of calls on small netlists. After each call the reliability must lie near the exact sum over
//! all flip patterns, and each average near the exact one; each count must be the number of patterns
//! in which that gate's flip changes an output; each image written must be the book's; what is refused
//! is judged by the book.
//! The library alone is driven here, so that these bounds do not lean on the model's figures.

use second::arguments;
use second::book::Book;
use second::compare::{lent_bytes, lent_counts, perform, Call, Reply, CALL_NAMES};
use second::exact::{self, outputs_under, Big};
use second::ffi::Library;
use second::images::{bad_flip, good_draft, good_flip, high_flip, Size};
use second::model::{self, Counts, Model};
use second::random::{seed, Random};

const SIZE: Size = Size { inputs: 3, gates: 10, outputs: 4 };
const LISTS: usize = 3_000;
const CALLS_IN_A_LIST: usize = 30;

/// Room for the largest netlist of these lists, and for some words past it.
const WORDS: usize = 8 + 8 * 10 + 4 + 5;

#[derive(Default)]
struct Seen {
    calls: [u64; CALL_NAMES.len()],
    refused: u64,
    reliabilities: u64,
    averages: u64,
    /// Gates whose counts were compared.
    counts: u64,
    images: u64,
    /// The largest distance for each live gate, in thousandths of a unit.
    widest: u64,
}

#[test]
fn after_any_list_the_figures_are_near_the_exact_ones() {
    let mut random = Random::new(seed() ^ 5);
    let mut seen = Seen::default();
    for _ in 0..LISTS {
        one_list(&mut random, &mut seen);
    }
    for (name, calls) in CALL_NAMES.iter().zip(seen.calls) {
        println!("{name}: {calls} calls");
    }
    println!("{} of them refused", seen.refused);
    println!("{} reliabilities and {} averages within bounds", seen.reliabilities, seen.averages);
    println!("{} counts of gates are those of their flips", seen.counts);
    println!("{} images written are the book's", seen.images);
    println!("widest distance: 0.{:03} units for each live gate", seen.widest);
    assert!(seen.averages >= 1_000 && seen.counts >= 10_000 && seen.images >= 1_000);
}

fn one_list(random: &mut Random, seen: &mut Seen) {
    let mut area: Vec<u32> = (0..WORDS).map(|_| random.word()).collect();
    let first = good_draft(random, SIZE).bytes();
    let mut book = Book::begin(WORDS, &first).expect("a good draft");
    let reply = perform(&Library, &mut area, &Call::Open(first));
    assert_eq!(reply.refusal(), None);
    check_area(&area, &book, seen);
    for _ in 0..CALLS_IN_A_LIST {
        let counts = Counts {
            inputs: book.netlist.inputs,
            gates: book.netlist.gates.len() as u32,
            outputs: book.netlist.outputs.len() as u32,
        };
        let call = arguments::call(random, counts, SIZE, true);
        let lent = arguments::lent(random, WORDS, counts.words());
        let reply = perform(&Library, &mut area[..lent], &call);
        let judged = book.enter(lent, &call).err().map(|refusal| (refusal.number, refusal.place));
        assert_eq!(reply.refusal(), judged, "{call:?} with {lent} words");
        seen.calls[call.row()] += 1;
        seen.refused += u64::from(judged.is_some());
        check_area(&area, &book, seen);
        if judged.is_none() {
            check_result(&call, &reply, &book, seen);
        }
    }
}

fn check_area(area: &[u32], book: &Book, seen: &mut Seen) {
    assert_eq!(area[model::PATTERN], book.pattern);
    let units = area[model::RELIABILITY];
    let sum = book.sums().sum(&book.netlist, book.pattern);
    let exact = book.sums().milli_units(&sum, &book.netlist);
    let near = book.sums().reliability_is_near(units, &sum);
    assert!(
        near,
        "{units} units, exact {exact} thousandths, pattern {}: {:?}",
        book.pattern, book.netlist
    );
    assert_eq!(area[5..8], book.head_sum(), "{:?}", book.netlist);
    seen.reliabilities += 1;
    let live = u64::from(model::live_count(&book.netlist));
    let distance = exact.abs_diff(1000 * u64::from(units));
    seen.widest = seen.widest.max(distance.checked_div(live).unwrap_or(0));
}

fn check_result(call: &Call, reply: &Reply, book: &Book, seen: &mut Seen) {
    match (call, reply) {
        (Call::Average(weights), Reply::Average(answer)) => {
            let units = answer.done();
            let near = book.sums().average_is_near(units, &book.netlist, weights);
            assert!(near, "average {units} with {weights:?} of {:?}", book.netlist);
            seen.averages += 1;
        }
        (Call::Open(_), Reply::Open(answer)) => {
            assert_eq!(answer.done(), model::live_count(&book.netlist));
        }
        (Call::ReadNetlist, Reply::ReadNetlist(answer)) => {
            assert_eq!(answer.done().pattern, book.pattern);
        }
        (Call::Counts { patterns, room, .. }, Reply::Counts { counts, .. }) => {
            let mut wanted = lent_counts(*room);
            for (gate, count) in wanted.iter_mut().enumerate().take(book.netlist.gates.len()) {
                *count =
                    patterns.iter().filter(|pattern| shows(book, gate, **pattern)).count() as u32;
                seen.counts += 1;
            }
            assert_eq!(*counts, wanted, "{call:?} on {:?}", book.netlist);
        }
        (Call::WriteImage { room }, Reply::WriteImage { answer, bytes }) => {
            check_image(answer.done() as usize, *room, bytes, book);
            seen.images += 1;
        }
        _ => {}
    }
}

/// What was written is an image of the book's netlist, each chance the nearest number of units.
fn check_image(length: usize, room: usize, bytes: &[u8], book: &Book) {
    assert_eq!(bytes[length..], lent_bytes(room)[length..]);
    let read = Model::DOCUMENT.netlist(&bytes[..length]).expect("an image that passes");
    assert_eq!((read.inputs, &read.outputs), (book.netlist.inputs, &book.netlist.outputs));
    assert_eq!(read.gates.len(), book.netlist.gates.len());
    for (gate, entry) in read.gates.iter().zip(&book.netlist.gates) {
        let units = exact::nearest_units(entry.chance);
        assert_eq!((gate.table, gate.used_pins()), (entry.table, entry.used_pins()));
        assert_eq!((gate.kind, exact::nearest_units(gate.chance)), (u8::from(units > 0), units));
        let whole = u128::from(gate.chance.numerator) << 30;
        assert_eq!(whole, u128::from(units) << gate.chance.shift, "units / U exactly");
    }
}

/// Whether the flip of one gate alone changes an output.
fn shows(book: &Book, gate: usize, pattern: u32) -> bool {
    outputs_under(&book.netlist, pattern, 1 << gate) != outputs_under(&book.netlist, pattern, 0)
}

/// The terms of an exact sum are complete, for chances of every kind.
#[test]
fn all_flip_patterns_together_have_chance_one() {
    let mut random = Random::new(seed() ^ 6);
    for _ in 0..100 {
        let image = good_draft(&mut random, SIZE).bytes();
        let book = Book::begin(WORDS, &image).expect("a good draft");
        assert!(book.sums().terms_add_up());
    }
}

/// A bound that accepts everything would prove nothing: one unit beyond it is noticed.
#[test]
fn the_bounds_can_be_missed() {
    let mut random = Random::new(seed() ^ 7);
    for _ in 0..200 {
        let image = good_draft(&mut random, SIZE).bytes();
        let book = Book::begin(WORDS, &image).expect("a good draft");
        let sum = book.sums().sum(&book.netlist, 0);
        let nearest = (book.sums().milli_units(&sum, &book.netlist) / 1000) as u32;
        let halves = exact::error_halves(&book.netlist) as u32;
        let too_far = nearest + halves.div_ceil(2) + 1;
        assert!(!book.sums().reliability_is_near(too_far, &sum));
        let mut weights = vec![0; 1 << book.netlist.inputs];
        weights[0] = 7;
        let too_far = nearest + (halves + 1).div_ceil(2) + 1;
        assert!(!book.sums().average_is_near(too_far, &book.netlist, &weights));
    }
}

/// The library's conversion of chances against the definition, in whole numbers of 2^-1074.
#[test]
fn chances_become_the_nearest_units() {
    let mut random = Random::new(seed() ^ 8);
    let mut area = vec![1, 1, 1, 0, 0, 0, 0, 0, 1, 2, 0, 0, 0, 0, 0, 0, 1];
    for _ in 0..200_000 {
        let (kind, field) = good_flip(&mut random);
        let chance = model::flip_chance(kind, field).expect("a good flip");
        let reply = perform(&Library, &mut area, &Call::Set { gate: 0, kind, field });
        assert_eq!(reply.refusal(), None, "kind {kind}, field {field:?}");
        let units = u64::from(area[8 + model::FLIP]);
        assert!(units <= model::MAX_FLIP);
        assert_eq!(units, exact::nearest_units(chance), "kind {kind}, field {field:?}");
    }
    for _ in 0..100_000 {
        let (kind, field) = bad_flip(&mut random);
        let reply = perform(&Library, &mut area, &Call::Set { gate: 0, kind, field });
        assert_eq!(reply.refusal(), Some((11, 0)), "kind {kind}, field {field:?}");
    }
    // Above 0.5, as whole numbers of 2^-1074; many of them are nearest to U / 2 units.
    let half = Big::from_u64(1).shifted(exact::CHANCE_BITS - 1);
    let mut nearest = 0;
    for _ in 0..100_000 {
        let (kind, field) = high_flip(&mut random);
        let chance = model::flip_chance(kind, field).expect("floats from 0 to 1");
        assert!(!exact::whole_chance(chance).at_most(&half), "kind {kind}, field {field:?}");
        let reply = perform(&Library, &mut area, &Call::Set { gate: 0, kind, field });
        assert_eq!(reply.refusal(), Some((22, 0)), "kind {kind}, field {field:?}");
        nearest += u64::from(exact::nearest_units(chance) == model::MAX_FLIP);
    }
    assert!(nearest >= 5_000, "{nearest}");
}

/// The big numbers themselves, on cases small enough for u128.
#[test]
fn big_numbers_agree_with_small_ones() {
    let mut random = Random::new(seed() ^ 9);
    for _ in 0..100_000 {
        let mask = u64::MAX >> random.below(64);
        let (a, b) = (random.bits() & mask, random.bits() >> random.below(64));
        let (big_a, big_b) = (Big::from_u64(a), Big::from_u64(b));
        let product = u128::from(a) * u128::from(b);
        let mut halves = Big::from_u64((product >> 64) as u64).shifted(64);
        halves.add(&Big::from_u64(product as u64));
        assert_eq!(big_a.times(&big_b), halves);
        assert_eq!(big_a.compare(&big_b), a.cmp(&b));
        assert_eq!(big_a.distance(&big_b).to_u64(), Some(a.abs_diff(b)));
        let shift = random.below(200) as u32;
        assert_eq!(big_a.shifted(shift).shifted_down(shift), big_a);
        let down = random.below(64) as u32;
        assert_eq!(big_a.shifted_down(down).to_u64(), Some(a >> down));
    }
}
