//! The sharper error where it is sharp: netlists in which most gates never flip. Lists of openings,
//! toggles, settings and averages on the library alone, every figure held to the exact sums.

use second::arguments;
use second::book::Book;
use second::compare::{perform, Call, Reply};
use second::exact;
use second::ffi::Library;
use second::images::{good_draft, good_flip, Size, NEVER};
use second::model;
use second::random::{seed, Random};

const SIZE: Size = Size { inputs: 3, gates: 10, outputs: 4 };
const LISTS: usize = 2_000;
const CALLS_IN_A_LIST: usize = 20;
const WORDS: usize = 8 + 8 * 10 + 4;

#[derive(Default)]
struct Seen {
    reliabilities: u64,
    averages: u64,
    /// Reliabilities of netlists with live gates whose error is 0.
    exact: u64,
    /// Those whose error is not 0, but at most a third of three half units for each live gate.
    sharp: u64,
    /// Those that are off by more than a third of their error.
    wide: u64,
}

#[test]
fn mild_netlists_stay_within_the_sharper_error() {
    let mut random = Random::new(seed() ^ 10);
    let mut seen = Seen::default();
    for _ in 0..LISTS {
        one_list(&mut random, &mut seen);
    }
    println!("{} reliabilities and {} averages within bounds", seen.reliabilities, seen.averages);
    println!("{} exact, {} sharp, {} wide", seen.exact, seen.sharp, seen.wide);
    assert!(seen.averages >= 1_000 && seen.exact >= 1_000 && seen.sharp >= 1_000);
    assert!(seen.wide >= 100);
}

/// A flip as a mild netlist has it: three of four gates never flip.
fn mild_flip(random: &mut Random) -> (u8, [u8; 8]) {
    if random.once_in(4) {
        good_flip(random)
    } else {
        NEVER
    }
}

fn mild_image(random: &mut Random) -> Vec<u8> {
    let mut draft = good_draft(random, SIZE);
    for gate in &mut draft.gates {
        (gate.kind, gate.field) = mild_flip(random);
    }
    draft.bytes()
}

fn mild_call(random: &mut Random, book: &Book) -> Call {
    match random.below(10) {
        0 => Call::Open(mild_image(random)),
        1..=3 => Call::Toggle(arguments::name(random, book.netlist.inputs)),
        4..=7 => {
            let gate = arguments::name(random, book.netlist.gates.len() as u32);
            let (kind, field) = mild_flip(random);
            Call::Set { gate, kind, field }
        }
        _ => Call::Average(arguments::weights(random, book.netlist.inputs)),
    }
}

fn one_list(random: &mut Random, seen: &mut Seen) {
    let mut area = vec![0; WORDS];
    let first = mild_image(random);
    let mut book = Book::begin(WORDS, &first).expect("a good draft");
    assert_eq!(perform(&Library, &mut area, &Call::Open(first)).refusal(), None);
    check_reliability(area[model::RELIABILITY], &book, seen);
    for _ in 0..CALLS_IN_A_LIST {
        let call = mild_call(random, &book);
        let reply = perform(&Library, &mut area, &call);
        let judged = book.enter(WORDS, &call).err().map(|refusal| (refusal.number, refusal.place));
        assert_eq!(reply.refusal(), judged, "{call:?}");
        check_reliability(area[model::RELIABILITY], &book, seen);
        if let (Call::Average(weights), Reply::Average(answer), None) = (&call, &reply, judged) {
            let units = answer.done();
            let near = book.sums().average_is_near(units, &book.netlist, weights);
            assert!(near, "average {units} with {weights:?} of {:?}", book.netlist);
            seen.averages += 1;
        }
    }
}

fn check_reliability(units: u32, book: &Book, seen: &mut Seen) {
    let sum = book.sums().sum(&book.netlist, book.pattern);
    let thousandths = book.sums().milli_units(&sum, &book.netlist);
    let halves = exact::error_halves(&book.netlist);
    let near = book.sums().reliability_is_near(units, &sum);
    assert!(
        near,
        "{units} units, exact {thousandths} thousandths, {halves} half units, pattern {}: {:?}",
        book.pattern, book.netlist
    );
    let live = u64::from(model::live_count(&book.netlist));
    let distance = thousandths.abs_diff(1000 * u64::from(units));
    seen.reliabilities += 1;
    seen.exact += u64::from(halves == 0 && live > 0 && distance == 0);
    seen.sharp += u64::from(halves > 0 && halves <= live);
    seen.wide += u64::from(halves > 0 && 3 * distance > 500 * halves);
}
