//! The calls through the safe functions: what they answer, and that a refused one changes nothing.

use filzaod::{average, counts_by_flip, counts_by_mask, read_blif, write_image, written};
use filzaod::{compare, error_of_image, shared_reliability};
use filzaod::{open, read_gate, read_netlist, set_flip, text, toggle_input, words};
use filzaod::{ErrorBound, Module, PatternCounts, Verdict, Which};
use filzaod::{Flip, GateReading, Refusal, MAX_FLIP, MAX_LISTED, MAX_WEIGHT, MAX_WORDS, ONE};

const WORDS: usize = words(3, 1);
const UNTOUCHED: u32 = 0x5AFE_C0DE;

fn printed_sheet() -> Vec<u8> {
    let text = "inputs 2\ngate left 2 pins 0 chance 0.5\ngate right 2 pins 1 chance 0.5\n\
                gate both 8 pins left right never\noutput both\n";
    text::read(text).expect("a good text").image
}

fn opened() -> [u32; WORDS + 1] {
    let mut area = [UNTOUCHED; WORDS + 1];
    assert_eq!(open(&mut area, &printed_sheet()), Ok(3));
    area
}

/// That a call is refused so, and changes no word.
fn refused<T: std::fmt::Debug>(
    area: &mut [u32],
    number: u8,
    place: u32,
    call: impl FnOnce(&mut [u32]) -> Result<T, Refusal>,
) {
    let before = area.to_vec();
    assert_eq!(call(area).expect_err("a refusal"), Refusal { number, place });
    assert_eq!(area, before);
}

#[test]
fn open_toggle_set_read_average() {
    let mut area = opened();
    assert_eq!(area[..8], [2, 3, 1, 0, 805_306_368, ONE, 0, 0]);
    assert_eq!(area[WORDS], UNTOUCHED);
    assert_eq!(average(&mut area, &[1; 4]), Ok(671_088_640));
    assert_eq!(average(&mut area, &[0, 0, 0, MAX_WEIGHT]), Ok(ONE / 4));
    let half = GateReading { right: false, failure: ONE / 2 };
    assert_eq!(read_gate(&area, 0), Ok(half));
    toggle_input(&mut area, 0).expect("input 0");
    assert_eq!(read_gate(&area, 0), Ok(GateReading { right: true, ..half }));
    assert_eq!(read_gate(&area, 1), Ok(half));
    toggle_input(&mut area, 1).expect("input 1");
    let read = read_netlist(&area).expect("a netlist");
    assert_eq!((read.pattern, read.units, read.reliability), (3, ONE / 4, 0.25));
    assert_eq!(read.flip_sum, u64::from(ONE));
    assert_eq!(area[WORDS], UNTOUCHED);
}

#[test]
fn a_sum_that_passes_32_bits() {
    let mut chain = String::from("inputs 1\ngate g0 2 pins 0 chance 0.5\n");
    for g in 1..9 {
        chain += &format!("gate g{g} 2 pins g{} chance 0.5\n", g - 1);
    }
    let module = text::read(&(chain + "output g8")).expect("a chain");
    let mut area = vec![0; words(9, 1)];
    open(&mut area, &module.image).expect("an image");
    assert_eq!(read_netlist(&area).expect("a netlist").flip_sum, 9 * u64::from(ONE / 2));
    area[6] = 0;
    assert_eq!(read_netlist(&area).map_err(|r| r.number), Err(14));
}

#[test]
fn every_way_to_set_a_flip() {
    let mut area = opened();
    let flips = [
        (Flip::Never, 0),
        (Flip::Chance(0.05), 53_687_091),
        (Flip::Chance(0.5), MAX_FLIP),
        (Flip::Chance(0.5 - f64::EPSILON / 4.0), MAX_FLIP),
        (Flip::Strike { chance: 0.5, window: 1.0 }, MAX_FLIP),
        (Flip::Chance(-0.0), 0),
        (Flip::Chance(0.5 / f64::from(ONE)), 0),
        (Flip::Chance(1.5 / f64::from(ONE)), 2),
        (Flip::Chance(2.5 / f64::from(ONE)), 2),
        (Flip::Strike { chance: 0.5, window: 0.25 }, ONE / 8),
        (Flip::Raw { kind: 1, field: 0.5f64.to_le_bytes() }, MAX_FLIP),
    ];
    for (flip, failure) in flips {
        set_flip(&mut area, 1, flip).expect("a good flip");
        assert_eq!(read_gate(&area, 1).expect("gate 1").failure, failure, "{flip:?}");
    }
}

#[test]
fn refused_calls_have_number_and_place() {
    let mut area = opened();
    let area = &mut area[..];
    refused(area, 10, 2, |area| toggle_input(area, 2));
    refused(area, 10, u32::MAX, |area| toggle_input(area, u32::MAX));
    refused(area, 10, 3, |area| set_flip(area, 3, Flip::Never));
    refused(area, 10, 3, |area| read_gate(area, 3));
    refused(area, 11, 1, |area| set_flip(area, 1, Flip::Chance(f64::NAN)));
    refused(area, 11, 1, |area| set_flip(area, 1, Flip::Strike { chance: 1.5, window: 0.0 }));
    refused(area, 11, 2, |area| set_flip(area, 2, Flip::Raw { kind: 3, field: [0; 8] }));
    refused(area, 22, 0, |area| set_flip(area, 0, Flip::Chance(1.0)));
    refused(area, 22, 1, |area| set_flip(area, 1, Flip::Chance(0.5 + f64::EPSILON / 2.0)));
    // 8,392,705 × 16,769,026 of 2^48 are 0.5 + 2^-47, which is nearest to MAX_FLIP units.
    let [chance, window] = [8_392_705, 16_769_026].map(|digits| digits as f32 / 16_777_216.0);
    refused(area, 22, 2, |area| set_flip(area, 2, Flip::Strike { chance, window }));
    refused(area, 10, 3, |area| set_flip(area, 3, Flip::Chance(1.0)));
    refused(area, 12, 0, |area| average(area, &[1; 3]));
    refused(area, 12, 0, |area| average(area, &[]));
    refused(area, 12, 2, |area| average(area, &[1, 1, MAX_WEIGHT + 1, u32::MAX]));
    refused(area, 12, 0, |area| average(area, &[0; 4]));
    refused(area, 1, 0, |area| open(area, &[]));
    refused(&mut area[..WORDS - 1], 13, 0, |area| open(area, &printed_sheet()));
    refused(&mut area[..WORDS - 1], 13, 0, |area| average(area, &[1; 4]));
    refused(&mut [], 13, 0, |area| toggle_input(area, 0));
    refused(&mut [], 13, 0, |area| read_netlist(area));
    // One unit more than a flip may have, in gate 0 and in the sum.
    (area[5], area[14]) = (area[5] + 1, area[14] + 1);
    refused(area, 14, 0, |area| read_netlist(area));
    area[5] = 1;
    refused(area, 14, 0, |area| read_netlist(area));
    refused(area, 14, 0, |area| set_flip(area, 9, Flip::Never));
}

type Counting = fn(&[u32], &[u32], &mut [u32]) -> Result<(), Refusal>;

const METHODS: [Counting; 2] = [counts_by_flip, counts_by_mask];

#[test]
fn counts_of_the_gates() {
    let area = opened();
    for count in METHODS {
        let mut counts = [UNTOUCHED; 4];
        assert_eq!(count(&area, &[0, 1, 2, 3], &mut counts), Ok(()));
        assert_eq!(counts, [2, 2, 4, UNTOUCHED]);
        assert_eq!(count(&area, &[1; MAX_LISTED], &mut counts[..3]), Ok(()));
        assert_eq!(counts, [0, 4096, 4096, UNTOUCHED]);
    }
    assert_eq!(area, opened());
}

#[test]
fn counts_where_a_gate_is_shared() {
    // A buffer on both pins of an XOR, which no opening would let in.
    let area = [1, 2, 1, 0, 0, 0, 0, 0, 1, 2, 0, 0, 0, 0, 0, 0, 2, 6, 1, 1, 0, 0, 0, 0, 2];
    let [flips, masks] = METHODS.map(|count| {
        let mut counts = [UNTOUCHED; 2];
        assert_eq!(count(&area, &[0, 1], &mut counts), Ok(()));
        counts
    });
    assert_eq!((flips, masks), ([0, 2], [2, 2]));
}

/// That both methods are refused so, and write no count.
fn counts_refused(area: &[u32], number: u8, place: u32, patterns: &[u32], room: usize) {
    for count in METHODS {
        let mut counts = [UNTOUCHED; 3];
        let answer = count(area, patterns, &mut counts[..room]);
        assert_eq!(answer, Err(Refusal { number, place }));
        assert_eq!(counts, [UNTOUCHED; 3]);
    }
}

#[test]
fn refused_counts_have_number_and_place() {
    let mut area = opened();
    counts_refused(&area, 15, 0, &[], 0);
    counts_refused(&area, 15, 0, &[4; MAX_LISTED + 1], 3);
    counts_refused(&area, 16, 1, &[3, 4, u32::MAX], 0);
    counts_refused(&area, 17, 0, &[3], 2);
    counts_refused(&area[..WORDS - 1], 13, 0, &[], 0);
    area[7] = 1;
    counts_refused(&area, 14, 0, &[], 0);
}

/// The printed sheet's image with some bytes from `at` on changed.
fn damaged(at: usize, bytes: &[u8]) -> Vec<u8> {
    let mut image = printed_sheet();
    image[at..at + bytes.len()].copy_from_slice(bytes);
    image
}

#[test]
fn refused_images_have_number_and_place() {
    let mut area = opened();
    let (output, trailer) = (60, 62);
    let cases = [
        (1, 0, damaged(trailer + 12, &[77])),
        (2, 0, damaged(trailer + 6, &[2])),
        (3, 0, damaged(trailer, &[13])),
        (4, 0, damaged(trailer + 8, &[61])),
        (5, 1, damaged(20, &[5])),
        (6, 1, damaged(24, &[3])),
        (7, 2, damaged(41, &[3])),
        (22, 1, damaged(32, &[1])),
        (8, 0, damaged(output, &[5])),
        (9, 0, damaged(46, &[2])),
    ];
    for (number, place, image) in cases {
        refused(&mut area, number, place, |area| open(area, &image));
    }
    assert_eq!(open(&mut [0; MAX_WORDS], &damaged(0, &[1])), Ok(3));
}

#[test]
fn every_refusal_can_be_read() {
    for number in 1..=22 {
        let said = Refusal { number, place: 77 }.to_string();
        assert!(said.starts_with(&format!("refused {number} 77: ")), "{said}");
        assert!(said.len() > 20 && !said.contains("unknown"), "{said}");
        let named = matches!(number, 5..=11 | 16 | 18 | 19 | 22);
        assert_eq!(said.matches("77").count(), if named { 2 } else { 1 }, "{said}");
        assert_eq!(Refusal { number, place: 77 }.place_is().is_some(), named, "{said}");
    }
    let nan = Refusal { number: 7, place: 1 };
    assert_eq!(nan.place_is(), Some("gate"));
    assert_eq!(
        nan.sentence(),
        "gate 1: no such flip kind, or a field that is no chance from 0 to 1"
    );
    let long = Refusal { number: 18, place: 0 };
    assert_eq!((long.place_is(), long.sentence().contains("line")), (None, false));
    let later = Refusal { number: 23, place: 0 };
    assert_eq!(later.to_string(), "refused 23 0: unknown to this package");
}

/// That writing is refused so, and changes no byte.
fn write_refused(area: &[u32], number: u8, room: usize) {
    let mut image = vec![0xAB; room];
    assert_eq!(write_image(area, &mut image), Err(Refusal { number, place: 0 }));
    assert_eq!(image, vec![0xAB; room]);
}

#[test]
fn an_area_becomes_an_image() {
    const BYTES: usize = written(3, 1);
    let mut area = opened();
    let mut image = [0xAB; BYTES + 2];
    assert_eq!(write_image(&area, &mut image), Ok(BYTES as u32));
    // The text's image has no heading, and flips of kinds 0 and 1: it is written as it was.
    assert_eq!(image[..BYTES], printed_sheet());
    assert_eq!(image[BYTES..], [0xAB; 2]);
    assert_eq!(area, opened());
    // The pattern is not written, and a strike is written as its chance.
    toggle_input(&mut area, 1).expect("input 1");
    let strike = Flip::Strike { chance: 1.0, window: 0.5 };
    set_flip(&mut area, 0, strike).expect("gate 0");
    let mut again = [0; BYTES];
    assert_eq!(write_image(&area, &mut again), Ok(BYTES as u32));
    assert_eq!(again, image[..BYTES]);
    let mut other = [UNTOUCHED; WORDS + 1];
    assert_eq!(open(&mut other, &again), Ok(3));
    toggle_input(&mut area, 1).expect("input 1");
    assert_eq!(area, other);
    write_refused(&area, 21, BYTES - 1);
    write_refused(&area, 21, 0);
    write_refused(&area[..WORDS - 1], 13, 0);
    area[7] = 1;
    write_refused(&area, 14, 0);
}

#[test]
fn a_blif_text_becomes_an_image() {
    let text = include_bytes!("../../examples/majority.blif");
    let mut image = [0xAB; 120];
    assert_eq!(read_blif(text, &mut image), Ok(98));
    assert_eq!(image[98..], [0xAB; 22]);
    let mut area = [0; MAX_WORDS];
    assert_eq!(open(&mut area, &image[..98]), Ok(4));
    assert_eq!(read_gate(&area, 3).map(|gate| gate.right), Ok(false));
    toggle_input(&mut area, 0).expect("input 0");
    toggle_input(&mut area, 2).expect("input 2");
    assert_eq!(read_gate(&area, 3).map(|gate| gate.right), Ok(true));
    let mut short = [0xAB; 97];
    assert_eq!(read_blif(text, &mut short), Err(Refusal { number: 20, place: 0 }));
    assert_eq!(short, [0xAB; 97]);
    let last = &text[..text.len() - 5];
    assert_eq!(read_blif(last, &mut image), Err(Refusal { number: 18, place: 14 }));
}

#[test]
fn shared_gates_are_supposed_right_and_wrong() {
    let diamond = "inputs 1\ngate a 2 pins 0 chance 0.05\ngate b 1 pins a chance 0.05\n\
                   gate c 2 pins a chance 0.05\ngate d 8 pins b c chance 0.05\noutput d\n";
    let image = filzaod::text::read(diamond).unwrap().image;
    assert_eq!(shared_reliability(&image, 0), Ok(974_152_271));
    assert_eq!(shared_reliability(&image, 0xffff_fffe), Ok(974_152_271));
    assert_eq!(shared_reliability(&image[1..], 0), Err(Refusal { number: 1, place: 0 }));
    let mut many = String::from("inputs 1\n");
    for gate in 0..9 {
        many += &format!("gate g{gate} 2 pins 0 never\noutput g{gate}\noutput g{gate}\n");
    }
    let image = filzaod::text::read(&many).unwrap().image;
    assert_eq!(shared_reliability(&image, 1), Err(Refusal { number: 23, place: 0 }));
}

#[test]
fn two_modules_are_compared() {
    let image = |chance: &str| {
        let text = format!("inputs 2\ngate both 8 pins 0 1 {chance}\noutput both\noutput 0\n");
        filzaod::text::read(&text).unwrap().image
    };
    let (never, often) = (image("never"), image("chance 0.25"));
    assert_eq!(error_of_image(&never), Ok(ErrorBound { halves: 0, live: 1 }));
    assert_eq!(error_of_image(&often), Ok(ErrorBound { halves: 2, live: 1 }));
    let answer = compare(&never, &often).unwrap();
    assert_eq!(answer.verdict, Verdict::First);
    let module =
        |average, error| Module { inputs: 2, gates: 1, outputs: 2, live: 1, average, error };
    assert_eq!(answer.first, module(1 << 30, 0));
    assert_eq!(answer.second, module(3 << 28, 2));
    assert_eq!(answer.patterns, Some(PatternCounts { first: 4, second: 0, neither: 0 }));
    assert_eq!(compare(&often, &never).unwrap().verdict, Verdict::Second);
    assert_eq!(compare(&often, &often).unwrap().verdict, Verdict::Undecided);
    let wire = filzaod::text::read("inputs 1\noutput 0\n").unwrap().image;
    assert_eq!(compare(&wire, &often).unwrap().patterns, None);
    let refusal = compare(&wire, &often[..30]).unwrap_err();
    assert_eq!(
        (refusal.image, refusal.refusal.number, refusal.refusal.place),
        (Which::Second, 1, 0)
    );
    assert_eq!(refusal.to_string(), format!("the second image: {}", refusal.refusal));
    assert_eq!(compare(&[], &[]).unwrap_err().image, Which::First);
    assert_eq!(error_of_image(&often[..30]), Err(Refusal { number: 1, place: 0 }));
}
