//! The sheets with known results of document 01, every line, through the library.

use second::answer::Answer;
use second::ffi::{self, Library};
use second::images::{chance, chance_bits, strike, strike_bits, Draft, Record, NEVER};
use second::model::{gate_at, FLIP, RELIABILITY, U};
use second::sheet::sheet;

const ONE: u32 = U as u32;

fn draft(inputs: u16, gates: Vec<Record>, outputs: &[u16]) -> Draft {
    Draft { inputs, gates, outputs: outputs.to_vec(), ..Draft::default() }
}

/// Opens a draft that must be accepted; gives its area and its live gates.
fn opened(draft: &Draft) -> (Vec<u32>, u32) {
    let mut area = vec![0; draft.words()];
    let live = ffi::open(&mut area, &draft.bytes()).done();
    (area, live)
}

fn open_answer(draft: &Draft) -> Answer<u32> {
    ffi::open(&mut vec![0; draft.words()], &draft.bytes())
}

fn refused<T>(number: u8, place: u32) -> Answer<T> {
    Answer::Refused { number, place }
}

/// Two buffers at a half into an AND that never flips, the one output.
fn and_of_two_buffers() -> Draft {
    let gates = vec![
        Record::new(2, &[0], chance(0.5)),
        Record::new(2, &[1], chance(0.5)),
        Record::new(8, &[2, 3], NEVER),
    ];
    draft(2, gates, &[4])
}

/// The units of a flip, once from an image and once from a call; they must agree.
fn units(flip: (u8, [u8; 8])) -> u32 {
    let (area, _) = opened(&draft(1, vec![Record::new(2, &[0], flip)], &[1]));
    let (mut other, _) = opened(&draft(1, vec![Record::new(2, &[0], NEVER)], &[1]));
    ffi::set_flip(&mut other, 0, flip.0, flip.1).done();
    assert_eq!(area, other);
    area[gate_at(0) + FLIP]
}

#[test]
fn chances_in_units() {
    assert_eq!(units(chance(0.05)), 53_687_091);
    assert_eq!(units(chance(0.5)), 536_870_912);
    assert_eq!(units(chance(0.0)), 0);
    assert_eq!(units(chance(-0.0)), 0);
    assert_eq!(units(NEVER), 0);
}

#[test]
fn small_chances_round_a_half_to_the_even_unit() {
    let half = 1.0 / (1u64 << 31) as f64;
    assert_eq!(units(chance(half)), 0);
    assert_eq!(units(chance(half / 2.0)), 0);
    assert_eq!(units(chance_bits(half.to_bits() - 1)), 0);
    assert_eq!(units(chance_bits(half.to_bits() + 1)), 1);
    assert_eq!(units(chance(3.0 * half)), 2);
    assert_eq!(units(chance(5.0 * half)), 2);
    assert_eq!(units(strike(1.0 / 65_536.0, 1.0 / 32_768.0)), 0);
    assert_eq!(units(strike(3.0 / 65_536.0, 1.0 / 32_768.0)), 2);
    assert_eq!(units(strike(1.0 / 65_536.0, 1.0 / 65_536.0)), 0);
    assert_eq!(units(strike(1.0, 0.5)), ONE / 2);
    assert_eq!(units(strike(-0.0, 1.0)), 0);
    // The smallest numbers of each format.
    assert_eq!(units(chance_bits(1)), 0);
    assert_eq!(units(strike_bits(1, 1)), 0);
}

/// Buffers on input 0 with these chances in units, first to last, and what reads them.
fn buffers(units: &[u32], more: &[Record], outputs: &[u16]) -> Vec<u32> {
    let flip = |units: &u32| chance(f64::from(*units) / U as f64);
    let mut gates: Vec<Record> =
        units.iter().map(|units| Record::new(2, &[0], flip(units))).collect();
    gates.extend_from_slice(more);
    opened(&draft(1, gates, outputs)).0
}

#[test]
fn an_exact_half_goes_to_the_even_unit_in_every_place() {
    let reliability = |area: &[u32]| ffi::read_netlist(area).done().units;
    // Gate steps: a buffer behind a buffer, 268,435,456.5 and 32,767.5.
    let behind = |units: u32| Record::new(2, &[1], chance(f64::from(units) / U as f64));
    let area = buffers(&[1 << 28], &[behind(1)], &[2]);
    assert_eq!(ffi::read_gate(&area, 1).done().failure, 268_435_456);
    let area = buffers(&[1 << 14], &[behind(1 << 14)], &[2]);
    assert_eq!(ffi::read_gate(&area, 1).done().failure, 32_768);
    // Output products: 1,073,692,672.5 and 536,870,911.5.
    assert_eq!(reliability(&buffers(&[1 << 15, 1 << 14], &[], &[1, 2])), 1_073_692_672);
    assert_eq!(reliability(&buffers(&[1 << 29, 1], &[], &[1, 2])), 536_870_912);
    // A fold: an AND of two buffers, 0.5 under pattern 0 and 49,151.5 under pattern 1.
    let mut area = buffers(&[1 << 15, 1 << 14], &[Record::new(8, &[1, 2], NEVER)], &[3]);
    assert_eq!(ffi::read_gate(&area, 2).done().failure, 0);
    ffi::toggle_input(&mut area, 0).done();
    assert_eq!(ffi::read_gate(&area, 2).done().failure, 49_152);
    // Averages of U and U - 3, and of U and U - 1.
    let and = Record::new(8, &[0, 1], NEVER);
    let mut area = buffers(&[3], std::slice::from_ref(&and), &[2]);
    assert_eq!(ffi::average(&mut area, &[1, 1]).done(), ONE - 2);
    let mut area = buffers(&[1], &[and], &[2]);
    assert_eq!(ffi::average(&mut area, &[1, 1]).done(), ONE);
}

#[test]
fn figure_2_1() {
    let flip = chance(0.05);
    let gates = vec![Record::new(8, &[0, 1], flip), Record::new(8, &[1, 2], flip)];
    let (mut area, live) = opened(&draft(3, gates, &[3, 4]));
    assert_eq!(live, 2);
    for pattern in 0..8u32 {
        for input in 0..3 {
            let now = ffi::read_netlist(&area).done().pattern;
            if ((now ^ pattern) >> input) & 1 == 1 {
                ffi::toggle_input(&mut area, input).done();
            }
        }
        let reading = ffi::read_netlist(&area).done();
        assert_eq!((reading.pattern, reading.units), (pattern, 969_051_997));
    }
    assert_eq!(ffi::average(&mut area, &[5, 0, 1, 1_048_575, 3, 2, 9, 1]).done(), 969_051_997);
}

#[test]
fn an_and_into_an_inverter() {
    let flip = chance(0.05);
    let gates = vec![Record::new(8, &[0, 1], flip), Record::new(1, &[2], flip)];
    let (area, live) = opened(&draft(2, gates, &[3]));
    assert_eq!(live, 2);
    let gate = ffi::read_gate(&area, 1).done();
    assert_eq!((gate.right, gate.failure), (1, 102_005_473));
    assert_eq!(ffi::read_netlist(&area).done().units, 971_736_351);
}

/// Two buffers in a row with these flips.
fn in_a_row(first: (u8, [u8; 8]), second: (u8, [u8; 8])) -> Draft {
    draft(1, vec![Record::new(2, &[0], first), Record::new(2, &[1], second)], &[2])
}

#[test]
fn two_sure_flips_are_above_a_half() {
    assert_eq!(open_answer(&in_a_row(chance(1.0), chance(1.0))), refused(22, 0));
    let (mut area, _) = opened(&in_a_row(chance(0.5), chance(0.5)));
    for _ in 0..2 {
        assert_eq!(ffi::read_netlist(&area).done().units, ONE / 2);
        assert_eq!(ffi::read_gate(&area, 1).done().failure, ONE / 2);
        ffi::toggle_input(&mut area, 0).done();
    }
}

/// Chances beside 0.5, by image and by call: the nearest of each form on both sides, and strikes whose
/// product is nearer than either number tells.
#[test]
fn chances_beside_a_half() {
    let half = 0.5f64.to_bits();
    let half_f32 = 0.5f32.to_bits();
    let one_f32 = 1.0f32.to_bits();
    let in_f32 = |digits: u32| (digits as f32 / 16_777_216.0).to_bits();
    let accepted = [
        (chance_bits(half - 1), ONE / 2),
        (chance_bits(half), ONE / 2),
        (strike_bits(half_f32 - 1, one_f32), ONE / 2 - 32),
        (strike_bits(half_f32, one_f32), ONE / 2),
        (strike_bits(one_f32, half_f32), ONE / 2),
        (strike_bits(half_f32 + 1, one_f32 - 2), ONE / 2),
        // 0.5 - 2^-48
        (strike_bits(in_f32(10_610_063), in_f32(13_264_529)), ONE / 2),
    ];
    let above = [
        chance_bits(half + 1),
        chance(0.5 + 0.5 / (1u64 << 30) as f64),
        chance(1.0),
        strike_bits(half_f32 + 1, one_f32 - 1),
        strike_bits(half_f32 + 1, one_f32),
        strike_bits(one_f32, half_f32 + 1),
        // 0.5 + 2^-47, which is nearest to ONE / 2 units
        strike_bits(in_f32(8_392_705), in_f32(16_769_026)),
        strike(1.0, 1.0),
    ];
    for (flip, expected) in accepted {
        assert_eq!(units(flip), expected, "{flip:?}");
    }
    for flip in above {
        assert_eq!(open_answer(&in_a_row(chance(0.5), flip)), refused(22, 1), "{flip:?}");
        let (mut area, _) = opened(&in_a_row(NEVER, NEVER));
        let before = area.clone();
        assert_eq!(ffi::set_flip(&mut area, 1, flip.0, flip.1), refused(22, 1), "{flip:?}");
        assert_eq!(ffi::set_flip(&mut area, 2, flip.0, flip.1), refused(10, 2), "{flip:?}");
        assert_eq!(area, before);
    }
}

#[test]
fn no_gates() {
    let (mut area, live) = opened(&draft(1, vec![], &[0]));
    assert_eq!(live, 0);
    assert_eq!(area, [1, 0, 1, 0, ONE, 0, 0, 0, 0]);
    assert_eq!(ffi::average(&mut area, &[0, 1]), Answer::Done(ONE));
}

#[test]
fn readers_of_live_gates() {
    let buffer = || Record::new(2, &[0], chance(0.5));
    // An AND that reads one gate twice.
    let shared = draft(1, vec![buffer(), Record::new(8, &[1, 1], NEVER)], &[2]);
    assert_eq!(open_answer(&shared), refused(9, 0));
    // One input on both pins.
    let input_twice = draft(1, vec![Record::new(8, &[0, 0], NEVER)], &[1]);
    assert_eq!(open_answer(&input_twice), Answer::Done(1));
    // One live and one dead reader.
    let dead =
        draft(1, vec![buffer(), Record::new(2, &[1], NEVER), Record::new(1, &[1], NEVER)], &[2]);
    assert_eq!(open_answer(&dead), Answer::Done(2));
    // A gate that only a dead gate reads, and twice: both are dead.
    let dead_pair = draft(1, vec![buffer(), Record::new(8, &[1, 1], NEVER)], &[0]);
    assert_eq!(open_answer(&dead_pair), Answer::Done(0));
    // A buffer at a half on two outputs: not a quarter, but refused.
    assert_eq!(open_answer(&draft(1, vec![buffer()], &[1, 1])), refused(9, 0));
    // An input on two outputs is no gate.
    assert_eq!(open_answer(&draft(1, vec![], &[0, 0])), Answer::Done(0));
}

#[test]
fn an_and_on_zeros_fails_only_if_both_pins_are_wrong() {
    let (area, _) = opened(&and_of_two_buffers());
    assert_eq!(ffi::read_gate(&area, 2).done().failure, ONE / 4);
    assert_eq!(area[RELIABILITY], ONE / 4 * 3);
}

#[test]
fn floats_that_are_refused() {
    let one = 1.0f64.to_bits();
    let one_f32 = 1.0f32.to_bits();
    let zero_f32 = 0;
    let mut flips = vec![
        chance(f64::NAN),
        chance_bits(0xFFF0_0000_0000_0001),
        chance(f64::INFINITY),
        chance(f64::NEG_INFINITY),
        chance_bits(one + 1),
        chance_bits((1 << 63) | 1),
        chance(-1.0),
        (0, chance(-0.0).1),
        (0, [0, 0, 0, 0, 0, 0, 0, 1]),
        (3, [0; 8]),
        (255, [0; 8]),
    ];
    let bad_halves =
        [f32::NAN.to_bits(), f32::INFINITY.to_bits(), one_f32 + 1, (1 << 31) | 1, 0x7F80_0001];
    for bad in bad_halves {
        // A bad half is refused even where the other is 0 and the product would be too.
        flips.push(strike_bits(bad, zero_f32));
        flips.push(strike_bits(zero_f32, bad));
        flips.push(strike_bits(bad, one_f32));
    }
    for flip in flips {
        let gates = vec![Record::new(2, &[0], NEVER), Record::new(2, &[1], flip)];
        assert_eq!(open_answer(&draft(1, gates, &[2])), refused(7, 1), "{flip:?}");
        let gates = vec![Record::new(2, &[0], NEVER), Record::new(2, &[1], NEVER)];
        let (mut area, _) = opened(&draft(1, gates, &[2]));
        let before = area.clone();
        assert_eq!(ffi::set_flip(&mut area, 1, flip.0, flip.1), refused(11, 1), "{flip:?}");
        assert_eq!(area, before);
    }
}

#[test]
fn counts_at_their_limits() {
    assert_eq!(open_answer(&draft(12, vec![], &[11])), Answer::Done(0));
    assert_eq!(open_answer(&draft(13, vec![], &[11])), refused(3, 0));
    let constants = |count| vec![Record::new(1, &[], NEVER); count];
    assert_eq!(open_answer(&draft(0, constants(1024), &[1023])), Answer::Done(1));
    assert_eq!(open_answer(&draft(0, constants(1025), &[1023])), refused(3, 0));
    assert_eq!(open_answer(&draft(1, vec![], &[])), refused(3, 0));
    assert_eq!(open_answer(&draft(1, vec![], &[0; 64])), Answer::Done(0));
    assert_eq!(open_answer(&draft(1, vec![], &[0; 65])), refused(3, 0));
    // Nothing to read at all: every output word is too large.
    assert_eq!(open_answer(&draft(0, vec![], &[0])), refused(8, 0));
}

/// For each pin count: the highest table bit and the latest source are taken, the next are not.
#[test]
fn gate_records_at_their_limits() {
    for pins in 0..=4usize {
        let rows = 1u32 << pins;
        let sources = [1, 0, 0, 0];
        let sound = Record::new(1 << (rows - 1), &sources[..pins], NEVER);
        let with = |change: &dyn Fn(&mut Record)| {
            let mut record = sound.clone();
            change(&mut record);
            // Gate 0 reads nothing; gate 1 is the one under test and may read sources 0 and 1.
            open_answer(&draft(1, vec![Record::new(1, &[], NEVER), record], &[2]))
        };
        let live = if pins == 0 { 1 } else { 2 };
        assert_eq!(with(&|_| {}), Answer::Done(live), "{pins} pins");
        if pins < 4 {
            assert_eq!(with(&|record| record.table |= 1 << rows), refused(5, 1));
            assert_eq!(with(&|record| record.table |= 1 << 15), refused(5, 1));
            assert_eq!(with(&|record| record.pins[pins] = 1), refused(5, 1));
            assert_eq!(with(&|record| record.pins[3] = 256), refused(5, 1));
        }
        for pin in 0..pins {
            assert_eq!(with(&|record| record.pins[pin] = 2), refused(6, 1), "pin {pin}");
            assert_eq!(with(&|record| record.pins[pin] = 65_535), refused(6, 1), "pin {pin}");
        }
        assert_eq!(with(&|record| record.pin_count = 5), refused(5, 1));
        assert_eq!(with(&|record| record.pin_count = 255), refused(5, 1));
    }
    let outputs = |word| open_answer(&draft(2, vec![Record::new(2, &[0], NEVER)], &[0, word]));
    assert_eq!(outputs(2), Answer::Done(1));
    assert_eq!(outputs(3), refused(8, 1));
    assert_eq!(outputs(65_535), refused(8, 1));
}

#[test]
fn image_lengths_at_their_limits() {
    let mut whole = draft(1, vec![], &[0]);
    whole.heading = vec![0xEE; 32_768 - 18];
    assert_eq!(whole.bytes().len(), 32_768);
    assert_eq!(open_answer(&whole), Answer::Done(0));
    whole.heading.push(0xEE);
    assert_eq!(open_answer(&whole), refused(1, 0));
    // Sixteen bytes are a trailer alone, which cannot hold the one output that is needed.
    let trailer = draft(1, vec![], &[]);
    assert_eq!(trailer.bytes().len(), 16);
    assert_eq!(open_answer(&trailer), refused(3, 0));
    let mut cut = draft(1, vec![], &[0]);
    cut.cut = 1;
    assert_eq!(open_answer(&cut), refused(4, 0));
}

#[test]
fn weights_at_their_limit() {
    let (mut area, _) = opened(&draft(1, vec![Record::new(2, &[0], chance(0.5))], &[1]));
    assert_eq!(ffi::average(&mut area, &[0, 1_048_575]), Answer::Done(ONE / 2));
    assert_eq!(ffi::average(&mut area, &[0, 1_048_576]), refused(12, 1));
}

#[test]
fn the_printed_sheet() {
    let printed = "inputs 2 gates 3 outputs 1 live 3\n\
                   00 805306368\n10 805306368\n01 805306368\n11 268435456\n\
                   average 671088640\n";
    assert_eq!(sheet(&Library, &and_of_two_buffers().bytes()), printed);
    // No inputs: one pattern, written as a dash.
    let constant = draft(0, vec![Record::new(1, &[], chance(0.5))], &[0]);
    let printed = "inputs 0 gates 1 outputs 1 live 1\n- 536870912\naverage 536870912\n";
    assert_eq!(sheet(&Library, &constant.bytes()), printed);
}
