//! Makers of random netlist images, whole and damaged, and of areas that no call left.

use crate::model::{self, gate_at, Counts, MAX_FLIP, U};
use crate::random::Random;
use std::cmp::Ordering;

/// One gate record, before it becomes twenty bytes.
#[derive(Clone, Debug, Default)]
pub struct Record {
    pub pin_count: u8,
    pub kind: u8,
    pub table: u16,
    pub pins: [u16; 4],
    pub field: [u8; 8],
}

impl Record {
    pub fn new(table: u16, sources: &[u16], flip: (u8, [u8; 8])) -> Record {
        let mut pins = [0; 4];
        pins[..sources.len()].copy_from_slice(sources);
        Record { pin_count: sources.len() as u8, kind: flip.0, table, pins, field: flip.1 }
    }

    fn bytes(&self) -> [u8; 20] {
        let mut bytes = [0; 20];
        bytes[0] = self.pin_count;
        bytes[1] = self.kind;
        bytes[2..4].copy_from_slice(&self.table.to_le_bytes());
        for (at, pin) in self.pins.iter().enumerate() {
            bytes[4 + 2 * at..6 + 2 * at].copy_from_slice(&pin.to_le_bytes());
        }
        bytes[12..].copy_from_slice(&self.field);
        bytes
    }
}

/// An image in the making. The trailer follows from the rest, unless a field is given by hand.
#[derive(Clone, Debug, Default)]
pub struct Draft {
    pub heading: Vec<u8>,
    pub inputs: u16,
    pub gates: Vec<Record>,
    pub outputs: Vec<u16>,
    pub format: Option<u16>,
    pub back: Option<u32>,
    pub total: Option<u32>,
    /// Bytes to take away from the front at the very end, heading or not.
    pub cut: usize,
}

impl Draft {
    pub fn bytes(&self) -> Vec<u8> {
        let mut image = self.heading.clone();
        for gate in &self.gates {
            image.extend_from_slice(&gate.bytes());
        }
        for output in &self.outputs {
            image.extend_from_slice(&output.to_le_bytes());
        }
        let image = image.split_off(self.cut.min(image.len()));
        let back = 20 * self.gates.len() as u32 + 2 * self.outputs.len() as u32;
        let total = (image.len() + model::TRAILER) as u32;
        let mut image = image;
        let counts = [self.inputs, self.gates.len() as u16, self.outputs.len() as u16];
        for count in counts {
            image.extend_from_slice(&count.to_le_bytes());
        }
        image.extend_from_slice(&self.format.unwrap_or(1).to_le_bytes());
        image.extend_from_slice(&self.back.unwrap_or(back).to_le_bytes());
        image.extend_from_slice(&self.total.unwrap_or(total).to_le_bytes());
        image
    }

    /// The first source number that names nothing.
    pub fn sources(&self) -> u16 {
        self.inputs + self.gates.len() as u16
    }

    /// How many words an area for this image needs.
    pub fn words(&self) -> usize {
        model::HEAD + model::GATE_WORDS * self.gates.len() + self.outputs.len()
    }
}

// ---------------------------------------------------------------------------------------------
// Flips

pub const NEVER: (u8, [u8; 8]) = (0, [0; 8]);

pub fn chance(chance: f64) -> (u8, [u8; 8]) {
    chance_bits(chance.to_bits())
}

pub fn chance_bits(bits: u64) -> (u8, [u8; 8]) {
    (1, bits.to_le_bytes())
}

pub fn strike(strike: f32, window: f32) -> (u8, [u8; 8]) {
    strike_bits(strike.to_bits(), window.to_bits())
}

pub fn strike_bits(strike: u32, window: u32) -> (u8, [u8; 8]) {
    (2, (u64::from(strike) | (u64::from(window) << 32)).to_le_bytes())
}

const ONE_F64: u64 = 0x3FF0_0000_0000_0000;
const ONE_F32: u32 = 0x3F80_0000;
const HALF_F64: u64 = 0x3FE0_0000_0000_0000;
const HALF_F32: u32 = 0x3F00_0000;

/// Two f32 with all their digits whose product is nearly 0.5: in 2^-24 each, and above or below it by
/// one or two of 2^-48.
const NEAR_HALF: [(u32, u32); 3] =
    [(10_610_063, 13_264_529), (8_388_609, 16_777_214), (8_392_705, 16_769_026)];

fn in_f32(digits: u32) -> f32 {
    digits as f32 / (1 << 24) as f32
}

/// An acceptable flip: one of `any_flip` that is at most 0.5.
pub fn good_flip(random: &mut Random) -> (u8, [u8; 8]) {
    loop {
        let (kind, field) = any_flip(random);
        if !is_high(kind, field) {
            return (kind, field);
        }
    }
}

/// A flip that is good but for a chance above 0.5.
pub fn high_flip(random: &mut Random) -> (u8, [u8; 8]) {
    loop {
        let (kind, field) = any_flip(random);
        if is_high(kind, field) {
            return (kind, field);
        }
    }
}

fn is_high(kind: u8, field: [u8; 8]) -> bool {
    let chance = model::flip_chance(kind, field).expect("floats from 0 to 1");
    chance.against_half() == Ordering::Greater
}

/// A flip with every float from 0 to 1: common figures, edges of the number format, figures where
/// rounding shows, and those beside 0.5.
fn any_flip(random: &mut Random) -> (u8, [u8; 8]) {
    match random.below(16) {
        0 | 12 => NEVER,
        1 => chance(random.pick(&[0.0, -0.0, 0.05, 0.5, 1.0, 0.25, 1.0 / 3.0, 0.9])),
        2 => chance_bits(random.pick(&[
            1,
            0x000F_FFFF_FFFF_FFFF,
            0x0010_0000_0000_0000,
            HALF_F64 - 1,
            HALF_F64,
            HALF_F64 + 1,
            ONE_F64 - 1,
            ONE_F64,
            1 << 63,
        ])),
        // Log-uniform: nearly all of these are far below half a unit.
        3 => chance_bits(random.below(ONE_F64 + 1)),
        // Up to two units from 0.5, most of them nearest to it.
        13 => chance_bits(HALF_F64 - (1 << 22) + random.below(1 << 24)),
        14 => {
            let (first, second) = random.pick(&NEAR_HALF);
            let flip = random.pick(&[(first, second), (second, first)]);
            strike(in_f32(flip.0), in_f32(flip.1))
        }
        15 => {
            let beside = random.pick(&[HALF_F32 - 1, HALF_F32, HALF_F32 + 1]);
            let whole = random.pick(&[ONE_F32 - 1, ONE_F32]);
            if random.once_in(2) {
                strike_bits(beside, whole)
            } else {
                strike_bits(whole, beside)
            }
        }
        // Exact halves of a unit, and their neighbours on both sides.
        4 | 5 => {
            let odd = 2 * random.below(U) + 1;
            let half = odd as f64 / (2 * U) as f64;
            let near = random.pick(&[0i64, 0, 1, -1]);
            chance_bits(half.to_bits().wrapping_add_signed(near))
        }
        6 | 7 => chance(random.below(1 << 53) as f64 / (1u64 << 53) as f64),
        8 => strike_bits(good_f32(random), good_f32(random)),
        9 => strike_with_half(random),
        // Full fractions: the product needs 48 bits, so that f32 arithmetic would lose some.
        _ => {
            let low = 0x3F00_0001;
            let span = u64::from(ONE_F32 - low);
            strike_bits(low + random.below(span) as u32, low + random.below(span) as u32)
        }
    }
}

fn good_f32(random: &mut Random) -> u32 {
    match random.below(4) {
        0 => random.pick(&[0, 1 << 31, 1, 0x007F_FFFF, 0x0080_0000, ONE_F32 - 1, ONE_F32]),
        1 => random.below(u64::from(ONE_F32) + 1) as u32,
        _ => (random.below(1 << 24) as f32 / (1 << 24) as f32).to_bits(),
    }
}

/// Two f32 whose exact product is an odd number of 2^-31.
fn strike_with_half(random: &mut Random) -> (u8, [u8; 8]) {
    let first = 2 * random.below(1 << 15) + 1;
    let second = 2 * random.below(1 << 14) + 1;
    strike(first as f32 / (1 << 16) as f32, second as f32 / (1 << 15) as f32)
}

/// A flip that must be refused.
pub fn bad_flip(random: &mut Random) -> (u8, [u8; 8]) {
    match random.below(4) {
        0 => {
            let kind = random.pick(&[3, 3, 4, 127, 128, 255]);
            (kind, random.pick(&[[0; 8], 0.5f64.to_le_bytes()]))
        }
        1 => {
            let mut field = [0; 8];
            field[random.index(8)] = random.pick(&[1, 0x80, 255]);
            (0, field)
        }
        2 => chance_bits(bad_f64(random)),
        _ => {
            let bad = bad_f32(random);
            let good = good_f32(random);
            if random.once_in(2) {
                strike_bits(bad, good)
            } else {
                strike_bits(good, bad)
            }
        }
    }
}

fn bad_f64(random: &mut Random) -> u64 {
    match random.below(3) {
        0 => random.pick(&[
            f64::NAN.to_bits(),
            0x7FF0_0000_0000_0001,
            0xFFF8_0000_0000_0000,
            f64::INFINITY.to_bits(),
            f64::NEG_INFINITY.to_bits(),
            ONE_F64 + 1,
            (1 << 63) | 1,
            (1 << 63) | ONE_F64,
            f64::MAX.to_bits(),
            2.0f64.to_bits(),
        ]),
        1 => random.between(ONE_F64 + 1, (1 << 63) - 1),
        _ => random.between((1 << 63) + 1, u64::MAX),
    }
}

fn bad_f32(random: &mut Random) -> u32 {
    match random.below(3) {
        0 => random.pick(&[
            f32::NAN.to_bits(),
            0x7F80_0001,
            f32::INFINITY.to_bits(),
            f32::NEG_INFINITY.to_bits(),
            ONE_F32 + 1,
            (1 << 31) | 1,
            (1 << 31) | ONE_F32,
            2.0f32.to_bits(),
        ]),
        1 => random.between(u64::from(ONE_F32) + 1, (1 << 31) - 1) as u32,
        _ => random.between((1 << 31) + 1, u64::from(u32::MAX)) as u32,
    }
}

// ---------------------------------------------------------------------------------------------
// Whole netlists

/// Bounds for a random netlist.
#[derive(Clone, Copy, Debug)]
pub struct Size {
    pub inputs: u64,
    pub gates: u64,
    pub outputs: u64,
}

fn random_table(random: &mut Random, pin_count: usize) -> u16 {
    let rows = 1u32 << pin_count;
    let all = ((1u64 << rows) - 1) as u16;
    match random.below(4) {
        // AND, OR and their opposites, then parity.
        0 => 1 << (rows - 1),
        1 => all & !1,
        2 => (0..rows).filter(|row| row.count_ones() % 2 == 1).fold(0, |t, row| t | (1 << row)),
        _ => random.below(u64::from(all) + 1) as u16,
    }
}

/// A netlist that is accepted: each gate meant to be live is read at most once by such gates and the
/// outputs; gates meant to be dead read whatever they like, and only each other read them.
pub fn good_draft(random: &mut Random, size: Size) -> Draft {
    let gate_count = random.between(0, size.gates);
    // Without inputs and gates there is nothing for an output to read.
    let least_inputs = u64::from(gate_count == 0);
    let inputs = random.between(least_inputs, size.inputs.max(least_inputs)) as u16;
    let mut draft = Draft { inputs, ..Draft::default() };
    let mut unread: Vec<u16> = Vec::new();
    let dead_share = random.pick(&[0, 0, 1, 3]);
    for number in 0..gate_count as u16 {
        let last = u64::from(number) + 1 == gate_count;
        let dead = !last && random.below(10) < dead_share;
        let wanted = random.pick(&[0, 1, 1, 2, 2, 2, 3, 4]);
        let sources = if dead {
            any_sources(random, inputs + number, wanted)
        } else {
            unread_sources(random, inputs, &mut unread, wanted)
        };
        let table = random_table(random, sources.len());
        draft.gates.push(Record::new(table, &sources, good_flip(random)));
        if !dead {
            unread.push(inputs + number);
        }
    }
    let wanted = random.between(1, size.outputs);
    draft.outputs = unread_sources(random, inputs, &mut unread, wanted as usize);
    if random.once_in(3) {
        draft.heading = (0..random.between(1, 60)).map(|_| random.bits() as u8).collect();
    }
    draft
}

/// A netlist in which gates may be read by any number of others and of outputs: one in `rarely` reads
/// takes any source, the others one that nobody reads yet.
pub fn sharing_draft(random: &mut Random, size: Size, rarely: u64) -> Draft {
    let gate_count = random.between(1, size.gates.max(1));
    let inputs = random.between(0, size.inputs) as u16;
    let mut draft = Draft { inputs, ..Draft::default() };
    let mut unread: Vec<u16> = Vec::new();
    let some = |random: &mut Random, unread: &mut Vec<u16>, bound: u16, wanted: usize| {
        let mut sources = Vec::new();
        for _ in 0..wanted {
            if random.once_in(rarely) {
                sources.extend(any_sources(random, bound, 1));
            } else {
                sources.extend(unread_sources(random, inputs, unread, 1));
            }
        }
        sources
    };
    for number in 0..gate_count as u16 {
        let wanted = random.pick(&[0, 1, 1, 2, 2, 2, 3, 4]);
        let sources = some(random, &mut unread, inputs + number, wanted);
        let table = random_table(random, sources.len());
        draft.gates.push(Record::new(table, &sources, good_flip(random)));
        unread.push(inputs + number);
    }
    let wanted = random.between(1, size.outputs) as usize;
    draft.outputs = some(random, &mut unread, inputs + gate_count as u16, wanted);
    if draft.outputs.is_empty() {
        draft.outputs.push(inputs + gate_count as u16 - 1);
    }
    draft
}

fn any_sources(random: &mut Random, bound: u16, wanted: usize) -> Vec<u16> {
    let wanted = if bound == 0 { 0 } else { wanted };
    (0..wanted).map(|_| random.below(u64::from(bound)) as u16).collect()
}

/// Takes sources so that no gate is taken twice; inputs may be.
fn unread_sources(
    random: &mut Random,
    inputs: u16,
    unread: &mut Vec<u16>,
    wanted: usize,
) -> Vec<u16> {
    let mut sources = Vec::new();
    for _ in 0..wanted {
        let take_gate = !unread.is_empty() && (inputs == 0 || !random.once_in(3));
        if take_gate {
            // Mostly recent gates, so that paths become long.
            let from_end = random.below(3).min(unread.len() as u64 - 1) as usize;
            sources.push(unread.remove(unread.len() - 1 - from_end));
        } else if inputs > 0 {
            sources.push(random.below(u64::from(inputs)) as u16);
        }
    }
    sources
}

/// A chain of buffers and inverters, one after the other, read by one output: the longest path.
pub fn chain(random: &mut Random, inputs: u16, gates: u16) -> Draft {
    let mut draft = Draft { inputs, ..Draft::default() };
    for number in 0..gates {
        let source = if number == 0 { 0 } else { inputs + number - 1 };
        let table = random.pick(&[1, 2]);
        draft.gates.push(Record::new(table, &[source], good_flip(random)));
    }
    draft.outputs = vec![inputs + gates - 1];
    draft
}

// ---------------------------------------------------------------------------------------------
// Damage

/// Damages a draft so that refusal `number` (1 to 9, or 22) applies, whatever else is wrong with it. False
/// if this draft offers no place for that damage.
pub fn damage(random: &mut Random, draft: &mut Draft, number: u8) -> bool {
    match number {
        1 => damage_length(random, draft),
        2 => {
            draft.format = Some(random.pick(&[0, 2, 256, 257, 65_535]));
            true
        }
        3 => damage_counts(random, draft),
        4 => damage_back(random, draft),
        5 => on_a_gate(random, draft, damage_shape),
        6 => damage_pin(random, draft),
        7 => on_a_gate(random, draft, |random, record| {
            (record.kind, record.field) = bad_flip(random);
            true
        }),
        22 => on_a_gate(random, draft, |random, record| {
            (record.kind, record.field) = high_flip(random);
            true
        }),
        8 => damage_output(random, draft),
        9 => damage_sharing(random, draft),
        _ => false,
    }
}

fn on_a_gate(
    random: &mut Random,
    draft: &mut Draft,
    change: impl Fn(&mut Random, &mut Record) -> bool,
) -> bool {
    if draft.gates.is_empty() {
        return false;
    }
    let gate = random.index(draft.gates.len());
    change(random, &mut draft.gates[gate])
}

fn damage_length(random: &mut Random, draft: &mut Draft) -> bool {
    let right = draft.bytes().len() as u32;
    match random.below(8) {
        0 => {
            let room = (model::MAX_IMAGE + 1).saturating_sub(right as usize);
            let more = room + random.index(40);
            draft.heading.extend(std::iter::repeat_n(7, more));
            // Let the total agree, so that the length alone decides.
            draft.total = None;
        }
        1 => draft.total = Some(right + 1),
        2 => draft.total = Some(right - 1),
        3 => draft.total = Some(right + (1 << 16)),
        _ => draft.total = Some(random.pick(&[0, 15, 16, u32::MAX, right ^ (1 << 31)])),
    }
    draft.total != Some(right)
}

fn damage_counts(random: &mut Random, draft: &mut Draft) -> bool {
    match random.below(6) {
        0 | 1 => draft.inputs = random.pick(&[13, 14, 16, 255, 256, 65_535]),
        2 => draft.gates.resize(1025, Record::default()),
        3 => draft.outputs.clear(),
        4 => draft.outputs.resize(65, 0),
        _ => draft.outputs.resize(65 + random.index(300), 0),
    }
    true
}

fn damage_back(random: &mut Random, draft: &mut Draft) -> bool {
    let right = 20 * draft.gates.len() as u32 + 2 * draft.outputs.len() as u32;
    if random.once_in(3) {
        // The right distance, but the image does not reach that far back.
        draft.cut = draft.heading.len() + 1 + random.index(right as usize);
        return true;
    }
    draft.back = Some(random.pick(&[
        0,
        right + 1,
        right - 1,
        right + 2,
        right + (1 << 16),
        right + draft.heading.len() as u32 + 1,
        u32::MAX,
    ]));
    draft.back != Some(right)
}

fn damage_shape(random: &mut Random, record: &mut Record) -> bool {
    let pins = usize::from(record.pin_count);
    match random.below(3) {
        0 => record.pin_count = random.pick(&[5, 5, 6, 16, 255]),
        1 if pins < 4 => {
            let first = 1 << pins;
            let bit = if random.once_in(2) { first } else { random.between(first, 15) };
            record.table |= 1 << bit;
        }
        _ if pins < 4 => {
            let pin = random.between(pins as u64, 3) as usize;
            record.pins[pin] = random.pick(&[1, 2, 255, 256, 65_535]);
        }
        _ => record.pin_count = 5,
    }
    true
}

fn damage_pin(random: &mut Random, draft: &mut Draft) -> bool {
    let readers: Vec<usize> =
        (0..draft.gates.len()).filter(|gate| draft.gates[*gate].pin_count > 0).collect();
    if readers.is_empty() {
        return false;
    }
    let gate = random.pick(&readers);
    let pin = random.index(usize::from(draft.gates[gate].pin_count.min(4)));
    let own = draft.inputs.wrapping_add(gate as u16);
    draft.gates[gate].pins[pin] = random.pick(&[own, own, own + 1, 4095, 65_535]).max(own);
    true
}

fn damage_output(random: &mut Random, draft: &mut Draft) -> bool {
    if draft.outputs.is_empty() {
        return false;
    }
    let first_bad = draft.sources();
    let at = random.index(draft.outputs.len());
    draft.outputs[at] = random.pick(&[first_bad, first_bad, first_bad + 1, 65_535]);
    true
}

/// Makes some live gate read twice: by a second output, or by two pins of one live gate.
fn damage_sharing(random: &mut Random, draft: &mut Draft) -> bool {
    let read_by_outputs: Vec<usize> =
        (0..draft.outputs.len()).filter(|at| draft.outputs[*at] >= draft.inputs).collect();
    if read_by_outputs.is_empty() {
        return false;
    }
    let source = draft.outputs[random.pick(&read_by_outputs)];
    let reader = usize::from(source - draft.inputs);
    let Some(gate) = draft.gates.get_mut(reader) else {
        return false;
    };
    let reads_a_gate = gate.pin_count == 2 && gate.pins[0] >= draft.inputs;
    if reads_a_gate && random.once_in(2) {
        gate.pins[1] = gate.pins[0];
        return true;
    }
    if draft.outputs.len() < model::MAX_OUTPUTS as usize {
        draft.outputs.push(source);
        return true;
    }
    false
}

/// Bytes that need not be an image at all: noise, or an image with a few bits turned over.
pub fn noise(random: &mut Random, whole: &[u8]) -> Vec<u8> {
    let mut bytes = whole.to_vec();
    match random.below(4) {
        0 => bytes.truncate(random.index(17)),
        1 => bytes = (0..random.below(80)).map(|_| random.bits() as u8).collect(),
        _ => {
            for _ in 0..random.between(1, 3) {
                let at = random.index(bytes.len());
                bytes[at] ^= 1 << random.below(8);
            }
        }
    }
    bytes
}

// ---------------------------------------------------------------------------------------------
// Areas that no call left

/// A number of units up to `most`, with the edges more often than chance would give them.
fn some_units(random: &mut Random, most: u64) -> u32 {
    match random.below(4) {
        0 => random.pick(&[0, 1, (most / 2) as u32, most as u32 - 1, most as u32]),
        _ => random.below(most + 1) as u32,
    }
}

/// An area that rule 14 passes, though no call would leave it: figures of no gate's making, shared
/// gates, any flips. Followed by some words that no call may touch.
pub fn foreign_area(random: &mut Random, size: Size) -> Vec<u32> {
    let gates = random.between(0, size.gates) as u32;
    let least_inputs = u64::from(gates == 0);
    let inputs = random.between(least_inputs, size.inputs.max(least_inputs)) as u32;
    let outputs = random.between(1, size.outputs) as u32;
    let pattern = random.below(1 << inputs) as u32;
    let mut area = vec![inputs, gates, outputs, pattern, some_units(random, U), 0, 0, 0];
    for gate in 0..gates {
        let wanted = random.below(5) as usize;
        let sources = any_sources(random, (inputs + gate) as u16, wanted);
        let mut pins = [0; 4];
        for (pin, source) in pins.iter_mut().zip(&sources) {
            *pin = u32::from(*source);
        }
        area.push(sources.len() as u32);
        area.push(u32::from(random_table(random, sources.len())));
        area.extend_from_slice(&pins);
        area.push(some_units(random, MAX_FLIP));
        area.push(2 * some_units(random, U) + random.below(2) as u32);
    }
    for _ in 0..outputs {
        area.push(random.below(u64::from(inputs + gates)) as u32);
    }
    model::store_sum(&mut area);
    for _ in 0..random.below(6) {
        area.push(random.word());
    }
    area
}

/// The ways to break an area, by name; `break_area` makes them.
pub const AREA_BREAKS: [&str; 20] = [
    "inputs",
    "gates",
    "no outputs",
    "outputs",
    "word 5",
    "word 6",
    "word 7",
    "pattern",
    "reliability",
    "pin count",
    "table",
    "unused pin",
    "used pin",
    "flip",
    "figure",
    "output",
    "stale sum",
    "one word short",
    "below eight words",
    "more gates than words",
];

/// The first of the ways that take words away; it must come after all others.
pub const FIRST_CUT: usize = 17;

/// Breaks an area in one way. `counts` are those of the area when it was sound, so that several ways
/// can follow each other. False if the area offers no place for that way.
pub fn break_area(random: &mut Random, area: &mut Vec<u32>, counts: Counts, way: usize) -> bool {
    let Counts { inputs, gates, outputs } = counts;
    let needs = counts.words();
    let chosen = if gates == 0 { None } else { Some(random.below(u64::from(gates)) as u32) };
    let units_above = |random: &mut Random, most: u64| {
        random.pick(&[most as u32 + 1, most as u32 + 1, most as u32 + 2, 1 << 31 | 3, u32::MAX])
    };
    match AREA_BREAKS[way] {
        "inputs" => area[0] = random.pick(&[13, 14, 32, 64, u32::MAX]),
        "gates" => area[1] = random.pick(&[1025, 1026, 65_536, 1 << 29, u32::MAX]),
        "no outputs" => area[2] = 0,
        "outputs" => area[2] = random.pick(&[65, 66, 1 << 16, u32::MAX]),
        "word 5" => area[5] = area[5].wrapping_add(random.pick(&[1, 1 << 30, u32::MAX])),
        "word 6" => area[6] = area[6].wrapping_add(random.pick(&[1, 1 << 31, u32::MAX])),
        "word 7" => area[7] = random.pick(&[1, 1 << 16]),
        "pattern" => area[3] = random.pick(&[1 << inputs, (1 << inputs) + 1, 4096, u32::MAX]),
        "reliability" => area[4] = units_above(random, U),
        "output" => {
            let at = gate_at(gates) + random.index(outputs as usize);
            area[at] = inputs + gates + random.pick(&[0, 0, 1, 65_536, u32::MAX / 2]);
        }
        // A gate that an output reads has another flip than the sum knows of.
        "stale sum" => {
            let reads =
                area[gate_at(gates)..needs].iter().map(|source| source.wrapping_sub(inputs));
            let Some(gate) = reads.filter(|gate| *gate < gates).last() else {
                return false;
            };
            let flip = &mut area[gate_at(gate) + model::FLIP];
            *flip = if *flip == 0 { 1 } else { (*flip).min(MAX_FLIP as u32) - 1 };
        }
        "one word short" => area.truncate(needs - 1),
        "below eight words" => area.truncate(random.index(8)),
        "more gates than words" => {
            area.truncate(needs);
            if gates == model::MAX_GATES {
                return false;
            }
            area[1] = random.between(u64::from(gates) + 1, u64::from(model::MAX_GATES)) as u32;
        }
        way => {
            let Some(gate) = chosen else {
                return false;
            };
            let words = &mut area[gate_at(gate)..gate_at(gate + 1)];
            return break_gate(random, words, inputs + gate, way);
        }
    }
    true
}

/// Breaks one gate's words; `own` is the first source that the gate must not read.
fn break_gate(random: &mut Random, words: &mut [u32], own: u32, way: &str) -> bool {
    let pins = words[model::PIN_COUNT].min(4) as usize;
    match way {
        "pin count" => words[model::PIN_COUNT] = random.pick(&[5, 6, 16, 32, u32::MAX]),
        "table" => {
            let first = 1u64 << pins;
            let bit = if random.once_in(2) { first } else { random.between(first, 31) };
            words[model::TABLE] |= 1 << bit;
        }
        "unused pin" if pins < 4 => {
            let pin = random.between(pins as u64, 3) as usize;
            words[model::PINS + pin] = random.pick(&[1, 65_536, u32::MAX]);
        }
        "used pin" if pins > 0 => {
            let pin = random.index(pins);
            words[model::PINS + pin] = random.pick(&[own, own, own + 1, own + 65_536, u32::MAX]);
        }
        "flip" => {
            let most = MAX_FLIP as u32;
            words[model::FLIP] = random.pick(&[most + 1, most + 1, U as u32, u32::MAX]);
        }
        "figure" => {
            words[model::FIGURE] = random.pick(&[2 * U as u32 + 2, 2 * U as u32 + 3, u32::MAX]);
        }
        _ => return false,
    }
    true
}
