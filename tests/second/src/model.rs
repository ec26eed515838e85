//! Document 01 as a plain program. It favours the document's own wording over speed: liveness and
//! dependence are fixpoints, figures are worked out step by step, floats are taken apart as bits.

use crate::answer::{Answer, Bench, GateReading, NetlistReading};
use crate::counts::{self, Method};
use crate::written;
use std::cmp::Ordering;

/// One, in units.
pub const U: u64 = 1 << 30;

/// The largest flip, in units.
pub const MAX_FLIP: u64 = U / 2;

pub const MAX_INPUTS: u32 = 12;
pub const MAX_GATES: u32 = 1024;
pub const MAX_OUTPUTS: u32 = 64;
pub const MAX_WEIGHT: u32 = 1_048_575;
pub const MAX_IMAGE: usize = 32_768;
pub const TRAILER: usize = 16;
pub const RECORD: usize = 20;

/// Words before the first gate, and words for each gate.
pub const HEAD: usize = 8;
pub const GATE_WORDS: usize = 8;

/// The words of a gate, counted from its first.
pub const PIN_COUNT: usize = 0;
pub const TABLE: usize = 1;
pub const PINS: usize = 2;
pub const FLIP: usize = 6;
pub const FIGURE: usize = 7;

/// The words of the head.
pub const PATTERN: usize = 3;
pub const RELIABILITY: usize = 4;

/// Number and place.
#[derive(Clone, Copy, Debug, PartialEq, Eq)]
pub struct Refusal {
    pub number: u8,
    pub place: u32,
}

fn refuse<T>(number: u8, place: u32) -> Result<T, Refusal> {
    Err(Refusal { number, place })
}

pub fn answered<T>(outcome: Result<T, Refusal>) -> Answer<T> {
    match outcome {
        Ok(result) => Answer::Done(result),
        Err(Refusal { number, place }) => Answer::Refused { number, place },
    }
}

// ---------------------------------------------------------------------------------------------
// Rules that the stand-in can get wrong on purpose

#[derive(Clone, Copy, Debug, PartialEq, Eq)]
pub enum Rounding {
    HalfEven,
    HalfUp,
    Down,
}

/// How a chance is held to 0.5.
#[derive(Clone, Copy, Debug, PartialEq, Eq)]
pub enum Limit {
    Exact,
    /// By its units, after conversion.
    ByUnits,
    /// 0.5 itself is refused.
    Below,
}

/// The document's rules, or a deliberate departure from one of them. Only `Variant::DOCUMENT` is the
/// model; the stand-in uses the others to show that the tests notice.
#[derive(Clone, Copy, Debug)]
pub struct Variant {
    pub rounding: Rounding,
    /// The last division of an average.
    pub average_rounding: Rounding,
    pub dead_readers_count: bool,
    pub not_a_number_passes: bool,
    pub limit: Limit,
}

impl Variant {
    pub const DOCUMENT: Variant = Variant {
        rounding: Rounding::HalfEven,
        average_rounding: Rounding::HalfEven,
        dead_readers_count: false,
        not_a_number_passes: false,
        limit: Limit::Exact,
    };
}

/// `numerator / denominator` as a whole number.
fn divide(rounding: Rounding, numerator: u128, denominator: u128) -> u128 {
    let down = numerator / denominator;
    let twice_rest = 2 * (numerator % denominator);
    let up = match rounding {
        Rounding::HalfEven => {
            twice_rest > denominator || (twice_rest == denominator && down % 2 == 1)
        }
        Rounding::HalfUp => twice_rest >= denominator,
        Rounding::Down => false,
    };
    down + u128::from(up)
}

/// `numerator / U`; the same as `divide`, in 64 bits because every figure passes through here.
fn divide_by_u(rounding: Rounding, numerator: u64) -> u64 {
    match rounding {
        Rounding::HalfEven => {
            let near = (numerator + U / 2) / U;
            near - u64::from(numerator % U == U / 2) * (near % 2)
        }
        _ => divide(rounding, u128::from(numerator), u128::from(U)) as u64,
    }
}

// ---------------------------------------------------------------------------------------------
// Chances

/// The exact chance numerator / 2^shift. Numerators stay below 2^53.
#[derive(Clone, Copy, Debug, PartialEq, Eq)]
pub struct Chance {
    pub numerator: u64,
    pub shift: u32,
}

impl Chance {
    pub const ZERO: Chance = Chance { numerator: 0, shift: 0 };

    fn times(self, other: Chance) -> Chance {
        // Only two f32 are ever multiplied: 24 bits times 24 bits.
        Chance { numerator: self.numerator * other.numerator, shift: self.shift + other.shift }
    }

    /// The order of the chance and 0.5. With a large shift it is far below.
    pub fn against_half(self) -> Ordering {
        if self.shift > 60 {
            return Ordering::Less;
        }
        (2 * self.numerator).cmp(&(1 << self.shift))
    }
}

/// Takes an IEEE 754 number apart. None unless it is finite and from 0 to 1.
fn decode_float(bits: u64, fraction_bits: u32, exponent_bits: u32) -> Option<Chance> {
    let fraction = bits & ((1 << fraction_bits) - 1);
    let top_exponent = (1u64 << exponent_bits) - 1;
    let exponent = (bits >> fraction_bits) & top_exponent;
    let negative = (bits >> (fraction_bits + exponent_bits)) == 1;
    if exponent == top_exponent {
        return None;
    }
    // Subnormals lack the leading one and share the lowest normal exponent.
    let numerator = if exponent == 0 { fraction } else { fraction | (1 << fraction_bits) };
    if numerator == 0 {
        return Some(Chance::ZERO);
    }
    if negative {
        return None;
    }
    let bias = (1i64 << (exponent_bits - 1)) - 1;
    let scale = exponent.max(1) as i64 - bias - i64::from(fraction_bits);
    if scale > 0 {
        return None;
    }
    let shift = (-scale) as u32;
    let above_one = shift < 64 && numerator > (1 << shift);
    if above_one {
        return None;
    }
    Some(Chance { numerator, shift })
}

pub fn decode_f64(bits: u64) -> Option<Chance> {
    decode_float(bits, 52, 11)
}

pub fn decode_f32(bits: u32) -> Option<Chance> {
    decode_float(u64::from(bits), 23, 8)
}

/// The chance that a flip kind and its eight bytes stand for; None if they are refused.
pub fn flip_chance(kind: u8, field: [u8; 8]) -> Option<Chance> {
    let number = u64::from_le_bytes(field);
    match kind {
        0 if number == 0 => Some(Chance::ZERO),
        1 => decode_f64(number),
        2 => {
            let strike = decode_f32(number as u32)?;
            let window = decode_f32((number >> 32) as u32)?;
            Some(strike.times(window))
        }
        _ => None,
    }
}

fn units(rounding: Rounding, chance: Chance) -> u32 {
    // Beyond this shift the chance lies below 2^-40: nothing but 0 is near, and u128 would overflow.
    if chance.shift >= 96 {
        return 0;
    }
    divide(rounding, u128::from(chance.numerator) << 30, 1u128 << chance.shift) as u32
}

impl Model {
    /// A chance in units, by the rounding in use.
    pub fn units(&self, chance: Chance) -> u32 {
        units(self.variant.rounding, chance)
    }
}

/// A chance in units, by the document's rounding.
pub fn chance_units(chance: Chance) -> u32 {
    units(Rounding::HalfEven, chance)
}

/// The bits of the f64 that equals units / 2^30, made without a floating-point operation.
pub fn exact_f64_bits(units: u32) -> u64 {
    if units == 0 {
        return 0;
    }
    let top = 31 - u64::from(units.leading_zeros());
    let fraction = (u64::from(units) << (52 - top)) & ((1 << 52) - 1);
    ((1023 - 30 + top) << 52) | fraction
}

// ---------------------------------------------------------------------------------------------
// Images

#[derive(Clone, Debug, PartialEq, Eq)]
pub struct Gate {
    pub pin_count: u32,
    pub table: u32,
    pub pins: [u32; 4],
    pub kind: u8,
    pub chance: Chance,
}

impl Gate {
    pub fn used_pins(&self) -> &[u32] {
        &self.pins[..self.pin_count as usize]
    }
}

/// What an accepted image says.
#[derive(Clone, Debug, PartialEq, Eq)]
pub struct Netlist {
    pub inputs: u32,
    pub gates: Vec<Gate>,
    pub outputs: Vec<u32>,
}

fn u16_at(bytes: &[u8], at: usize) -> u32 {
    u32::from(u16::from_le_bytes([bytes[at], bytes[at + 1]]))
}

fn u32_at(bytes: &[u8], at: usize) -> u32 {
    u32::from_le_bytes([bytes[at], bytes[at + 1], bytes[at + 2], bytes[at + 3]])
}

fn counts_in_range(inputs: u32, gates: u32, outputs: u32) -> bool {
    inputs <= MAX_INPUTS && gates <= MAX_GATES && (1..=MAX_OUTPUTS).contains(&outputs)
}

/// What refusal 5 asks of a gate, in an image as in an area.
fn shape_is_good(pin_count: u32, table: u32, pins: [u32; 4]) -> bool {
    if pin_count > 4 {
        return false;
    }
    let rows = 1u32 << pin_count;
    let bit_too_high = (rows..32).any(|bit| (table >> bit) & 1 == 1);
    let unused_pin_set = pins[pin_count as usize..].iter().any(|pin| *pin != 0);
    !bit_too_high && !unused_pin_set
}

/// What refusal 6 asks of a gate whose shape is good.
fn pins_are_earlier(inputs: u32, number: u32, used: &[u32]) -> bool {
    used.iter().all(|pin| *pin < inputs + number)
}

impl Model {
    /// Refusals 1 to 9.
    fn read_image(&self, image: &[u8]) -> Result<Netlist, Refusal> {
        let netlist = self.netlist_with_sharing(image)?;
        match self.lowest_shared_gate(&netlist) {
            Some(gate) => refuse(9, gate),
            None => Ok(netlist),
        }
    }

    /// Those before 9 alone: gates may be shared.
    pub fn netlist_with_sharing(&self, image: &[u8]) -> Result<Netlist, Refusal> {
        let length = image.len();
        if !(TRAILER..=MAX_IMAGE).contains(&length) {
            return refuse(1, 0);
        }
        let (before, trailer) = image.split_at(length - TRAILER);
        let inputs = u16_at(trailer, 0);
        let gate_count = u16_at(trailer, 2);
        let output_count = u16_at(trailer, 4);
        let format = u16_at(trailer, 6);
        let back = u32_at(trailer, 8);
        let total = u32_at(trailer, 12);
        if total as usize != length {
            return refuse(1, 0);
        }
        if format != 1 {
            return refuse(2, 0);
        }
        if !counts_in_range(inputs, gate_count, output_count) {
            return refuse(3, 0);
        }
        if back != 20 * gate_count + 2 * output_count || back as usize > before.len() {
            return refuse(4, 0);
        }
        let body = &before[before.len() - back as usize..];
        let (records, words) = body.split_at(RECORD * gate_count as usize);
        let mut gates = Vec::new();
        for (number, record) in records.chunks(RECORD).enumerate() {
            gates.push(self.read_gate_record(inputs, number as u32, record)?);
        }
        let mut outputs = Vec::new();
        for position in 0..output_count {
            let source = u16_at(words, 2 * position as usize);
            if source >= inputs + gate_count {
                return refuse(8, position);
            }
            outputs.push(source);
        }
        Ok(Netlist { inputs, gates, outputs })
    }

    fn read_gate_record(&self, inputs: u32, number: u32, record: &[u8]) -> Result<Gate, Refusal> {
        let pin_count = u32::from(record[0]);
        let kind = record[1];
        let table = u16_at(record, 2);
        let pins = [0, 1, 2, 3].map(|pin| u16_at(record, 4 + 2 * pin));
        let mut field = [0; 8];
        field.copy_from_slice(&record[12..20]);
        if !shape_is_good(pin_count, table, pins) {
            return refuse(5, number);
        }
        if !pins_are_earlier(inputs, number, &pins[..pin_count as usize]) {
            return refuse(6, number);
        }
        let chance = self.judge_flip(7, number, kind, field)?;
        Ok(Gate { pin_count, table, pins, kind, chance })
    }

    /// The chance of a flip for a gate; a bad one is refused with `bad`, one above 0.5 with 22.
    pub fn judge_flip(
        &self,
        bad: u8,
        gate: u32,
        kind: u8,
        field: [u8; 8],
    ) -> Result<Chance, Refusal> {
        let not_a_number = kind == 1 && f64::from_bits(u64::from_le_bytes(field)).is_nan();
        if self.variant.not_a_number_passes && not_a_number {
            return Ok(Chance::ZERO);
        }
        let Some(chance) = flip_chance(kind, field) else {
            return refuse(bad, gate);
        };
        let too_high = match self.variant.limit {
            Limit::Exact => chance.against_half() == Ordering::Greater,
            Limit::ByUnits => u64::from(chance_units(chance)) > MAX_FLIP,
            Limit::Below => chance.against_half() != Ordering::Less,
        };
        if too_high {
            return refuse(22, gate);
        }
        Ok(chance)
    }

    fn lowest_shared_gate(&self, netlist: &Netlist) -> Option<u32> {
        self.shared_gates(netlist).first().copied()
    }

    /// The live gates with two live readers or more, in order.
    pub fn shared_gates(&self, netlist: &Netlist) -> Vec<u32> {
        let live = live_gates(netlist);
        let counted = if self.variant.dead_readers_count {
            vec![true; netlist.gates.len()]
        } else {
            live.clone()
        };
        let readers = reader_counts(netlist, &counted);
        let shared = |gate: &usize| live[*gate] && readers[*gate] >= 2;
        (0..netlist.gates.len()).filter(shared).map(|gate| gate as u32).collect()
    }
}

/// Grows the set of live gates until nothing more joins.
pub fn live_gates(netlist: &Netlist) -> Vec<bool> {
    let mut live = vec![false; netlist.gates.len()];
    loop {
        let before = live.clone();
        for output in &netlist.outputs {
            mark_gate(netlist.inputs, *output, &mut live);
        }
        for (number, gate) in netlist.gates.iter().enumerate() {
            if before[number] {
                for pin in gate.used_pins() {
                    mark_gate(netlist.inputs, *pin, &mut live);
                }
            }
        }
        if live == before {
            return live;
        }
    }
}

fn mark_gate(inputs: u32, source: u32, marks: &mut [bool]) {
    if source >= inputs {
        marks[(source - inputs) as usize] = true;
    }
}

/// How often each gate is read by the outputs and by the pins of the gates that count.
fn reader_counts(netlist: &Netlist, counted: &[bool]) -> Vec<u32> {
    let mut readers = vec![0; netlist.gates.len()];
    let pins = netlist
        .gates
        .iter()
        .zip(counted)
        .filter(|(_, counts)| **counts)
        .flat_map(|(gate, _)| gate.used_pins());
    for source in pins.chain(&netlist.outputs) {
        if *source >= netlist.inputs {
            readers[(*source - netlist.inputs) as usize] += 1;
        }
    }
    readers
}

pub fn live_count(netlist: &Netlist) -> u32 {
    live_gates(netlist).iter().filter(|live| **live).count() as u32
}

// ---------------------------------------------------------------------------------------------
// Areas

#[derive(Clone, Copy, Debug, PartialEq, Eq)]
pub struct Counts {
    pub inputs: u32,
    pub gates: u32,
    pub outputs: u32,
}

impl Counts {
    /// How many words an area needs for these counts.
    pub fn words(self) -> usize {
        HEAD + GATE_WORDS * self.gates as usize + self.outputs as usize
    }

    /// What an area's first words say.
    pub fn of(area: &[u32]) -> Counts {
        Counts { inputs: area[0], gates: area[1], outputs: area[2] }
    }
}

/// Where a gate's words begin.
pub fn gate_at(gate: u32) -> usize {
    HEAD + GATE_WORDS * gate as usize
}

/// Refusals 13 and 14 of a call on an area that should be open.
fn judge_area(area: &[u32]) -> Result<Counts, Refusal> {
    if area.len() < HEAD {
        return refuse(13, 0);
    }
    let counts = Counts::of(area);
    if !counts_in_range(counts.inputs, counts.gates, counts.outputs) {
        return refuse(14, 0);
    }
    if area.len() < counts.words() {
        return refuse(13, 0);
    }
    let head_is_good =
        area[PATTERN] < 1 << counts.inputs && u64::from(area[RELIABILITY]) <= U && area[7] == 0;
    let gates_are_good = (0..counts.gates).all(|gate| gate_words_are_good(area, counts, gate));
    let outputs_are_good =
        output_words(area, counts).iter().all(|source| *source < counts.inputs + counts.gates);
    let netlist_is_good = gates_are_good && outputs_are_good;
    if head_is_good && netlist_is_good && area[5..7] == sum_words(area, counts) {
        Ok(counts)
    } else {
        refuse(14, 0)
    }
}

fn gate_words_are_good(area: &[u32], counts: Counts, gate: u32) -> bool {
    let words = &area[gate_at(gate)..gate_at(gate + 1)];
    let pins = [words[PINS], words[PINS + 1], words[PINS + 2], words[PINS + 3]];
    shape_is_good(words[PIN_COUNT], words[TABLE], pins)
        && pins_are_earlier(counts.inputs, gate, &pins[..words[PIN_COUNT] as usize])
        && u64::from(words[FLIP]) <= MAX_FLIP
        && u64::from(words[FIGURE]) <= 2 * U + 1
}

/// The flips of the gates that the area's words make live, added up: the low 32 bits
/// and the high ones.
pub fn sum_words(area: &[u32], counts: Counts) -> [u32; 2] {
    let live = counts::live(area, counts);
    let flips = (0..counts.gates).map(|gate| u64::from(area[gate_at(gate) + FLIP]));
    let sum: u64 = flips.zip(live).filter(|(_, live)| *live).map(|(flip, _)| flip).sum();
    [sum as u32, (sum >> 32) as u32]
}

/// Stores the sum of an area whose netlist is in order.
pub fn store_sum(area: &mut [u32]) {
    let sum = sum_words(area, Counts::of(area));
    area[5..7].copy_from_slice(&sum);
}

fn output_words(area: &[u32], counts: Counts) -> &[u32] {
    &area[gate_at(counts.gates)..counts.words()]
}

fn used_pins(area: &[u32], gate: u32) -> &[u32] {
    let at = gate_at(gate);
    &area[at + PINS..at + PINS + area[at + PIN_COUNT] as usize]
}

/// The right value that the area holds for a source.
fn right_value(area: &[u32], counts: Counts, source: u32) -> u32 {
    if source < counts.inputs {
        (area[PATTERN] >> source) & 1
    } else {
        area[gate_at(source - counts.inputs) + FIGURE] & 1
    }
}

/// The failure that the area holds for a source; inputs never fail.
fn failure(area: &[u32], counts: Counts, source: u32) -> u64 {
    if source < counts.inputs {
        0
    } else {
        u64::from(area[gate_at(source - counts.inputs) + FIGURE] >> 1)
    }
}

/// The table's answer where bit i of `row` is pin i's value.
pub fn table_answer(table: u32, row: u32) -> u32 {
    (table >> row) & 1
}

/// Which gates depend on `source`: those that read it, those that read these, and so on.
fn dependents(area: &[u32], counts: Counts, source: u32) -> Vec<bool> {
    let mut depends = vec![false; counts.gates as usize];
    loop {
        let before = depends.clone();
        for gate in 0..counts.gates {
            let reads_it = used_pins(area, gate).iter().any(|pin| {
                *pin == source || (*pin >= counts.inputs && before[(*pin - counts.inputs) as usize])
            });
            if reads_it {
                depends[gate as usize] = true;
            }
        }
        if depends == before {
            return depends;
        }
    }
}

// ---------------------------------------------------------------------------------------------
// Figures

impl Model {
    /// Works out one gate's last word from its pins' words, its table and its flip.
    fn work_out_gate(&self, area: &mut [u32], counts: Counts, gate: u32) {
        let at = gate_at(gate);
        let table = area[at + TABLE];
        let pins = used_pins(area, gate);
        let mut right_row = 0;
        for (pin, source) in pins.iter().enumerate() {
            right_row |= right_value(area, counts, *source) << pin;
        }
        let right = table_answer(table, right_row);
        let mut values = [0u64; 16];
        let mut in_use = 1 << pins.len();
        for (errors, value) in values.iter_mut().enumerate().take(in_use) {
            if table_answer(table, right_row ^ errors as u32) != right {
                *value = U;
            }
        }
        for source in pins {
            let f = failure(area, counts, *source);
            in_use /= 2;
            // The pin being folded is always the lowest that is left, so its two cases are neighbours.
            for pair in 0..in_use {
                let (pin_right, pin_wrong) = (values[2 * pair], values[2 * pair + 1]);
                values[pair] = self.over_u(pin_right * (U - f) + pin_wrong * f);
            }
        }
        let m = values[0];
        let p = u64::from(area[at + FLIP]);
        let failed = self.over_u(m * (U - p) + (U - m) * p);
        area[at + FIGURE] = 2 * failed as u32 + right;
    }

    fn work_out_reliability(&self, area: &mut [u32], counts: Counts) {
        let mut reliability = U;
        for source in output_words(area, counts) {
            reliability = self.over_u(reliability * (U - failure(area, counts, *source)));
        }
        area[RELIABILITY] = reliability as u32;
    }

    fn work_out_all(&self, area: &mut [u32], counts: Counts) {
        for gate in 0..counts.gates {
            self.work_out_gate(area, counts, gate);
        }
        self.work_out_reliability(area, counts);
    }

    fn work_out_some(&self, area: &mut [u32], counts: Counts, which: &[bool]) {
        for gate in 0..counts.gates {
            if which[gate as usize] {
                self.work_out_gate(area, counts, gate);
            }
        }
        self.work_out_reliability(area, counts);
    }

    pub fn over_u(&self, numerator: u64) -> u64 {
        divide_by_u(self.variant.rounding, numerator)
    }
}

// ---------------------------------------------------------------------------------------------
// The calls

pub struct Model {
    pub variant: Variant,
}

impl Model {
    pub const DOCUMENT: Model = Model { variant: Variant::DOCUMENT };

    /// What an image says, or why it is refused, before any area is looked at.
    pub fn netlist(&self, image: &[u8]) -> Result<Netlist, Refusal> {
        self.read_image(image)
    }

    fn try_open(&self, area: &mut [u32], image: &[u8]) -> Result<u32, Refusal> {
        let netlist = self.read_image(image)?;
        let counts = Counts {
            inputs: netlist.inputs,
            gates: netlist.gates.len() as u32,
            outputs: netlist.outputs.len() as u32,
        };
        if area.len() < counts.words() {
            return refuse(13, 0);
        }
        area[..HEAD].copy_from_slice(&[counts.inputs, counts.gates, counts.outputs, 0, 0, 0, 0, 0]);
        for (number, gate) in netlist.gates.iter().enumerate() {
            let at = gate_at(number as u32);
            area[at + PIN_COUNT] = gate.pin_count;
            area[at + TABLE] = gate.table;
            area[at + PINS..at + PINS + 4].copy_from_slice(&gate.pins);
            area[at + FLIP] = units(self.variant.rounding, gate.chance);
            area[at + FIGURE] = 0;
        }
        area[gate_at(counts.gates)..counts.words()].copy_from_slice(&netlist.outputs);
        self.work_out_all(area, counts);
        store_sum(area);
        Ok(live_count(&netlist))
    }

    fn try_toggle(&self, area: &mut [u32], input: u32) -> Result<(), Refusal> {
        let counts = judge_area(area)?;
        if input >= counts.inputs {
            return refuse(10, input);
        }
        area[PATTERN] ^= 1 << input;
        let which = dependents(area, counts, input);
        self.work_out_some(area, counts, &which);
        Ok(())
    }

    fn try_set(
        &self,
        area: &mut [u32],
        gate: u32,
        kind: u8,
        field: [u8; 8],
    ) -> Result<(), Refusal> {
        let counts = judge_area(area)?;
        if gate >= counts.gates {
            return refuse(10, gate);
        }
        let chance = self.judge_flip(11, gate, kind, field)?;
        area[gate_at(gate) + FLIP] = units(self.variant.rounding, chance);
        let mut which = dependents(area, counts, counts.inputs + gate);
        which[gate as usize] = true;
        self.work_out_some(area, counts, &which);
        store_sum(area);
        Ok(())
    }

    fn try_read_netlist(&self, area: &[u32]) -> Result<NetlistReading, Refusal> {
        judge_area(area)?;
        Ok(NetlistReading {
            pattern: area[PATTERN],
            units: area[RELIABILITY],
            reliability_bits: exact_f64_bits(area[RELIABILITY]),
        })
    }

    fn try_read_gate(&self, area: &[u32], gate: u32) -> Result<GateReading, Refusal> {
        let counts = judge_area(area)?;
        if gate >= counts.gates {
            return refuse(10, gate);
        }
        let word = area[gate_at(gate) + FIGURE];
        Ok(GateReading { right: word & 1, failure: word >> 1 })
    }

    fn try_average(&self, area: &mut [u32], weights: &[u32]) -> Result<u32, Refusal> {
        let counts = judge_area(area)?;
        judge_weights(counts.inputs, weights)?;
        let mut sum = 0u128;
        let mut weight_sum = 0u128;
        let mut trial = area[..counts.words()].to_vec();
        for (pattern, weight) in weights.iter().enumerate() {
            trial[PATTERN] = pattern as u32;
            self.work_out_all(&mut trial, counts);
            sum += u128::from(*weight) * u128::from(trial[RELIABILITY]);
            weight_sum += u128::from(*weight);
        }
        self.work_out_all(area, counts);
        Ok(divide(self.variant.average_rounding, sum, weight_sum) as u32)
    }
}

fn try_counts(
    method: Method,
    area: &[u32],
    patterns: &[u32],
    slice: &mut [u32],
) -> Result<(), Refusal> {
    let counts = judge_area(area)?;
    counts::judge_list(counts, patterns, slice.len())?;
    let seen = counts::count(method, area, counts, patterns);
    slice[..seen.len()].copy_from_slice(&seen);
    Ok(())
}

fn try_write(area: &[u32], slice: &mut [u8]) -> Result<u32, Refusal> {
    let counts = judge_area(area)?;
    written::judge_room(counts, slice.len())?;
    let image = written::image(area);
    slice[..image.len()].copy_from_slice(&image);
    Ok(image.len() as u32)
}

/// Refusal 12.
pub fn judge_weights(inputs: u32, weights: &[u32]) -> Result<(), Refusal> {
    if weights.len() != 1 << inputs {
        return refuse(12, 0);
    }
    if let Some(position) = weights.iter().position(|weight| *weight > MAX_WEIGHT) {
        return refuse(12, position as u32);
    }
    if weights.iter().all(|weight| *weight == 0) {
        return refuse(12, 0);
    }
    Ok(())
}

impl Bench for Model {
    fn open(&self, area: &mut [u32], image: &[u8]) -> Answer<u32> {
        answered(self.try_open(area, image))
    }
    fn toggle_input(&self, area: &mut [u32], input: u32) -> Answer<()> {
        answered(self.try_toggle(area, input))
    }
    fn set_flip(&self, area: &mut [u32], gate: u32, kind: u8, field: [u8; 8]) -> Answer<()> {
        answered(self.try_set(area, gate, kind, field))
    }
    fn read_netlist(&self, area: &[u32]) -> Answer<NetlistReading> {
        answered(self.try_read_netlist(area))
    }
    fn read_gate(&self, area: &[u32], gate: u32) -> Answer<GateReading> {
        answered(self.try_read_gate(area, gate))
    }
    fn average(&self, area: &mut [u32], weights: &[u32]) -> Answer<u32> {
        answered(self.try_average(area, weights))
    }
    fn counts(
        &self,
        method: Method,
        area: &[u32],
        patterns: &[u32],
        slice: &mut [u32],
    ) -> Answer<()> {
        answered(try_counts(method, area, patterns, slice))
    }
    fn write_image(&self, area: &[u32], image: &mut [u8]) -> Answer<u32> {
        answered(try_write(area, image))
    }
}
