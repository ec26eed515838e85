//! The image of an area, byte by byte from what the image's layout says: no heading, a record for each
//! gate, the output words, the trailer. A flip is a whole number of units, so its chance is a double
//! without loss: kind 0 for none, else kind 1.

use crate::model::{gate_at, Counts, Refusal, FLIP, PINS, PIN_COUNT, TABLE, U};

/// How long the image is.
pub fn length(counts: Counts) -> usize {
    20 * counts.gates as usize + 2 * counts.outputs as usize + 16
}

/// Refusal 21, for a slice of `room` bytes.
pub fn judge_room(counts: Counts, room: usize) -> Result<(), Refusal> {
    if room < length(counts) {
        return Err(Refusal { number: 21, place: 0 });
    }
    Ok(())
}

/// Kind and field of a flip of so many units.
pub fn flip(units: u32) -> (u8, [u8; 8]) {
    if units == 0 {
        return (0, [0; 8]);
    }
    // Below 2^31 over a power of two: exact in 53 bits.
    (1, (f64::from(units) / U as f64).to_le_bytes())
}

/// The image of an area that rule 14 passes.
pub fn image(area: &[u32]) -> Vec<u8> {
    let counts = Counts::of(area);
    let mut bytes = Vec::new();
    let short = |bytes: &mut Vec<u8>, word: u32| bytes.extend([word as u8, (word >> 8) as u8]);
    for gate in 0..counts.gates {
        let words = &area[gate_at(gate)..gate_at(gate + 1)];
        let (kind, field) = flip(words[FLIP]);
        bytes.extend([words[PIN_COUNT] as u8, kind]);
        short(&mut bytes, words[TABLE]);
        for pin in 0..4 {
            short(&mut bytes, words[PINS + pin]);
        }
        bytes.extend(field);
    }
    for output in &area[gate_at(counts.gates)..counts.words()] {
        short(&mut bytes, *output);
    }
    let back = bytes.len() as u32;
    for number in [counts.inputs, counts.gates, counts.outputs, 1] {
        short(&mut bytes, number);
    }
    bytes.extend(back.to_le_bytes());
    bytes.extend((back + 16).to_le_bytes());
    bytes
}
