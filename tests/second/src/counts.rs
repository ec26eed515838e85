//! In how many listed patterns a gate's flip shows at an output: for one pattern and one gate after
//! the other, with plain values. The figures that an area holds are never looked at.

use crate::model::{gate_at, Counts, Refusal, PINS, PIN_COUNT, TABLE};

/// How many patterns a list may have.
pub const MAX_LISTED: usize = 4096;

/// The two ways to tell whether a flip shows.
#[derive(Clone, Copy, Debug, PartialEq, Eq)]
pub enum Method {
    Flip,
    Mask,
}

pub const METHODS: [Method; 2] = [Method::Flip, Method::Mask];

/// Refusals 15, 16 and 17, for a netlist with these counts; `room` is the count slice's length.
pub fn judge_list(counts: Counts, patterns: &[u32], room: usize) -> Result<(), Refusal> {
    if patterns.is_empty() || patterns.len() > MAX_LISTED {
        return Err(Refusal { number: 15, place: 0 });
    }
    if let Some(position) = patterns.iter().position(|pattern| *pattern >= 1 << counts.inputs) {
        return Err(Refusal { number: 16, place: position as u32 });
    }
    if room < counts.gates as usize {
        return Err(Refusal { number: 17, place: 0 });
    }
    Ok(())
}

/// One count for each gate of an area that rule 14 passes.
pub fn count(method: Method, area: &[u32], counts: Counts, patterns: &[u32]) -> Vec<u32> {
    let parts = Parts::of(area, counts);
    let mut seen = vec![0; parts.gates.len()];
    for pattern in patterns {
        let shows = match method {
            Method::Flip => parts.flips_that_show(*pattern),
            Method::Mask => parts.masks(*pattern),
        };
        for (count, shows) in seen.iter_mut().zip(shows) {
            *count += u32::from(shows);
        }
    }
    seen
}

/// Which gates are live: an output reads them, or a live gate does. Readers come after what they read.
pub fn live(area: &[u32], counts: Counts) -> Vec<bool> {
    let parts = Parts::of(area, counts);
    let mut read = vec![false; parts.inputs + parts.gates.len()];
    for output in &parts.outputs {
        read[*output] = true;
    }
    for (number, gate) in parts.gates.iter().enumerate().rev() {
        if read[parts.inputs + number] {
            for pin in &gate.pins {
                read[*pin] = true;
            }
        }
    }
    read.split_off(parts.inputs)
}

struct Gate {
    table: u32,
    pins: Vec<usize>,
}

impl Gate {
    /// The answer where the sources have these values.
    fn answer(&self, values: &[bool]) -> bool {
        let ones = self.pins.iter().enumerate().filter(|(_, source)| values[**source]);
        let row: u32 = ones.map(|(pin, _)| 1 << pin).sum();
        (self.table >> row) & 1 == 1
    }

    /// The answer where pin `wrong` alone has not its source's value.
    fn answer_with_wrong_pin(&self, values: &[bool], wrong: usize) -> bool {
        let mut row = 0;
        for (pin, source) in self.pins.iter().enumerate() {
            if values[*source] != (pin == wrong) {
                row += 1 << pin;
            }
        }
        (self.table >> row) & 1 == 1
    }
}

/// The netlist that an area holds.
struct Parts {
    inputs: usize,
    gates: Vec<Gate>,
    outputs: Vec<usize>,
}

impl Parts {
    fn of(area: &[u32], counts: Counts) -> Parts {
        let gates = (0..counts.gates).map(|number| {
            let words = &area[gate_at(number)..gate_at(number + 1)];
            let used = &words[PINS..PINS + words[PIN_COUNT] as usize];
            Gate { table: words[TABLE], pins: used.iter().map(|pin| *pin as usize).collect() }
        });
        let outputs = &area[gate_at(counts.gates)..counts.words()];
        Parts {
            inputs: counts.inputs as usize,
            gates: gates.collect(),
            outputs: outputs.iter().map(|output| *output as usize).collect(),
        }
    }

    fn right_values(&self, pattern: u32) -> Vec<bool> {
        let mut values: Vec<bool> =
            (0..self.inputs).map(|input| (pattern >> input) & 1 == 1).collect();
        for gate in &self.gates {
            values.push(gate.answer(&values));
        }
        values
    }

    /// For each gate, whether an output is wrong when that gate alone flips.
    fn flips_that_show(&self, pattern: u32) -> Vec<bool> {
        let right = self.right_values(pattern);
        (0..self.gates.len()).map(|flipped| self.shows(&right, flipped)).collect()
    }

    fn shows(&self, right: &[bool], flipped: usize) -> bool {
        let mut values = right.to_vec();
        values[self.inputs + flipped] = !right[self.inputs + flipped];
        // Gates before the one that flips do not read it.
        for (number, gate) in self.gates.iter().enumerate().skip(flipped + 1) {
            values[self.inputs + number] = gate.answer(&values);
        }
        self.outputs.iter().any(|output| values[*output] != right[*output])
    }

    /// For each gate, its mask. A gate's mask is complete when all later gates have passed theirs on.
    fn masks(&self, pattern: u32) -> Vec<bool> {
        let right = self.right_values(pattern);
        let mut masks = vec![false; right.len()];
        for output in &self.outputs {
            masks[*output] = true;
        }
        for (number, gate) in self.gates.iter().enumerate().rev() {
            if !masks[self.inputs + number] {
                continue;
            }
            for (pin, source) in gate.pins.iter().enumerate() {
                if gate.answer_with_wrong_pin(&right, pin) != right[self.inputs + number] {
                    masks[*source] = true;
                }
            }
        }
        masks.split_off(self.inputs)
    }
}
