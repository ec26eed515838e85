//! The book: what is current and exact after a list of calls. It sees the calls' arguments and the
//! lent area's length; it is shown neither the area's words nor what calls have answered.

use crate::compare::Call;
use crate::counts;
use crate::exact::{self, ExactSums};
use crate::model::{self, Counts, Model, Netlist, Refusal};
use crate::written;

pub struct Book {
    pub netlist: Netlist,
    pub pattern: u32,
    sums: ExactSums,
}

impl Book {
    /// The book that a first accepted opening begins.
    pub fn begin(area_len: usize, image: &[u8]) -> Result<Book, Refusal> {
        let netlist = judge_opening(area_len, image)?;
        let sums = ExactSums::new(&netlist);
        Ok(Book { netlist, pattern: 0, sums })
    }

    pub fn sums(&self) -> &ExactSums {
        &self.sums
    }

    /// Words 5 to 7: the live gates' chances in units, added up, low and high 32 bits; then zero.
    pub fn head_sum(&self) -> [u32; 3] {
        let live = model::live_gates(&self.netlist);
        let gates = self.netlist.gates.iter().zip(live).filter(|(_, live)| *live);
        let sum: u64 = gates.map(|(gate, _)| exact::nearest_units(gate.chance)).sum();
        [sum as u32, (sum >> 32) as u32, 0]
    }

    fn counts(&self) -> Counts {
        Counts {
            inputs: self.netlist.inputs,
            gates: self.netlist.gates.len() as u32,
            outputs: self.netlist.outputs.len() as u32,
        }
    }

    /// Judges a call and, if it is not refused, enters it.
    pub fn enter(&mut self, area_len: usize, call: &Call) -> Result<(), Refusal> {
        if let Call::Open(image) = call {
            *self = Book::begin(area_len, image)?;
            return Ok(());
        }
        if area_len < self.counts().words() {
            return Err(Refusal { number: 13, place: 0 });
        }
        match call {
            Call::Open(_) | Call::ReadNetlist => {}
            Call::Toggle(input) => {
                named_exists(*input, self.counts().inputs)?;
                self.pattern ^= 1 << input;
            }
            Call::Set { gate, kind, field } => {
                named_exists(*gate, self.counts().gates)?;
                let chance = Model::DOCUMENT.judge_flip(11, *gate, *kind, *field)?;
                let entry = &mut self.netlist.gates[*gate as usize];
                entry.kind = *kind;
                entry.chance = chance;
                self.sums = ExactSums::new(&self.netlist);
            }
            Call::ReadGate(gate) => named_exists(*gate, self.counts().gates)?,
            Call::Average(weights) => model::judge_weights(self.netlist.inputs, weights)?,
            Call::Counts { patterns, room, .. } => {
                counts::judge_list(self.counts(), patterns, *room)?
            }
            Call::WriteImage { room } => written::judge_room(self.counts(), *room)?,
        }
        Ok(())
    }
}

fn judge_opening(area_len: usize, image: &[u8]) -> Result<Netlist, Refusal> {
    let netlist = Model::DOCUMENT.netlist(image)?;
    let counts = Counts {
        inputs: netlist.inputs,
        gates: netlist.gates.len() as u32,
        outputs: netlist.outputs.len() as u32,
    };
    if area_len < counts.words() {
        return Err(Refusal { number: 13, place: 0 });
    }
    Ok(netlist)
}

fn named_exists(named: u32, count: u32) -> Result<(), Refusal> {
    if named < count {
        Ok(())
    } else {
        Err(Refusal { number: 10, place: named })
    }
}
