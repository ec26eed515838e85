//! A netlist as the bytes of an image; docs/SCOPE.md, "The netlist image", has the layout.

use crate::Flip;

pub struct Gate {
    pub table: u16,
    /// At most four.
    pub pins: Vec<u16>,
    pub flip: Flip,
}

#[derive(Default)]
pub struct Netlist {
    pub heading: Vec<u8>,
    pub inputs: u16,
    pub gates: Vec<Gate>,
    pub outputs: Vec<u16>,
}

impl Netlist {
    /// The first source number that names nothing.
    pub fn sources(&self) -> u16 {
        self.inputs + self.gates.len() as u16
    }

    pub fn image(&self) -> Vec<u8> {
        let mut bytes = self.heading.clone();
        for gate in &self.gates {
            gate.write(&mut bytes);
        }
        for output in &self.outputs {
            bytes.extend(output.to_le_bytes());
        }
        let back = (bytes.len() - self.heading.len()) as u32;
        let total = bytes.len() as u32 + 16;
        let format = 1;
        for count in [self.inputs, self.gates.len() as u16, self.outputs.len() as u16, format] {
            bytes.extend(count.to_le_bytes());
        }
        bytes.extend(back.to_le_bytes());
        bytes.extend(total.to_le_bytes());
        bytes
    }
}

impl Gate {
    fn write(&self, bytes: &mut Vec<u8>) {
        bytes.extend([self.pins.len() as u8, self.flip.kind()]);
        bytes.extend(self.table.to_le_bytes());
        for pin in 0..4 {
            bytes.extend(self.pins.get(pin).copied().unwrap_or(0).to_le_bytes());
        }
        bytes.extend(self.flip.field());
    }
}
