//! Netlist images from a readable text, one statement a line:
//!
//! ```text
//! # a remark, up to the end of its line
//! heading WORDS...                               may come first: the image's free heading
//! inputs COUNT
//! gate NAME TABLE pins SOURCE... never
//! gate NAME TABLE pins SOURCE... chance X
//! gate NAME TABLE pins SOURCE... strike X WINDOW
//! gate NAME TABLE pins SOURCE... raw KIND HEX    the eight bytes of the field as sixteen digits
//! output SOURCE
//! ```
//!
//! TABLE is a decimal number, or a hexadecimal one after 0x. Its bit r is the gate's answer in row r,
//! where pin i counts 2^i: 8 is AND of two pins, 14 OR, 6 XOR, 1 an inverter, 2 a buffer. A SOURCE is
//! the name of a gate above, or a number: inputs from 0, then gates in their order.

use crate::image::{Gate, Netlist};
use crate::{Flip, Refusal, MAX_GATES, MAX_IMAGE, MAX_INPUTS, MAX_OUTPUTS};
use std::fmt;

/// What is wrong with a text, and in which line (from 1).
#[derive(Clone, Debug, PartialEq, Eq)]
pub struct TextError {
    pub line: usize,
    pub message: String,
}

impl fmt::Display for TextError {
    fn fmt(&self, f: &mut fmt::Formatter<'_>) -> fmt::Result {
        write!(f, "line {}: {}", self.line, self.message)
    }
}

impl std::error::Error for TextError {}

/// What a text describes.
#[derive(Clone, Debug, PartialEq, Eq)]
pub struct Module {
    pub image: Vec<u8>,
    gate_lines: Vec<usize>,
    output_lines: Vec<usize>,
}

impl Module {
    /// The line of the gate or output that a refused opening of the image names.
    pub fn line_of(&self, refusal: Refusal) -> Option<usize> {
        let lines = match refusal.number {
            5 | 6 | 7 | 9 | 22 => &self.gate_lines,
            8 => &self.output_lines,
            _ => return None,
        };
        lines.get(refusal.place as usize).copied()
    }
}

/// Reads a text. A good text can still make an image that opening refuses: for a flip given as `raw`
/// (7), for a chance above 0.5 (22), or for a gate that is read more than once (9).
pub fn read(text: &str) -> Result<Module, TextError> {
    let mut reader = Reader::default();
    for line in text.lines() {
        reader.line += 1;
        reader.statement(line).map_err(|message| reader.error(message))?;
    }
    reader.check_end().map_err(|message| reader.error(message))?;
    let Reader { netlist, gate_lines, output_lines, .. } = reader;
    Ok(Module { image: netlist.image(), gate_lines, output_lines })
}

const FLIPS: &str = "never, chance X, strike X WINDOW or raw KIND HEX";
const FLIP_WORDS: [&str; 4] = ["never", "chance", "strike", "raw"];

#[derive(Default)]
struct Reader {
    netlist: Netlist,
    names: Vec<String>,
    gate_lines: Vec<usize>,
    output_lines: Vec<usize>,
    /// The line that is being read.
    line: usize,
    begun: bool,
    inputs_given: bool,
}

impl Reader {
    fn error(&self, message: String) -> TextError {
        TextError { line: self.line.max(1), message }
    }

    fn statement(&mut self, line: &str) -> Result<(), String> {
        let told = line.split('#').next().unwrap_or("");
        let words: Vec<&str> = told.split_whitespace().collect();
        match words[..] {
            [] => return Ok(()),
            ["heading", ref rest @ ..] => self.heading(rest),
            ["inputs", count] => self.inputs(count),
            ["inputs", ..] => Err("`inputs` takes one number: how many there are".into()),
            ["gate", name, table, "pins", ref rest @ ..] => self.gate(name, table, rest),
            ["gate", ..] => Err("expected: gate NAME TABLE pins SOURCE... FLIP".into()),
            ["output", source] => self.output(source),
            ["output", ..] => Err("`output` takes one source; a further one is a line more".into()),
            [other, ..] => Err(format!("`{other}` is none of heading, inputs, gate, output")),
        }?;
        self.begun = true;
        Ok(())
    }

    fn heading(&mut self, words: &[&str]) -> Result<(), String> {
        if self.begun {
            return Err("the heading comes once, before everything else".into());
        }
        self.netlist.heading = words.join(" ").into_bytes();
        Ok(())
    }

    fn inputs(&mut self, word: &str) -> Result<(), String> {
        if self.inputs_given {
            return Err("the inputs are counted twice".into());
        }
        let count: usize = word.parse().map_err(|_| format!("`{word}` is no count of inputs"))?;
        if count > MAX_INPUTS {
            return Err(format!("{count} inputs are more than {MAX_INPUTS}"));
        }
        self.netlist.inputs = count as u16;
        self.inputs_given = true;
        Ok(())
    }

    fn gate(&mut self, name: &str, table: &str, rest: &[&str]) -> Result<(), String> {
        self.need_inputs()?;
        self.check_name(name)?;
        if self.names.len() == MAX_GATES {
            return Err(format!("more than {MAX_GATES} gates"));
        }
        let Some(at) = rest.iter().position(|word| FLIP_WORDS.contains(word)) else {
            return Err(format!("the gate ends without its flip: {FLIPS}"));
        };
        let (sources, flip) = rest.split_at(at);
        if sources.len() > 4 {
            return Err(format!("{} pins are more than 4", sources.len()));
        }
        let pins = sources.iter().map(|word| self.source(word)).collect::<Result<Vec<_>, _>>()?;
        let gate = Gate { table: read_table(table, pins.len())?, pins, flip: read_flip(flip)? };
        self.netlist.gates.push(gate);
        self.names.push(name.to_string());
        self.gate_lines.push(self.line);
        Ok(())
    }

    fn output(&mut self, word: &str) -> Result<(), String> {
        self.need_inputs()?;
        if self.netlist.outputs.len() == MAX_OUTPUTS {
            return Err(format!("more than {MAX_OUTPUTS} outputs"));
        }
        let source = self.source(word)?;
        self.netlist.outputs.push(source);
        self.output_lines.push(self.line);
        Ok(())
    }

    fn need_inputs(&self) -> Result<(), String> {
        if self.inputs_given {
            return Ok(());
        }
        Err("`inputs COUNT` must come first: the numbers of sources depend on it".into())
    }

    fn check_name(&self, name: &str) -> Result<(), String> {
        if FLIP_WORDS.contains(&name) || name.starts_with(|first: char| first.is_ascii_digit()) {
            return Err(format!("`{name}` cannot name a gate: it would be read as something else"));
        }
        match self.names.iter().position(|known| known == name) {
            Some(gate) => {
                Err(format!("there is a gate `{name}` already, in line {}", self.gate_lines[gate]))
            }
            None => Ok(()),
        }
    }

    /// The source that a word names, among the inputs and the gates above.
    fn source(&self, word: &str) -> Result<u16, String> {
        if let Some(gate) = self.names.iter().position(|name| name == word) {
            return Ok(self.netlist.inputs + gate as u16);
        }
        let sources = self.netlist.sources();
        match word.parse::<u16>() {
            Ok(number) if number < sources => Ok(number),
            Ok(number) => {
                Err(format!("no source {number}: up to here there are {sources}, from 0"))
            }
            Err(_) => Err(format!("no gate `{word}` above this line")),
        }
    }

    fn check_end(&self) -> Result<(), String> {
        self.need_inputs()?;
        if self.netlist.outputs.is_empty() {
            return Err("the text ends without an output".into());
        }
        let length = self.netlist.image().len();
        if length > MAX_IMAGE {
            return Err(format!("the image has {length} bytes, more than {MAX_IMAGE}"));
        }
        Ok(())
    }
}

fn read_table(word: &str, pins: usize) -> Result<u16, String> {
    let parsed = match word.strip_prefix("0x") {
        Some(digits) => u32::from_str_radix(digits, 16),
        None => word.parse(),
    };
    let table = parsed.map_err(|_| {
        format!("`{word}` is no table: write its bits as a number, such as 8 for AND of two pins")
    })?;
    let rows = 1 << pins;
    if u64::from(table) >> rows != 0 {
        return Err(format!("table {word} has a bit past the {rows} rows of {pins} pins"));
    }
    Ok(table as u16)
}

fn read_flip(words: &[&str]) -> Result<Flip, String> {
    match words {
        ["never"] => Ok(Flip::Never),
        ["chance", chance] => Ok(Flip::Chance(read_chance(chance)?)),
        ["strike", chance, window] => {
            Ok(Flip::Strike { chance: read_short(chance)?, window: read_short(window)? })
        }
        ["raw", kind, hex] => {
            let kind = kind.parse().map_err(|_| format!("`{kind}` is no flip kind, 0 to 255"))?;
            Ok(Flip::Raw { kind, field: read_hex(hex)? })
        }
        _ => Err(format!("`{}` is no flip: {FLIPS}", words.join(" "))),
    }
}

fn read_chance(word: &str) -> Result<f64, String> {
    let chance =
        word.parse().map_err(|_| format!("`{word}` is no number: write a chance like 0.05"))?;
    if (0.0..=1.0).contains(&chance) {
        Ok(chance)
    } else {
        Err(format!("`{word}` is no chance from 0 to 1"))
    }
}

/// The f32 next to a chance.
fn read_short(word: &str) -> Result<f32, String> {
    read_chance(word)?;
    word.parse().map_err(|_| format!("`{word}` is no number"))
}

fn read_hex(word: &str) -> Result<[u8; 8], String> {
    let digits = word.len() == 16 && word.bytes().all(|digit| digit.is_ascii_hexdigit());
    match u64::from_str_radix(word, 16) {
        Ok(number) if digits => Ok(number.to_be_bytes()),
        _ => Err(format!("`{word}` is not sixteen hexadecimal digits")),
    }
}
