//! Reading BLIF, as card 4 says it: the text's lines, its statements, its names, then its image.

use crate::answer::Answer;
use crate::images::{Draft, Record, NEVER};
use crate::model::{answered, Refusal};
use std::collections::{HashMap, HashSet};

pub const MAX_TEXT: usize = 32_768;
pub const MAX_NAME: usize = 32;
const MAX_INPUTS: usize = 12;
const MAX_OUTPUTS: usize = 64;
const MAX_GATES: usize = 1024;
const MAX_SOURCES: usize = 4;

/// The whole call: the image goes to the front of the slice, and its length is the answer.
pub fn read_blif(text: &[u8], slice: &mut [u8]) -> Answer<u32> {
    answered(image(text).and_then(|image| {
        if slice.len() < image.len() {
            return Err(Refusal { number: 20, place: 0 });
        }
        slice[..image.len()].copy_from_slice(&image);
        Ok(image.len() as u32)
    }))
}

/// The image of a text, or refusal 18 or 19.
pub fn image(text: &[u8]) -> Result<Vec<u8>, Refusal> {
    let model = Model::of(text).map_err(|place| Refusal { number: 18, place })?;
    if let Some((_, place)) = model.failed_test() {
        return Err(Refusal { number: 19, place });
    }
    Ok(model.draft().bytes())
}

// ---------------------------------------------------------------------------------------------
// Lines of words

/// A line with the lines that are joined on to it; its number is that of the first.
struct Line<'a> {
    number: u32,
    words: Vec<&'a [u8]>,
}

fn joins(text: &[u8], at: usize) -> bool {
    text[at] == b'\\' && text.get(at + 1) == Some(&b'\n')
}

fn lines(text: &[u8]) -> Vec<Line<'_>> {
    let mut lines = vec![Line { number: 1, words: vec![] }];
    let mut number = 1;
    let mut at = 0;
    while at < text.len() {
        let start = at;
        at += 1;
        match text[start] {
            b'\n' => {
                number += 1;
                lines.push(Line { number, words: vec![] });
            }
            b' ' | b'\t' | b'\r' => {}
            b'#' => at = (at..text.len()).find(|at| text[*at] == b'\n').unwrap_or(text.len()),
            _ if joins(text, start) => {
                number += 1;
                at += 1;
            }
            _ => {
                let ends = |at: &usize| b" \t\r\n#".contains(&text[*at]) || joins(text, *at);
                at = (at..text.len()).find(ends).unwrap_or(text.len());
                let last = lines.len() - 1;
                lines[last].words.push(&text[start..at]);
            }
        }
    }
    lines
}

// ---------------------------------------------------------------------------------------------
// Statements: refusal 18

fn is_name(word: &[u8]) -> bool {
    let allowed = |byte: &u8| (33..=126).contains(byte) && *byte != b'#' && *byte != b'\\';
    (1..=MAX_NAME).contains(&word.len()) && word.iter().all(allowed)
}

/// What has been read so far, and so what may follow.
#[derive(Clone, Copy, PartialEq, Eq)]
enum Stage {
    Start,
    Head,
    Gates,
    Ended,
}

struct Named<'a> {
    name: &'a [u8],
    line: u32,
}

struct Gate<'a> {
    name: &'a [u8],
    line: u32,
    sources: Vec<&'a [u8]>,
    /// Each cover line's word for the sources (empty without sources) and its value, `0` or `1`.
    cover: Vec<(&'a [u8], u8)>,
}

#[derive(Default)]
pub struct Model<'a> {
    inputs: Vec<Named<'a>>,
    outputs: Vec<Named<'a>>,
    gates: Vec<Gate<'a>>,
    end: u32,
}

impl<'a> Model<'a> {
    /// The statements of a text, or the place of refusal 18.
    pub fn of(text: &'a [u8]) -> Result<Model<'a>, u32> {
        if text.len() > MAX_TEXT {
            return Err(0);
        }
        let mut model = Model::default();
        let mut stage = Stage::Start;
        for line in lines(text) {
            if !line.words.is_empty() {
                stage = model.take(stage, &line).ok_or(line.number)?;
            }
        }
        if stage != Stage::Ended {
            return Err(1 + text.iter().filter(|byte| **byte == b'\n').count() as u32);
        }
        Ok(model)
    }

    /// Takes one line with words; None if it does not fit.
    fn take(&mut self, stage: Stage, line: &Line<'a>) -> Option<Stage> {
        use Stage::*;
        let rest = &line.words[1..];
        let names = rest.iter().all(|word| is_name(word));
        let listed = rest.iter().map(|name| Named { name, line: line.number });
        match (stage, line.words[0]) {
            (Start, b".model") if names && rest.len() == 1 => Some(Head),
            (Head, b".inputs") if names => {
                self.inputs.extend(listed);
                Some(Head)
            }
            (Head, b".outputs") if names => {
                self.outputs.extend(listed);
                Some(Head)
            }
            (Head | Gates, b".names") if names => {
                let (name, sources) = rest.split_last()?;
                let sources = sources.to_vec();
                let fits = sources.len() <= MAX_SOURCES;
                self.gates.push(Gate { name, line: line.number, sources, cover: vec![] });
                fits.then_some(Gates)
            }
            (Head | Gates, b".end") if rest.is_empty() => {
                self.end = line.number;
                Some(Ended)
            }
            (Gates, _) => self.take_cover_line(&line.words).then_some(Gates),
            _ => None,
        }
    }

    /// Takes a line of the last gate's cover, if it is one.
    fn take_cover_line(&mut self, words: &[&'a [u8]]) -> bool {
        let gate = self.gates.last_mut().expect("a gate is open");
        let (pins, value) = match (gate.sources.len(), words) {
            (0, [value]) => (&b""[..], *value),
            (1.., [pins, value]) => (*pins, *value),
            _ => return false,
        };
        let known = pins.iter().all(|byte| b"01-".contains(byte));
        let value = match value {
            b"0" => b'0',
            b"1" => b'1',
            _ => return false,
        };
        let same = gate.cover.first().map_or(true, |(_, first)| *first == value);
        gate.cover.push((pins, value));
        known && same && pins.len() == gate.sources.len()
    }
}

// ---------------------------------------------------------------------------------------------
// Names and counts: refusal 19

/// What a name stands for.
#[derive(Clone, Copy)]
enum Source {
    Input(usize),
    Gate(usize),
}

impl Model<'_> {
    /// Which of the four tests of refusal 19 fails first (0 to 3), with its place.
    pub fn failed_test(&self) -> Option<(usize, u32)> {
        let tests = [Self::passes_count, Self::defines_again, Self::undefined, Self::on_a_loop];
        tests.iter().enumerate().find_map(|(at, test)| Some((at, test(self)?)))
    }

    fn passes_count(&self) -> Option<u32> {
        let past = [
            self.inputs.get(MAX_INPUTS).map(|input| input.line),
            self.outputs.get(MAX_OUTPUTS).map(|output| output.line),
            self.gates.get(MAX_GATES).map(|gate| gate.line),
            self.outputs.is_empty().then_some(self.end),
        ];
        past.into_iter().flatten().min()
    }

    fn defines_again(&self) -> Option<u32> {
        let mut known = HashSet::new();
        let inputs = self.inputs.iter().map(|input| (input.name, input.line));
        let gates = self.gates.iter().map(|gate| (gate.name, gate.line));
        inputs.chain(gates).filter(|(name, _)| !known.insert(*name)).map(|(_, line)| line).min()
    }

    fn undefined(&self) -> Option<u32> {
        let known = self.definitions();
        let outputs = self.outputs.iter().map(|output| (output.name, output.line));
        let sources = |gate: &'_ Gate<'_>| -> Vec<u32> {
            let unknown = gate.sources.iter().filter(|name| !known.contains_key(*name));
            unknown.map(|_| gate.line).collect()
        };
        let in_outputs =
            outputs.filter(|(name, _)| !known.contains_key(name)).map(|(_, line)| line);
        in_outputs.chain(self.gates.iter().flat_map(sources)).min()
    }

    fn on_a_loop(&self) -> Option<u32> {
        let reads = self.gates_read();
        let looped = (0..self.gates.len()).filter(|gate| depends_on_itself(&reads, *gate));
        looped.map(|gate| self.gates[gate].line).min()
    }

    /// Each name's first definition.
    fn definitions(&self) -> HashMap<&[u8], Source> {
        let mut known = HashMap::new();
        for (at, input) in self.inputs.iter().enumerate() {
            known.entry(input.name).or_insert(Source::Input(at));
        }
        for (at, gate) in self.gates.iter().enumerate() {
            known.entry(gate.name).or_insert(Source::Gate(at));
        }
        known
    }

    /// For each gate the gates that it reads, all numbered as in the text.
    fn gates_read(&self) -> Vec<Vec<usize>> {
        let known = self.definitions();
        let gate_of = |name: &&[u8]| match known[name] {
            Source::Gate(gate) => Some(gate),
            Source::Input(_) => None,
        };
        self.gates.iter().map(|gate| gate.sources.iter().filter_map(gate_of).collect()).collect()
    }
}

/// Follows the sources of a gate, and theirs, until it meets the gate itself or nothing new.
fn depends_on_itself(reads: &[Vec<usize>], gate: usize) -> bool {
    let mut seen = vec![false; reads.len()];
    let mut open = reads[gate].clone();
    while let Some(source) = open.pop() {
        if source == gate {
            return true;
        }
        if !seen[source] {
            seen[source] = true;
            open.extend_from_slice(&reads[source]);
        }
    }
    false
}

// ---------------------------------------------------------------------------------------------
// The image

impl Model<'_> {
    /// The image of a model that no test refuses.
    fn draft(&self) -> Draft {
        let known = self.definitions();
        let order = placing(&self.gates_read());
        let mut position = vec![0; order.len()];
        for (at, gate) in order.iter().enumerate() {
            position[*gate] = at;
        }
        let number = |name: &[u8]| match known[name] {
            Source::Input(input) => input as u16,
            Source::Gate(gate) => (self.inputs.len() + position[gate]) as u16,
        };
        let record = |gate: &usize| {
            let gate = &self.gates[*gate];
            let pins: Vec<u16> = gate.sources.iter().map(|name| number(name)).collect();
            Record::new(table(gate), &pins, NEVER)
        };
        Draft {
            inputs: self.inputs.len() as u16,
            gates: order.iter().map(record).collect(),
            outputs: self.outputs.iter().map(|output| number(output.name)).collect(),
            ..Draft::default()
        }
    }
}

impl<'a> Model<'a> {
    /// The outputs' values under a pattern, from names and covers alone: no table, no placing.
    pub fn outputs_under(&self, pattern: u32) -> Vec<bool> {
        let known = self.definitions();
        let mut values = HashMap::new();
        for (at, input) in self.inputs.iter().enumerate() {
            values.insert(input.name, pattern >> at & 1 == 1);
        }
        self.outputs.iter().map(|output| self.value(output.name, &known, &mut values)).collect()
    }

    fn value(
        &self,
        name: &'a [u8],
        known: &HashMap<&[u8], Source>,
        values: &mut HashMap<&'a [u8], bool>,
    ) -> bool {
        if let (None, Source::Gate(gate)) = (values.get(name), known[name]) {
            let gate = &self.gates[gate];
            let pins: Vec<u8> =
                gate.sources.iter().map(|name| u8::from(self.value(name, known, values))).collect();
            let fits = |(byte, pin): (&u8, &u8)| *byte == b'-' || *byte - b'0' == *pin;
            let met = gate.cover.iter().find(|(line, _)| line.iter().zip(&pins).all(fits));
            let value = match (met, gate.cover.first()) {
                (Some((_, value)), _) => *value == b'1',
                (None, Some((_, other))) => *other == b'0',
                (None, None) => false,
            };
            values.insert(name, value);
        }
        values[name]
    }
}

/// The gates in the order of the image: always the earliest whose sources are all placed.
fn placing(reads: &[Vec<usize>]) -> Vec<usize> {
    let mut placed = vec![false; reads.len()];
    let mut order = vec![];
    while order.len() < reads.len() {
        let ready = |gate: &usize| !placed[*gate] && reads[*gate].iter().all(|read| placed[*read]);
        let next = (0..reads.len()).find(ready).expect("there is no loop");
        placed[next] = true;
        order.push(next);
    }
    order
}

/// One bit for each row: the cover's value if one of its lines meets the row, else the other.
fn table(gate: &Gate<'_>) -> u16 {
    let Some((_, value)) = gate.cover.first() else {
        return 0;
    };
    let mut table = 0;
    for row in 0..1 << gate.sources.len() {
        let fits = |(pin, byte): (usize, &u8)| *byte == b'-' || *byte == b'0' + (row >> pin & 1);
        let met = gate.cover.iter().any(|(pins, _)| pins.iter().enumerate().all(fits));
        if met == (*value == b'1') {
            table |= 1 << row;
        }
    }
    table
}
