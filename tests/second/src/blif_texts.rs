//! Makers of random BLIF texts, whole and damaged: statements first, then their layout, then bytes.

use crate::random::Random;

/// A statement or cover line, as its words.
pub type Words = Vec<Vec<u8>>;

/// The most inputs, gates and outputs that a text is made with.
#[derive(Clone, Copy)]
pub struct TextSize {
    pub inputs: u64,
    pub gates: u64,
    pub outputs: u64,
}

pub const TINY: TextSize = TextSize { inputs: 3, gates: 4, outputs: 3 };
pub const USUAL: TextSize = TextSize { inputs: 12, gates: 20, outputs: 8 };
pub const FULL: TextSize = TextSize { inputs: 12, gates: 1024, outputs: 64 };

// ---------------------------------------------------------------------------------------------
// Whole texts

/// Statements of a text that fits, defines every name once and has no loop.
pub fn good_statements(random: &mut Random, size: TextSize) -> Vec<Words> {
    let inputs = random.between(0, size.inputs) as usize;
    let gates = random.between(u64::from(inputs == 0), size.gates) as usize;
    let outputs = random.between(1, size.outputs) as usize;
    let names = some_names(random, inputs + gates);
    let mut statements = vec![vec![b".model".to_vec(), random.pick(&["m", ".model", "0"]).into()]];
    let outputs = (0..outputs).map(|_| names[random.index(names.len())].clone()).collect();
    statements.extend(head(random, names[..inputs].to_vec(), outputs));
    let gates = some_gates(random, &names, inputs);
    for mut gate in shuffled(random, gates) {
        statements.append(&mut gate);
    }
    statements.push(vec![b".end".to_vec()]);
    statements
}

/// Different names: short ones mostly, some that look like something else, some of full length.
fn some_names(random: &mut Random, count: usize) -> Words {
    let special = [".end", ".names", "-", "0", "1", "11", ".", ".inputs", "~", "!"];
    let mut names: Words = vec![];
    let stem = random.pick(&["", "n", "x.", "[", "$"]);
    for at in 0..count {
        let mut name = format!("{stem}{at}_").into_bytes();
        if count < 100 && random.once_in(20) {
            name.resize(32, b'z');
        }
        if random.once_in(10) && at < special.len() {
            name = special[at].into();
        }
        names.push(name);
    }
    names
}

/// Lines of inputs and outputs in any mixture; a line may be empty.
fn head(random: &mut Random, inputs: Words, outputs: Words) -> Vec<Words> {
    let mut lines = vec![];
    let mut lists = [(".inputs", inputs.into_iter()), (".outputs", outputs.into_iter())];
    while lists.iter().any(|(_, list)| list.len() > 0) || random.once_in(8) {
        let (keyword, list) = &mut lists[random.index(2)];
        let taken = if random.once_in(2) { list.len() } else { random.index(list.len() + 1) };
        lines.push([keyword.as_bytes().to_vec()].into_iter().chain(list.take(taken)).collect());
    }
    lines
}

/// For each gate its `.names` and cover lines; a gate reads inputs and gates before it.
fn some_gates(random: &mut Random, names: &[Vec<u8>], inputs: usize) -> Vec<Vec<Words>> {
    let near = random.once_in(3);
    (inputs..names.len())
        .map(|own| {
            let pins = if own == 0 { 0 } else { random.index(5) };
            let mut line = vec![b".names".to_vec()];
            for _ in 0..pins {
                let low = if near { own.saturating_sub(3) } else { 0 };
                line.push(names[low + random.index(own - low)].clone());
            }
            line.push(names[own].clone());
            [line].into_iter().chain(some_cover(random, pins)).collect()
        })
        .collect()
}

fn some_cover(random: &mut Random, pins: usize) -> Vec<Words> {
    let value = random.pick(&[b'0', b'1', b'1']);
    let count = random.pick(&[0, 1, 1, 1, 2, 3, 5]);
    (0..count)
        .map(|_| {
            let row: Vec<u8> = (0..pins).map(|_| random.pick(b"01-")).collect();
            if pins == 0 {
                vec![vec![value]]
            } else {
                vec![row, vec![value]]
            }
        })
        .collect()
}

/// The gates in another order: as they are, turned round, a few moved, or all mixed.
fn shuffled(random: &mut Random, mut gates: Vec<Vec<Words>>) -> Vec<Vec<Words>> {
    let count = gates.len();
    match random.below(4) {
        0 => {}
        1 => gates.reverse(),
        kind => {
            for at in 0..if kind == 2 { count.min(3) } else { count } {
                gates.swap(at, random.index(count));
            }
        }
    }
    gates
}

// ---------------------------------------------------------------------------------------------
// Layout

/// How freely the statements are laid out.
#[derive(Clone, Copy)]
pub enum Layout {
    /// One space between words, one line feed after each statement.
    Plain,
    /// Blanks, comments and joined lines wherever they may stand.
    Free,
}

pub fn text_of(random: &mut Random, layout: Layout, statements: &[Words]) -> Vec<u8> {
    let mut text = vec![];
    for words in statements {
        match layout {
            Layout::Plain => text.extend(words.join(&b' ')),
            Layout::Free => lay_out(random, words, &mut text),
        }
        text.push(b'\n');
    }
    if random.once_in(4) {
        text.pop();
    }
    text
}

fn lay_out(random: &mut Random, words: &Words, text: &mut Vec<u8>) {
    let lead = ["", "", "", "", " ", "\n", "\t\n\r\n", "# .end \\\n", "\\\n", "#\n", "#\u{e9}\0\n"];
    let gap = [" ", " ", " ", " ", " ", "\t", "  ", " \r", "\\\n", " \\\n\t", "\\\n\\\n"];
    let trail = ["", "", "", "", " ", "\r", "#", " # a \\ b", "# \\", "\\\n", " \\\n\\\n#x"];
    text.extend(random.pick(&lead).bytes());
    for (at, word) in words.iter().enumerate() {
        if at > 0 {
            text.extend(random.pick(&gap).bytes());
        }
        text.extend(word);
    }
    text.extend(random.pick(&trail).bytes());
}

// ---------------------------------------------------------------------------------------------
// Damage

/// Drops, doubles, moves or changes a statement or one of its words.
pub fn damage_statements(random: &mut Random, statements: &mut Vec<Words>) {
    if statements.is_empty() {
        return;
    }
    let at = random.index(statements.len());
    let other = random.index(statements.len());
    match random.below(14) {
        0 => drop(statements.remove(at)),
        1 => statements.insert(other, statements[at].clone()),
        2 => statements.swap(at, other),
        3 => {
            let moved = statements.remove(at);
            statements.insert(other.min(statements.len()), moved);
        }
        4 => {
            // Two statements in one line, or one in two.
            let tail = statements.remove(at);
            let cut = random.index(tail.len() + 1);
            statements.insert(at, tail[cut..].to_vec());
            statements.insert(at, tail[..cut].to_vec());
        }
        5 => many_names(random, statements),
        6 | 7 => rewire(random, statements),
        _ => damage_words(random, statements, at),
    }
}

/// So many names in one list that a count may be passed.
fn many_names(random: &mut Random, statements: &mut Vec<Words>) {
    let (keyword, count) = random.pick(&[(".inputs", 13), (".outputs", 65), (".outputs", 64)]);
    let mut words: Words = vec![keyword.into()];
    words.extend((0..count).map(|at| format!("m{at}").into_bytes()));
    let at = random.between(1, 3).min(statements.len() as u64) as usize;
    statements.insert(at, words);
}

/// Lets a gate read any gate of the text, itself and those that read it among them.
fn rewire(random: &mut Random, statements: &mut [Words]) {
    let heads = |words: &Words| words.len() > 1 && words[0] == b".names";
    let gates: Vec<usize> = (0..statements.len()).filter(|at| heads(&statements[*at])).collect();
    if gates.is_empty() {
        return;
    }
    for _ in 0..random.between(1, 3) {
        let read = statements[random.pick(&gates)].last().expect("a gate has a name").clone();
        let words = &mut statements[random.pick(&gates)];
        if words.len() > 2 {
            let pin = 1 + random.index(words.len() - 2);
            words[pin] = read;
        }
    }
}

fn damage_words(random: &mut Random, statements: &mut [Words], at: usize) {
    // A statement with names in it, twice out of three times.
    let named = |words: &Words| words.len() > 1 && words[0].starts_with(b".");
    let lists: Vec<usize> = (0..statements.len()).filter(|at| named(&statements[*at])).collect();
    let at = if lists.is_empty() || random.once_in(3) { at } else { random.pick(&lists) };
    let word = other_word(random, statements);
    let words = &mut statements[at];
    if words.is_empty() {
        return words.push(word);
    }
    let place = random.index(words.len());
    match random.below(8) {
        0 => drop(words.remove(place)),
        1 => words.insert(place, word),
        2 => words.push(word),
        3 => words.swap(0, place),
        _ => words[place] = word,
    }
}

/// A word to put in another's place: mostly one of the text's own.
fn other_word(random: &mut Random, statements: &[Words]) -> Vec<u8> {
    let words = &statements[random.index(statements.len())];
    if random.once_in(3) || words.is_empty() {
        let strange = [
            ".model", ".inputs", ".outputs", ".names", ".end", ".latch", ".END", ".exdc", "0", "1",
            "-", "2", "01", "---", "a\\b", "\\", "fresh", "\u{7f}", "a\0", "\u{b}",
        ];
        return match random.below(8) {
            0 => vec![b'y'; random.between(31, 33) as usize],
            1 => vec![b'-'; random.index(6) + 1],
            _ => random.pick(&strange).into(),
        };
    }
    words[random.index(words.len())].clone()
}

/// Changes, drops, adds or repeats a few bytes.
pub fn damage_bytes(random: &mut Random, text: &mut Vec<u8>) {
    for _ in 0..random.between(1, 3) {
        if text.is_empty() {
            return;
        }
        let at = random.index(text.len());
        let byte = match random.below(4) {
            0 => random.bits() as u8,
            1 => text[random.index(text.len())],
            _ => random.pick(b"\n\n\\\\# \t\r.01-a\0\x7f"),
        };
        match random.below(8) {
            0 | 1 => text.insert(at, byte),
            2 | 3 => drop(text.remove(at)),
            4 => {
                let end = (at + random.index(40)).min(text.len());
                let part = text[at..end].to_vec();
                let to = random.index(text.len());
                text.splice(to..to, part);
            }
            5 if random.once_in(4) => text.truncate(at),
            _ => text[at] = byte,
        }
    }
}
