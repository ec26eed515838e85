//! Which of two modules stands higher, by the model: both are opened and averaged with weight 1 for
//! every pattern, and the errors of their figures say how far apart they must be.

use crate::answer::{Answer, Bench};
use crate::exact::error_halves;
use crate::model::{answered, live_count, Model, Refusal};

#[derive(Clone, Copy, Debug, PartialEq, Eq)]
pub enum Verdict {
    Undecided,
    First,
    Second,
}

/// The average in units, the error of the figures in half units.
#[derive(Clone, Copy, Debug, PartialEq, Eq)]
pub struct Module {
    pub inputs: u32,
    pub gates: u32,
    pub outputs: u32,
    pub live: u32,
    pub average: u32,
    pub error: u32,
}

/// Patterns are those for the first, for the second, and for neither: all 0 where the numbers of inputs
/// differ.
#[derive(Clone, Copy, Debug, PartialEq, Eq)]
pub struct Comparison {
    pub verdict: Verdict,
    pub modules: [Module; 2],
    pub patterns: [u32; 3],
}

impl Comparison {
    /// The sixteen numbers that C gets.
    pub fn words(&self) -> [u32; 16] {
        let mut words = vec![self.verdict as u32];
        for module in &self.modules {
            let Module { inputs, gates, outputs, live, average, error } = *module;
            words.extend([inputs, gates, outputs, live, average, error]);
        }
        words.extend(self.patterns);
        words.try_into().expect("sixteen numbers")
    }

    pub fn from_words(words: [u32; 16]) -> Comparison {
        let verdict = match words[0] {
            0 => Verdict::Undecided,
            1 => Verdict::First,
            2 => Verdict::Second,
            other => panic!("{other} is no verdict"),
        };
        let module = |at: usize| Module {
            inputs: words[at],
            gates: words[at + 1],
            outputs: words[at + 2],
            live: words[at + 3],
            average: words[at + 4],
            error: words[at + 5],
        };
        let modules = [module(1), module(7)];
        Comparison { verdict, modules, patterns: [words[13], words[14], words[15]] }
    }
}

#[derive(Clone, Copy, Debug, PartialEq, Eq)]
pub enum Outcome {
    Done(Comparison),
    /// `image` is 1 or 2.
    Refused {
        image: u8,
        number: u8,
        place: u32,
    },
}

impl Outcome {
    pub fn done(self) -> Comparison {
        match self {
            Outcome::Done(comparison) => comparison,
            Outcome::Refused { .. } => panic!("{self:?}"),
        }
    }
}

/// How the rule may be bent, to show that the tests notice.
#[derive(Clone, Copy, Default)]
pub struct Bent {
    /// The averages' own half units are left out.
    pub no_halves: bool,
    /// Only the greater of the two errors counts.
    pub one_error: bool,
    /// The second image is judged first.
    pub second_first: bool,
}

/// Whose figure is higher by more than so many half units.
fn verdict(first: u32, second: u32, slack: u64) -> Verdict {
    let (first, second) = (2 * u64::from(first), 2 * u64::from(second));
    if first > second + slack {
        Verdict::First
    } else if second > first + slack {
        Verdict::Second
    } else {
        Verdict::Undecided
    }
}

struct Opened {
    module: Module,
    /// The reliability under each pattern.
    figures: Vec<u32>,
}

fn opened(model: &Model, image: &[u8]) -> Result<Opened, Refusal> {
    let netlist = model.netlist(image)?;
    let mut area = vec![0; 8 + 8 * netlist.gates.len() + netlist.outputs.len()];
    model.open(&mut area, image).done();
    let count = 1u32 << netlist.inputs;
    let mut figures = Vec::new();
    for pattern in 0..count {
        figures.push(model.read_netlist(&area).done().units);
        let changed = pattern ^ ((pattern + 1) % count);
        for input in (0..netlist.inputs).filter(|input| changed >> input & 1 == 1) {
            model.toggle_input(&mut area, input).done();
        }
    }
    let module = Module {
        inputs: netlist.inputs,
        gates: netlist.gates.len() as u32,
        outputs: netlist.outputs.len() as u32,
        live: live_count(&netlist),
        average: model.average(&mut area, &vec![1; count as usize]).done(),
        error: error_halves(&netlist) as u32,
    };
    Ok(Opened { module, figures })
}

/// The error of an image in half units, and its live gates.
pub fn error_of_image(model: &Model, image: &[u8]) -> Answer<(u32, u32)> {
    let netlist = model.netlist(image);
    answered(netlist.map(|netlist| (error_halves(&netlist) as u32, live_count(&netlist))))
}

/// How many half units two figures must be more than apart.
fn slack(one: &Module, other: &Module, bent: Bent) -> u64 {
    let errors = [one, other].map(|module| u64::from(module.error));
    if bent.one_error {
        errors[0].max(errors[1])
    } else {
        errors[0] + errors[1]
    }
}

/// The verdict of each pattern; none where the numbers of inputs differ.
fn verdicts(one: &Opened, other: &Opened, bent: Bent) -> Vec<Verdict> {
    if one.module.inputs != other.module.inputs {
        return Vec::new();
    }
    let apart = slack(&one.module, &other.module, bent);
    let pairs = one.figures.iter().zip(&other.figures);
    pairs.map(|(first, second)| verdict(*first, *second, apart)).collect()
}

/// The verdict of each pattern, of images that are accepted.
pub fn pattern_verdicts(model: &Model, first: &[u8], second: &[u8]) -> Vec<Verdict> {
    match [first, second].map(|image| opened(model, image)) {
        [Ok(one), Ok(other)] => verdicts(&one, &other, Bent::default()),
        _ => panic!("an image is refused"),
    }
}

pub fn compare(model: &Model, first: &[u8], second: &[u8], bent: Bent) -> Outcome {
    let (one, other) = match [first, second].map(|image| opened(model, image)) {
        [Ok(one), Ok(other)] => (one, other),
        [Err(_), Err(refusal)] if bent.second_first => return refused(2, refusal),
        [Err(refusal), _] => return refused(1, refusal),
        [_, Err(refusal)] => return refused(2, refusal),
    };
    let halves = if bent.no_halves { 0 } else { 2 };
    let apart = slack(&one.module, &other.module, bent) + halves;
    let each = verdicts(&one, &other, bent);
    let count = |which| each.iter().filter(|verdict| **verdict == which).count() as u32;
    Outcome::Done(Comparison {
        verdict: verdict(one.module.average, other.module.average, apart),
        modules: [one.module, other.module],
        patterns: [count(Verdict::First), count(Verdict::Second), count(Verdict::Undecided)],
    })
}

fn refused(image: u8, refusal: Refusal) -> Outcome {
    Outcome::Refused { image, number: refusal.number, place: refusal.place }
}
