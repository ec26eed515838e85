//! One call made on the library and on the model, and everything compared that a caller can see.

use crate::answer::{Answer, Bench, GateReading, NetlistReading};
use crate::blif;
use crate::counts::Method;
use crate::ffi::{self, Library};
use crate::model::Model;

/// A call with its arguments.
#[derive(Clone, Debug, PartialEq, Eq)]
pub enum Call {
    Open(Vec<u8>),
    Toggle(u32),
    Set {
        gate: u32,
        kind: u8,
        field: [u8; 8],
    },
    ReadNetlist,
    ReadGate(u32),
    Average(Vec<u32>),
    /// `room` is the length of the slice that is lent for the counts.
    Counts {
        method: Method,
        patterns: Vec<u32>,
        room: usize,
    },
    /// `room` is the length of the slice that is lent for the image.
    WriteImage {
        room: usize,
    },
}

pub const CALL_NAMES: [&str; 9] = [
    "open",
    "toggle input",
    "set flip",
    "read netlist",
    "read gate",
    "average",
    "counts by flip",
    "counts by mask",
    "write image",
];

impl Call {
    /// The row of this call in a tally.
    pub fn row(&self) -> usize {
        match self {
            Call::Open(_) => 0,
            Call::Toggle(_) => 1,
            Call::Set { .. } => 2,
            Call::ReadNetlist => 3,
            Call::ReadGate(_) => 4,
            Call::Average(_) => 5,
            Call::Counts { method: Method::Flip, .. } => 6,
            Call::Counts { method: Method::Mask, .. } => 7,
            Call::WriteImage { .. } => 8,
        }
    }
}

/// A call's answer, and what it left in a slice that was lent for its results.
#[derive(Clone, Debug, PartialEq, Eq)]
pub enum Reply {
    Open(Answer<u32>),
    Toggle(Answer<()>),
    Set(Answer<()>),
    ReadNetlist(Answer<NetlistReading>),
    ReadGate(Answer<GateReading>),
    Average(Answer<u32>),
    Counts { answer: Answer<()>, counts: Vec<u32> },
    WriteImage { answer: Answer<u32>, bytes: Vec<u8> },
}

impl Reply {
    /// The refusal's number, or 0.
    pub fn number(&self) -> usize {
        match self {
            Reply::Open(answer) | Reply::Average(answer) => answer.number(),
            Reply::Toggle(answer) | Reply::Set(answer) => answer.number(),
            Reply::Counts { answer, .. } => answer.number(),
            Reply::WriteImage { answer, .. } => answer.number(),
            Reply::ReadNetlist(answer) => answer.number(),
            Reply::ReadGate(answer) => answer.number(),
        }
    }

    /// Number and place of a refusal.
    pub fn refusal(&self) -> Option<(u8, u32)> {
        fn of<T>(answer: &Answer<T>) -> Option<(u8, u32)> {
            match answer {
                Answer::Done(_) => None,
                Answer::Refused { number, place } => Some((*number, *place)),
            }
        }
        match self {
            Reply::Open(answer) | Reply::Average(answer) => of(answer),
            Reply::Toggle(answer) | Reply::Set(answer) => of(answer),
            Reply::Counts { answer, .. } => of(answer),
            Reply::WriteImage { answer, .. } => of(answer),
            Reply::ReadNetlist(answer) => of(answer),
            Reply::ReadGate(answer) => of(answer),
        }
    }
}

/// Makes a call on any bench.
pub fn perform(bench: &dyn Bench, area: &mut [u32], call: &Call) -> Reply {
    match call {
        Call::Open(image) => Reply::Open(bench.open(area, image)),
        Call::Toggle(input) => Reply::Toggle(bench.toggle_input(area, *input)),
        Call::Set { gate, kind, field } => Reply::Set(bench.set_flip(area, *gate, *kind, *field)),
        Call::ReadNetlist => Reply::ReadNetlist(bench.read_netlist(area)),
        Call::ReadGate(gate) => Reply::ReadGate(bench.read_gate(area, *gate)),
        Call::Average(weights) => Reply::Average(bench.average(area, weights)),
        Call::Counts { method, patterns, room } => {
            let (answer, counts) = count(bench, *method, area, patterns, *room);
            Reply::Counts { answer, counts }
        }
        Call::WriteImage { room } => {
            let (answer, bytes) = write(bench, area, *room);
            Reply::WriteImage { answer, bytes }
        }
    }
}

/// Writes an image into a slice of `room` bytes that stands between guard bytes, and gives the slice as
/// well.
pub fn write(bench: &dyn Bench, area: &[u32], room: usize) -> (Answer<u32>, Vec<u8>) {
    let before = unwritten_bytes(room + 2 * GUARD);
    let mut guarded = before.clone();
    let answer = bench.write_image(area, &mut guarded[GUARD..GUARD + room]);
    let guards_hold =
        guarded[..GUARD] == before[..GUARD] && guarded[GUARD + room..] == before[GUARD + room..];
    assert!(guards_hold, "an image was written outside the {room} bytes");
    (answer, guarded[GUARD..GUARD + room].to_vec())
}

/// Bytes in a row that no image has for long, each other than its neighbours.
fn unwritten_bytes(length: usize) -> Vec<u8> {
    (0..length).map(|at| 0x81 | (at % 63) as u8 * 2).collect()
}

/// What a slice lent for an image holds at first.
pub fn lent_bytes(room: usize) -> Vec<u8> {
    unwritten_bytes(room + GUARD).split_off(GUARD)
}

/// Counts into a slice of `room` words that stands between guard words, and gives the slice as well.
pub fn count(
    bench: &dyn Bench,
    method: Method,
    area: &[u32],
    patterns: &[u32],
    room: usize,
) -> (Answer<()>, Vec<u32>) {
    let before = unwritten(room + 2 * GUARD);
    let mut guarded = before.clone();
    let answer = bench.counts(method, area, patterns, &mut guarded[GUARD..GUARD + room]);
    let guards_hold =
        guarded[..GUARD] == before[..GUARD] && guarded[GUARD + room..] == before[GUARD + room..];
    assert!(guards_hold, "{method:?} wrote outside the {room} counts");
    (answer, guarded[GUARD..GUARD + room].to_vec())
}

/// Words that are no counts, each one another.
fn unwritten(length: usize) -> Vec<u32> {
    (GUARD_WORD..).take(length).collect()
}

/// What a slice lent for counts holds at first.
pub fn lent_counts(room: usize) -> Vec<u32> {
    unwritten(room + GUARD).split_off(GUARD)
}

/// How often each call gave each answer: row by call, column by refusal number, column 0 for done.
#[derive(Default)]
pub struct Tally {
    pub counts: [[u64; 23]; CALL_NAMES.len()],
}

impl Tally {
    fn enter(&mut self, call: &Call, reply: &Reply) {
        self.counts[call.row()][reply.number()] += 1;
    }

    pub fn calls(&self) -> u64 {
        self.counts.iter().flatten().sum()
    }

    pub fn of_number(&self, number: usize) -> u64 {
        self.counts.iter().map(|row| row[number]).sum()
    }

    /// These numbers must have occurred, each at least `times` times.
    pub fn assert_answers(&self, numbers: &[usize], times: u64) {
        for number in numbers {
            let seen = self.of_number(*number);
            assert!(seen >= times, "answer {number} seen only {seen} times");
        }
    }

    /// Every answer that a call can give must have been seen at least `times` times.
    pub fn assert_all_seen(&self, times: u64) {
        let possible: [&[usize]; CALL_NAMES.len()] = [
            &[0, 1, 2, 3, 4, 5, 6, 7, 8, 9, 13, 22],
            &[0, 10, 13, 14],
            &[0, 10, 11, 13, 14, 22],
            &[0, 13, 14],
            &[0, 10, 13, 14],
            &[0, 12, 13, 14],
            &[0, 13, 14, 15, 16, 17],
            &[0, 13, 14, 15, 16, 17],
            &[0, 13, 14, 21],
        ];
        for (row, numbers) in possible.iter().enumerate() {
            for (number, seen) in self.counts[row].iter().enumerate() {
                let name = CALL_NAMES[row];
                if numbers.contains(&number) {
                    assert!(*seen >= times, "{name}: answer {number} seen only {seen} times");
                } else {
                    assert_eq!(*seen, 0, "{name}: answer {number} is not one of its answers");
                }
            }
        }
    }

    pub fn print(&self) {
        println!("{} calls", self.calls());
        for (name, row) in CALL_NAMES.iter().zip(&self.counts) {
            let cells: Vec<String> = row
                .iter()
                .enumerate()
                .filter(|(_, seen)| **seen > 0)
                .map(|(number, seen)| match number {
                    0 => format!("done {seen}"),
                    _ => format!("{number}: {seen}"),
                })
                .collect();
            println!("  {name}: {}", cells.join(", "));
        }
    }
}

const GUARD: usize = 16;
const GUARD_WORD: u32 = 0x5AFE_C0DE;

/// The library's area between two strips of guard words, and the model's area beside it.
pub struct Pair {
    guarded: Vec<u32>,
    model: Vec<u32>,
}

impl Pair {
    pub fn new(area: Vec<u32>) -> Pair {
        let guard = [GUARD_WORD; GUARD];
        let guarded = [&guard[..], &area[..], &guard[..]].concat();
        Pair { guarded, model: area }
    }

    /// The area, which is the same on both sides between calls.
    pub fn area(&self) -> &[u32] {
        &self.model
    }

    pub fn len(&self) -> usize {
        self.model.len()
    }

    pub fn is_empty(&self) -> bool {
        self.model.is_empty()
    }

    /// Lends both sides the first `lent` words, makes the call, compares, and gives the answer.
    pub fn call(&mut self, lent: usize, call: &Call, tally: &mut Tally) -> Reply {
        let before = self.model.clone();
        let arguments = call.clone();
        let reply = perform(&Library, &mut self.guarded[GUARD..GUARD + lent], call);
        let expected = perform(&Model::DOCUMENT, &mut self.model[..lent], call);
        tally.enter(call, &expected);
        assert_eq!(*call, arguments, "the library wrote to an argument that it may only read");
        if reply != expected {
            panic!(
                "library {reply:?}, model {expected:?}\ncall {call:?}\nlent {lent} words of {before:?}"
            );
        }
        self.compare_words(&before, lent, call);
        if expected.number() != 0 {
            assert_eq!(self.model, before, "the model itself changed a word on refusal");
        }
        reply
    }

    fn compare_words(&self, before: &[u32], lent: usize, call: &Call) {
        let (front, rest) = self.guarded.split_at(GUARD);
        let (area, back) = rest.split_at(self.model.len());
        let guards_hold = front.iter().chain(back).all(|word| *word == GUARD_WORD);
        assert!(guards_hold, "the library wrote outside the area: {call:?}");
        if area == self.model {
            return;
        }
        let at = (0..area.len()).find(|at| area[*at] != self.model[*at]).expect("they differ");
        panic!(
            "word {at}: library {}, model {}, before {}\ncall {call:?}\nlent {lent} words of {before:?}",
            area[at], self.model[at], before[at]
        );
    }
}

// ---------------------------------------------------------------------------------------------
// Reading BLIF

/// The library's answer and the slice that it leaves, beside the second reader's.
pub fn compare_blif(text: &[u8], slice: &[u8]) -> (Answer<u32>, Vec<u8>) {
    let (mut ours, mut theirs) = (slice.to_vec(), slice.to_vec());
    let answer = blif::read_blif(text, &mut ours);
    let of_library = ffi::read_blif(text, &mut theirs);
    let shown = || String::from_utf8_lossy(text).into_owned();
    assert_eq!(of_library, answer, "library, then second reader, on {:?}", shown());
    assert!(theirs == ours, "the bytes left for {:?}", shown());
    if let Answer::Refused { .. } = answer {
        assert!(theirs == slice, "refused, and yet written: {:?}", shown());
    }
    (answer, theirs)
}
