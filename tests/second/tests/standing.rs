//! Two modules compared: on random images, damaged ones among them, as the model does it; and on small
//! ones held to the sums over all flip patterns, pairs that differ by a few units among them.

use second::arguments;
use second::exact::{Big, ExactSums, CHANCE_BITS};
use second::ffi;
use second::images::{chance, good_draft, Draft, Size};
use second::model::{Model, Netlist, MAX_FLIP, U};
use second::random::{seed, Random};
use second::standing::{self, Bent, Outcome, Verdict};
use std::cmp::Ordering;

fn by_model(first: &[u8], second: &[u8]) -> Outcome {
    standing::compare(&Model::DOCUMENT, first, second, Bent::default())
}

fn swapped(outcome: Outcome) -> Outcome {
    match outcome {
        Outcome::Done(mut comparison) => {
            comparison.modules.reverse();
            comparison.patterns.swap(0, 1);
            comparison.verdict = match comparison.verdict {
                Verdict::First => Verdict::Second,
                Verdict::Second => Verdict::First,
                Verdict::Undecided => Verdict::Undecided,
            };
            Outcome::Done(comparison)
        }
        Outcome::Refused { image, number, place } => {
            Outcome::Refused { image: 3 - image, number, place }
        }
    }
}

#[test]
fn any_two_images_are_compared_as_by_the_model() {
    let mut random = Random::new(seed() ^ 40);
    let (mut done, mut refused) = ([0u64; 3], [0u64; 2]);
    for _ in 0..6_000 {
        let size = Size {
            inputs: random.pick(&[0, 1, 2, 3, 4, 6, 7]),
            gates: random.pick(&[0, 3, 20, 60]),
            outputs: 6,
        };
        let first = arguments::image(&mut random, size);
        let second = arguments::image(&mut random, size);
        let outcome = ffi::compare(&first, &second);
        assert_eq!(outcome, by_model(&first, &second));
        let error = ffi::error_of_image(&first);
        assert_eq!(error, standing::error_of_image(&Model::DOCUMENT, &first));
        match outcome {
            Outcome::Done(comparison) => {
                done[comparison.verdict as usize] += 1;
                let module = comparison.modules[0];
                assert_eq!(error.done(), (module.error, module.live));
                assert_eq!(ffi::compare(&second, &first), swapped(outcome));
                let same = ffi::compare(&first, &first).done();
                assert_eq!(same.verdict, Verdict::Undecided);
                assert_eq!(&same.patterns[..2], [0, 0]);
            }
            Outcome::Refused { image, .. } => refused[usize::from(image) - 1] += 1,
        }
    }
    println!("undecided, first, second: {done:?}; refused: {refused:?}");
    assert!(done.iter().chain(&refused).all(|times| *times >= 100));
}

/// Modules with up to 4,096 patterns.
#[test]
fn modules_with_many_patterns_are_compared_as_by_the_model() {
    let mut random = Random::new(seed() ^ 41);
    for _ in 0..12 {
        let size = Size { inputs: 12, gates: 120, outputs: 64 };
        let [first, second] = [0, 1].map(|_| good_draft(&mut random, size).bytes());
        assert_eq!(ffi::compare(&first, &second), by_model(&first, &second));
    }
}

/// A module with its exact sums.
struct Exact {
    netlist: Netlist,
    sums: Vec<Big>,
}

impl Exact {
    fn new(image: &[u8]) -> Exact {
        let netlist = Model::DOCUMENT.netlist(image).expect("a good draft");
        let of = ExactSums::new(&netlist);
        let sums = (0..1 << netlist.inputs).map(|pattern| of.sum(&netlist, pattern)).collect();
        Exact { netlist, sums }
    }

    /// Bits of what a sum is divided by, for one pattern and for the average.
    fn parts(&self) -> u32 {
        CHANCE_BITS * self.netlist.gates.len() as u32
    }

    fn total(&self) -> Big {
        let mut total = Big::zero();
        self.sums.iter().for_each(|sum| total.add(sum));
        total
    }

    fn averages(&self, other: &Exact) -> Ordering {
        let (n, k) = (self.netlist.inputs, other.netlist.inputs);
        self.total().shifted(other.parts() + k).compare(&other.total().shifted(self.parts() + n))
    }

    fn under(&self, pattern: usize, other: &Exact) -> Ordering {
        let theirs = other.sums[pattern].shifted(self.parts());
        self.sums[pattern].shifted(other.parts()).compare(&theirs)
    }
}

#[test]
fn what_stands_higher_is_exactly_higher() {
    let mut random = Random::new(seed() ^ 42);
    let size = Size { inputs: 3, gates: 6, outputs: 3 };
    let (mut verdicts, mut near, mut left_open, mut decided) = ([0u64; 3], [0u64; 3], 0u64, 0usize);
    for round in 0..6_000 {
        let draft = good_draft(&mut random, size);
        let close = round % 2 == 0;
        let (first, second) = if close {
            let Some((one, other)) = close_pair(&mut random, &draft) else { continue };
            (one.bytes(), other.bytes())
        } else {
            (draft.bytes(), good_draft(&mut random, size).bytes())
        };
        let outcome = ffi::compare(&first, &second);
        assert_eq!(outcome, by_model(&first, &second));
        let comparison = outcome.done();
        let [one, other] = [&first, &second].map(|image| Exact::new(image));
        let exactly = one.averages(&other);
        match comparison.verdict {
            Verdict::First => assert_eq!(exactly, Ordering::Greater),
            Verdict::Second => assert_eq!(exactly, Ordering::Less),
            Verdict::Undecided => left_open += u64::from(exactly != Ordering::Equal),
        }
        verdicts[comparison.verdict as usize] += 1;
        if close {
            near[comparison.verdict as usize] += 1;
        }
        decided += each_pattern_is_exactly_higher(&first, &second, &one, &other);
    }
    println!("undecided, first, second: {verdicts:?}, of close pairs {near:?}");
    println!("{left_open} pairs were left open that differ exactly; {decided} patterns decided");
    assert!(near.iter().all(|times| *times >= 100) && left_open >= 100 && decided >= 1_000);
}

/// Each pattern that counts for a module has the greater exact sum there. The library's counts are those of
/// these verdicts. Answers how many of them decide.
fn each_pattern_is_exactly_higher(
    first: &[u8],
    second: &[u8],
    one: &Exact,
    other: &Exact,
) -> usize {
    let verdicts = standing::pattern_verdicts(&Model::DOCUMENT, first, second);
    let alike = one.netlist.inputs == other.netlist.inputs;
    assert_eq!(verdicts.len(), if alike { one.sums.len() } else { 0 });
    for (pattern, verdict) in verdicts.iter().enumerate() {
        match verdict {
            Verdict::First => assert_eq!(one.under(pattern, other), Ordering::Greater),
            Verdict::Second => assert_eq!(one.under(pattern, other), Ordering::Less),
            Verdict::Undecided => (),
        }
    }
    verdicts.iter().filter(|verdict| **verdict != Verdict::Undecided).count()
}

/// A draft with one gate's chance at a whole number of units, and with that chance a few units away.
fn close_pair(random: &mut Random, draft: &Draft) -> Option<(Draft, Draft)> {
    if draft.gates.is_empty() {
        return None;
    }
    let gate = random.index(draft.gates.len());
    let most = if random.once_in(2) { 200 } else { MAX_FLIP - 40 };
    let units = 20 + random.below(most);
    let step = if random.once_in(2) { 1 } else { random.between(2, 19) };
    let to = if random.once_in(2) { units + step } else { units - step };
    let with = |units: u64| {
        let mut other = draft.clone();
        let (kind, field) = chance(units as f64 / U as f64);
        (other.gates[gate].kind, other.gates[gate].field) = (kind, field);
        other
    };
    Some((with(units), with(to)))
}
