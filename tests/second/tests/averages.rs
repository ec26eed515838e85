//! Averages over many patterns on the library and on the model, which walks them one by one: netlists
//! of up to twelve inputs, of which gates see few or many, and weights of which whole runs are zero.

use second::arguments;
use second::compare::{Call, Pair, Tally};
use second::images::{good_draft, Size};
use second::model::Counts;
use second::random::{seed, Random};

const SIZE: Size = Size { inputs: 12, gates: 24, outputs: 6 };
const AVERAGES: u64 = 20_000;
const LEAST_INPUTS: u16 = 6;

fn counts(area: &[u32]) -> Counts {
    Counts { inputs: area[0], gates: area[1], outputs: area[2] }
}

#[test]
fn averages_over_many_patterns() {
    let mut random = Random::new(seed() ^ 16);
    let mut tally = Tally::default();
    let mut averages = 0;
    while averages < AVERAGES {
        let draft = good_draft(&mut random, SIZE);
        if draft.inputs < LEAST_INPUTS {
            continue;
        }
        let words = draft.words();
        let mut pair = Pair::new((0..words).map(|_| random.word()).collect());
        pair.call(words, &Call::Open(draft.bytes()), &mut tally);
        for _ in 0..3 {
            // The area is left with another pattern and other flips than those of the walk.
            let counts = counts(pair.area());
            let call = arguments::call(&mut random, counts, SIZE, false);
            pair.call(words, &call, &mut tally);
            let weights = arguments::weights(&mut random, counts.inputs);
            pair.call(words, &Call::Average(weights), &mut tally);
            averages += 1;
        }
    }
    tally.print();
    tally.assert_answers(&[0, 12], 1_000);
}
