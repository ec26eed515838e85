//! The BLIF examples at the repository root: each is read, its image opens, and its outputs are what
//! the example says that it works out, under every pattern.

use second::compare::compare_blif;
use second::ffi;
use std::path::PathBuf;

/// The right values of the outputs under each pattern in turn, output 0 as bit 0.
fn outputs(name: &str) -> Vec<u32> {
    let path = PathBuf::from(env!("CARGO_MANIFEST_DIR")).join("../../examples").join(name);
    let text = std::fs::read(path).expect("the example");
    let (answer, image) = compare_blif(&text, &[0; 21_000]);
    let mut area = vec![0; 8264];
    let live = ffi::open(&mut area, &image[..answer.done() as usize]);
    assert_eq!(live.number(), 0, "{name}: {live:?}");
    let [inputs, gates, count] = [area[0], area[1], area[2]];
    let sources = &area.clone()[8 + 8 * gates as usize..][..count as usize];
    (0..1 << inputs)
        .map(|pattern: u32| {
            let turned = area[3] ^ pattern;
            for input in (0..inputs).filter(|input| turned >> input & 1 == 1) {
                ffi::toggle_input(&mut area, input).done();
            }
            let right = |source: u32| match source.checked_sub(inputs) {
                None => pattern >> source & 1,
                Some(gate) => ffi::read_gate(&area, gate).done().right,
            };
            (0..).zip(sources).map(|(at, source)| right(*source) << at).sum()
        })
        .collect()
}

#[test]
fn the_adder_adds() {
    let sums = outputs("adder.blif");
    assert_eq!(sums.len(), 256);
    for (pattern, sum) in (0..).zip(sums) {
        assert_eq!(sum, pattern % 16 + pattern / 16, "{pattern:08b}");
    }
}

#[test]
fn the_parity_tree_tells_an_odd_number() {
    for (pattern, bad) in (0u32..).zip(outputs("parity.blif")) {
        assert_eq!(bad, pattern.count_ones() % 2, "{pattern:09b}");
    }
}

#[test]
fn the_decoder_decodes() {
    for (pattern, lines) in (0u32..).zip(outputs("decoder.blif")) {
        assert_eq!(lines, (pattern % 2) << (pattern / 2), "{pattern:04b}");
    }
}

#[test]
fn the_majority_of_three() {
    for (pattern, most) in (0u32..).zip(outputs("majority.blif")) {
        assert_eq!(most, u32::from(pattern.count_ones() > 1), "{pattern:03b}");
    }
}
