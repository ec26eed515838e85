//! The sheet that the program `sheet` prints, made with any bench.

use crate::answer::{Answer, Bench};
use crate::model::{Counts, MAX_GATES, MAX_INPUTS, MAX_OUTPUTS};
use std::fmt::Write;

/// The lines for one image, each with its line feed.
pub fn sheet(bench: &dyn Bench, image: &[u8]) -> String {
    let largest = Counts { inputs: MAX_INPUTS, gates: MAX_GATES, outputs: MAX_OUTPUTS };
    let mut area = vec![0; largest.words()];
    let live = match bench.open(&mut area, image) {
        Answer::Done(live) => live,
        Answer::Refused { number, place } => return format!("refused {number} {place}\n"),
    };
    let (inputs, gates, outputs) = (area[0], area[1], area[2]);
    let mut lines = format!("inputs {inputs} gates {gates} outputs {outputs} live {live}\n");
    for pattern in 0..1u32 << inputs {
        turn_to(bench, &mut area, pattern);
        let units = bench.read_netlist(&area).done().units;
        writeln!(lines, "{} {units}", pattern_word(inputs, pattern)).expect("a string takes all");
    }
    let average = bench.average(&mut area, &vec![1; 1 << inputs]).done();
    writeln!(lines, "average {average}").expect("a string takes all");
    lines
}

/// Turns over the inputs in which the area's pattern differs from `pattern`.
fn turn_to(bench: &dyn Bench, area: &mut [u32], pattern: u32) {
    let now = bench.read_netlist(area).done().pattern;
    for input in 0..MAX_INPUTS {
        if ((now ^ pattern) >> input) & 1 == 1 {
            bench.toggle_input(area, input).done();
        }
    }
}

/// Input 0 stands leftmost.
fn pattern_word(inputs: u32, pattern: u32) -> String {
    if inputs == 0 {
        return "-".to_string();
    }
    (0..inputs).map(|input| if (pattern >> input) & 1 == 1 { '1' } else { '0' }).collect()
}
