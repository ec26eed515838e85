//! The reliability of a netlist whose gates may be shared, as the request says it: for each live gate
//! that is shared, both suppositions are made, and what all sets of them come to is added.

use crate::answer::Answer;
use crate::model::{answered, table_answer, Gate, Model, Netlist, Refusal, U};

/// More are refused with 23.
pub const MOST_SHARED: usize = 8;

/// How the rule may be bent, to show that the tests notice.
#[derive(Clone, Copy, Default)]
pub struct Bent {
    /// Readers see a failure of 0 where a gate is supposed wrong, too.
    pub seen_right: bool,
    /// A shared gate is refused with 9.
    pub nine_given: bool,
    /// Eight shared gates are refused.
    pub eight_refused: bool,
    /// A pattern with bits past the inputs counts as 0.
    pub high_bits: bool,
    /// A supposed gate's chance to be as supposed is left out.
    pub unchecked: bool,
    /// A sum above U stays.
    pub uncut: bool,
}

/// The values that no flip disturbs.
fn right_values(netlist: &Netlist, pattern: u32) -> Vec<u32> {
    let mut right: Vec<u32> = (0..netlist.inputs).map(|input| pattern >> input & 1).collect();
    for gate in &netlist.gates {
        right.push(table_answer(gate.table, row(gate, &right)));
    }
    right
}

/// Where in its table a gate finds its answer to these values.
fn row(gate: &Gate, values: &[u32]) -> u32 {
    gate.used_pins().iter().rev().fold(0, |row, pin| 2 * row + values[*pin as usize])
}

/// A gate's failure, from what its pins read and see.
fn worked_out(model: &Model, gate: &Gate, right: &[u32], seen: &[u64]) -> u64 {
    let right_row = row(gate, right);
    let answer = table_answer(gate.table, right_row);
    let mut values: Vec<u64> = (0..1u32 << gate.pin_count)
        .map(|errors| if table_answer(gate.table, right_row ^ errors) == answer { 0 } else { U })
        .collect();
    for pin in gate.used_pins() {
        let f = seen[*pin as usize];
        values = values.chunks(2).map(|p| model.over_u(p[0] * (U - f) + p[1] * f)).collect();
    }
    let (m, p) = (values[0], u64::from(model.units(gate.chance)));
    model.over_u(m * (U - p) + (U - m) * p)
}

/// The figure of one set: bit i of `wrong` says that the i-th shared gate is supposed wrong.
fn set_figure(
    model: &Model,
    netlist: &Netlist,
    right: &[u32],
    shared: &[u32],
    wrong: u32,
    bent: Bent,
) -> u64 {
    let mut seen = vec![0; netlist.inputs as usize];
    let mut product = U;
    for (number, gate) in netlist.gates.iter().enumerate() {
        let own = worked_out(model, gate, right, &seen);
        let Some(place) = shared.iter().position(|gate| *gate == number as u32) else {
            seen.push(own);
            continue;
        };
        let supposed_wrong = wrong >> place & 1 == 1;
        if !bent.unchecked {
            product = model.over_u(product * if supposed_wrong { own } else { U - own });
        }
        seen.push(if supposed_wrong && !bent.seen_right { U } else { 0 });
    }
    for output in &netlist.outputs {
        product = model.over_u(product * (U - seen[*output as usize]));
    }
    product
}

/// All sets added, before a sum above U becomes U.
pub fn sum_of_sets(model: &Model, netlist: &Netlist, pattern: u32, bent: Bent) -> u64 {
    let shared = model.shared_gates(netlist);
    let right = right_values(netlist, pattern);
    let sets = 0..1u32 << shared.len();
    sets.map(|wrong| set_figure(model, netlist, &right, &shared, wrong, bent)).sum()
}

pub fn shared_reliability(model: &Model, image: &[u8], pattern: u32, bent: Bent) -> Answer<u32> {
    answered(reliability(model, image, pattern, bent))
}

fn reliability(model: &Model, image: &[u8], pattern: u32, bent: Bent) -> Result<u32, Refusal> {
    let netlist =
        if bent.nine_given { model.netlist(image) } else { model.netlist_with_sharing(image) }?;
    let shared = model.shared_gates(&netlist).len();
    if shared > MOST_SHARED || (bent.eight_refused && shared == MOST_SHARED) {
        return Err(Refusal { number: 23, place: 0 });
    }
    let past = bent.high_bits && pattern >> netlist.inputs != 0;
    let sum = sum_of_sets(model, &netlist, if past { 0 } else { pattern }, bent);
    Ok(if bent.uncut { sum } else { sum.min(U) } as u32)
}
