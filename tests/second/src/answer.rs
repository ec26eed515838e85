//! What a call answers, and the nine calls on an area as one trait, so that the model and the
//! library can be driven by the same code.

use crate::counts::Method;

/// The answer of any call.
#[derive(Clone, Copy, Debug, PartialEq, Eq)]
pub enum Answer<T> {
    Done(T),
    Refused { number: u8, place: u32 },
}

impl<T> Answer<T> {
    /// The refusal's number, 0 when the work was done. Used for counting.
    pub fn number(&self) -> usize {
        match self {
            Answer::Done(_) => 0,
            Answer::Refused { number, .. } => usize::from(*number),
        }
    }

    /// The result, for callers that know that the call cannot be refused.
    pub fn done(self) -> T {
        match self {
            Answer::Done(result) => result,
            Answer::Refused { number, place } => panic!("refused {number} {place}"),
        }
    }
}

/// What reading the netlist gives. The f64 is kept as its bits, so that equal means identical.
#[derive(Clone, Copy, Debug, PartialEq, Eq)]
pub struct NetlistReading {
    pub pattern: u32,
    pub units: u32,
    pub reliability_bits: u64,
}

/// What reading one gate gives.
#[derive(Clone, Copy, Debug, PartialEq, Eq)]
pub struct GateReading {
    pub right: u32,
    pub failure: u32,
}

/// The nine calls on an area; both methods of counting stand under one name.
pub trait Bench {
    fn open(&self, area: &mut [u32], image: &[u8]) -> Answer<u32>;
    fn toggle_input(&self, area: &mut [u32], input: u32) -> Answer<()>;
    fn set_flip(&self, area: &mut [u32], gate: u32, kind: u8, field: [u8; 8]) -> Answer<()>;
    fn read_netlist(&self, area: &[u32]) -> Answer<NetlistReading>;
    fn read_gate(&self, area: &[u32], gate: u32) -> Answer<GateReading>;
    fn average(&self, area: &mut [u32], weights: &[u32]) -> Answer<u32>;
    fn counts(
        &self,
        method: Method,
        area: &[u32],
        patterns: &[u32],
        counts: &mut [u32],
    ) -> Answer<()>;
    fn write_image(&self, area: &[u32], image: &mut [u8]) -> Answer<u32>;
}
