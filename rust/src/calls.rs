//! The C functions of include/bench.h, each behind a safe function.

use crate::{Flip, ImageRefusal, Refusal, Which};

mod c {
    /// `bench_comparison` of include/bench.h.
    #[repr(C)]
    #[derive(Default)]
    pub struct Comparison {
        pub verdict: u32,
        pub first: super::Module,
        pub second: super::Module,
        pub first_higher: u32,
        pub second_higher: u32,
        pub neither_higher: u32,
    }

    extern "C" {
        pub fn bench_open(
            area: *mut u32,
            area_len: usize,
            image: *const u8,
            image_len: usize,
            live: *mut u32,
        ) -> u64;
        pub fn bench_toggle_input(area: *mut u32, area_len: usize, input: u32) -> u64;
        pub fn bench_set_flip(
            area: *mut u32,
            area_len: usize,
            gate: u32,
            kind: u8,
            field: u64,
        ) -> u64;
        pub fn bench_read_netlist(
            area: *const u32,
            area_len: usize,
            pattern: *mut u32,
            units: *mut u32,
            reliability: *mut f64,
        ) -> u64;
        pub fn bench_read_gate(
            area: *const u32,
            area_len: usize,
            gate: u32,
            right: *mut u32,
            failure: *mut u32,
        ) -> u64;
        pub fn bench_average(
            area: *mut u32,
            area_len: usize,
            weights: *const u32,
            weights_len: usize,
            units: *mut u32,
        ) -> u64;
        pub fn bench_counts_by_flip(
            area: *const u32,
            area_len: usize,
            patterns: *const u32,
            patterns_len: usize,
            counts: *mut u32,
            counts_len: usize,
        ) -> u64;
        pub fn bench_counts_by_mask(
            area: *const u32,
            area_len: usize,
            patterns: *const u32,
            patterns_len: usize,
            counts: *mut u32,
            counts_len: usize,
        ) -> u64;
        pub fn bench_write_image(
            area: *const u32,
            area_len: usize,
            image: *mut u8,
            image_len: usize,
            bytes: *mut u32,
        ) -> u64;
        pub fn bench_read_blif(
            text: *const u8,
            text_len: usize,
            image: *mut u8,
            image_len: usize,
            bytes: *mut u32,
        ) -> u64;
        pub fn bench_error_of_image(
            image: *const u8,
            image_len: usize,
            halves: *mut u32,
            live: *mut u32,
        ) -> u64;
        pub fn bench_shared_reliability(
            image: *const u8,
            image_len: usize,
            pattern: u32,
            units: *mut u32,
        ) -> u64;
        pub fn bench_compare(
            first: *const u8,
            first_len: usize,
            second: *const u8,
            second_len: usize,
            result: *mut Comparison,
        ) -> u64;
    }
}

/// What a netlist reads as.
#[derive(Clone, Copy, Debug, PartialEq)]
pub struct NetlistReading {
    /// Bit i is input i.
    pub pattern: u32,
    /// The chance that every output is right, in units.
    pub units: u32,
    /// The same: exactly `units` / 2^30.
    pub reliability: f64,
    /// The flip units of the live gates, added up.
    pub flip_sum: u64,
}

/// What one gate reads as.
#[derive(Clone, Copy, Debug, PartialEq, Eq)]
pub struct GateReading {
    /// Its value under the pattern where no gate flips.
    pub right: bool,
    /// The chance that it has the other value, in units.
    pub failure: u32,
}

/// A returned number as an answer: 0 for done, else the refusal's number above 32 bits of place.
fn answer<T>(returned: u64, result: T) -> Result<T, Refusal> {
    match returned {
        0 => Ok(result),
        _ => Err(Refusal { number: (returned >> 32) as u8, place: returned as u32 }),
    }
}

/// Opens an image in the area, with pattern 0, and tells how many gates are live. The area needs
/// [`words`](crate::words) of the image's counts; [`MAX_WORDS`](crate::MAX_WORDS) always do.
///
/// Refused in this order: 1 to 4; gate by gate 5, 6, 7, 22; output by output 8; 9; 13.
pub fn open(area: &mut [u32], image: &[u8]) -> Result<u32, Refusal> {
    let mut live = 0;
    // SAFETY: both slices go with their own lengths, and `live` outlives the call.
    let returned = unsafe {
        c::bench_open(area.as_mut_ptr(), area.len(), image.as_ptr(), image.len(), &mut live)
    };
    answer(returned, live)
}

/// Toggles one input, and works out what depends on it.
///
/// Refused in this order: 13, 14, 10.
pub fn toggle_input(area: &mut [u32], input: u32) -> Result<(), Refusal> {
    // SAFETY: the slice goes with its own length.
    let returned = unsafe { c::bench_toggle_input(area.as_mut_ptr(), area.len(), input) };
    answer(returned, ())
}

/// Sets how one gate flips, and works out that gate and what depends on it.
///
/// Refused in this order: 13, 14, 10, 11, 22.
pub fn set_flip(area: &mut [u32], gate: u32, flip: Flip) -> Result<(), Refusal> {
    let field = u64::from_le_bytes(flip.field());
    // SAFETY: the slice goes with its own length.
    let returned =
        unsafe { c::bench_set_flip(area.as_mut_ptr(), area.len(), gate, flip.kind(), field) };
    answer(returned, ())
}

/// Reads the pattern, the reliability and the raw flip sum. An area whose sum is not that of its gates
/// is refused with 14, so the sum read is true.
///
/// Refused in this order: 13, 14.
pub fn read_netlist(area: &[u32]) -> Result<NetlistReading, Refusal> {
    let flip_sum = match area {
        [_, _, _, _, _, low, high, ..] => u64::from(*low) | u64::from(*high) << 32,
        _ => 0, // refused below
    };
    let mut read = NetlistReading { pattern: 0, units: 0, reliability: 0.0, flip_sum };
    // SAFETY: the slice goes with its own length, and the three results outlive the call.
    let returned = unsafe {
        c::bench_read_netlist(
            area.as_ptr(),
            area.len(),
            &mut read.pattern,
            &mut read.units,
            &mut read.reliability,
        )
    };
    answer(returned, read)
}

/// Reads one gate.
///
/// Refused in this order: 13, 14, 10.
pub fn read_gate(area: &[u32], gate: u32) -> Result<GateReading, Refusal> {
    let (mut right, mut failure) = (0, 0);
    // SAFETY: the slice goes with its own length, and both results outlive the call.
    let returned =
        unsafe { c::bench_read_gate(area.as_ptr(), area.len(), gate, &mut right, &mut failure) };
    answer(returned, GateReading { right: right == 1, failure })
}

/// The weighted average of the reliability over all patterns, in units, a half to the even unit;
/// `weights[q]` is the weight of pattern q. The pattern stays as it is.
///
/// Refused in this order: 13, 14, 12.
pub fn average(area: &mut [u32], weights: &[u32]) -> Result<u32, Refusal> {
    let mut units = 0;
    // SAFETY: both slices go with their own lengths, and `units` outlives the call.
    let returned = unsafe {
        c::bench_average(area.as_mut_ptr(), area.len(), weights.as_ptr(), weights.len(), &mut units)
    };
    answer(returned, units)
}

/// Counts for every gate the listed patterns in which an output goes wrong if this gate flips and no
/// other: `counts[j]` for gate j. Counts past those of the gates stay as they are.
///
/// The list has 1 to [`MAX_LISTED`](crate::MAX_LISTED) patterns, and one that is listed twice counts
/// twice. The area's own pattern has no part in it. Every flip is followed to the outputs, also where
/// gates are shared; [`counts_by_mask`] takes far less time.
///
/// Refused in this order: 13, 14, 15, 16, 17.
pub fn counts_by_flip(area: &[u32], patterns: &[u32], counts: &mut [u32]) -> Result<(), Refusal> {
    // SAFETY: the three slices go with their own lengths.
    let returned = unsafe {
        c::bench_counts_by_flip(
            area.as_ptr(),
            area.len(),
            patterns.as_ptr(),
            patterns.len(),
            counts.as_mut_ptr(),
            counts.len(),
        )
    };
    answer(returned, ())
}

/// The same as [`counts_by_flip`] by masks that go back from the outputs. A gate's mask is 1 where an
/// output reads it, and where a gate with mask 1 reads it by a pin whose inversion, all else as it is,
/// inverts the answer.
///
/// On every netlist that [`open`] lets in the counts are those by flip. In an area that came about in
/// another way, with shared gates, they may be more or fewer.
///
/// Refused in this order: 13, 14, 15, 16, 17.
pub fn counts_by_mask(area: &[u32], patterns: &[u32], counts: &mut [u32]) -> Result<(), Refusal> {
    // SAFETY: the three slices go with their own lengths.
    let returned = unsafe {
        c::bench_counts_by_mask(
            area.as_ptr(),
            area.len(),
            patterns.as_ptr(),
            patterns.len(),
            counts.as_mut_ptr(),
            counts.len(),
        )
    };
    answer(returned, ())
}

/// Writes the image of the netlist that the area holds over the first bytes of `image`, and returns its
/// length, [`written`](crate::written) of the counts; the bytes past it stay as they are. The heading is
/// empty, and a flip of 0 units is [`Flip::Never`], any other the chance that is exactly units / 2^30.
/// Pattern, reliability and failures are not written.
///
/// So the bytes of two areas are the same just where their counts, pin counts, tables, pins, flip units
/// and outputs are, whatever images they came from. From an area that [`open`] filled, [`open`]
/// accepts the image in any area with room, which then holds what the first one holds once every input
/// that is 1 is toggled; written from there the bytes are the same again.
///
/// Refused in this order: 13, 14, then 21 for a slice shorter than the image.
pub fn write_image(area: &[u32], image: &mut [u8]) -> Result<u32, Refusal> {
    let mut bytes = 0;
    // SAFETY: both slices go with their own lengths, and `bytes` outlives the call.
    let returned = unsafe {
        c::bench_write_image(area.as_ptr(), area.len(), image.as_mut_ptr(), image.len(), &mut bytes)
    };
    answer(returned, bytes)
}

/// Reads a text in the Berkeley Logic Interchange Format, of at most [`MAX_TEXT`](crate::MAX_TEXT)
/// bytes, and writes its image over the first bytes of `image`: an empty heading, no flips. It returns
/// the image's length, at most [`MAX_BLIF_IMAGE`](crate::MAX_BLIF_IMAGE); the bytes past it stay as they
/// are. It takes up to 96 KB of stack.
///
/// One model is read: `.model`, `.inputs`, `.outputs`, `.names` of up to four sources with their cover
/// lines, `.end`, with comments and continued lines. Gates may be listed before what they read: the
/// image always goes on with the first in the text that reads only what is there already. The image
/// passes refusals 1 to 8 and 22; [`open`] may still refuse it with 9, where gates are shared.
///
/// Refused in this order; the place is a line, counted from 1, and a continued line has the number of
/// its first:
/// - 18 for a longer text (place 0), else at the first line outside this subset, or at 1 + the number of
///   line feeds where `.end` is missing;
/// - 19 at the lowest line with one input, output or gate too many, or at `.end` without an output; then
///   at the lowest line that defines a name again; then at the lowest that uses an undefined one; then
///   at the lowest that heads a gate which depends on itself;
/// - 20 for a slice shorter than the image (place 0).
pub fn read_blif(text: &[u8], image: &mut [u8]) -> Result<u32, Refusal> {
    let mut bytes = 0;
    // SAFETY: both slices go with their own lengths, and `bytes` outlives the call.
    let returned = unsafe {
        c::bench_read_blif(text.as_ptr(), text.len(), image.as_mut_ptr(), image.len(), &mut bytes)
    };
    answer(returned, bytes)
}

/// How far the figures of a module can be from the exact ones.
#[derive(Clone, Copy, Debug, PartialEq, Eq)]
pub struct ErrorBound {
    /// In half units, under every pattern; for an average one half unit more.
    pub halves: u32,
    /// Its live gates.
    pub live: u32,
}

/// The verdict on two modules.
#[derive(Clone, Copy, Debug, PartialEq, Eq)]
pub enum Verdict {
    /// The exact average of the first is greater.
    First,
    /// The exact average of the second is greater.
    Second,
    /// The errors leave it open.
    Undecided,
}

/// Patterns by who is surely the more reliable under them.
#[derive(Clone, Copy, Debug, PartialEq, Eq)]
pub struct PatternCounts {
    pub first: u32,
    pub second: u32,
    pub neither: u32,
}

/// One of two modules that are compared.
#[repr(C)]
#[derive(Clone, Copy, Debug, Default, PartialEq, Eq)]
pub struct Module {
    pub inputs: u32,
    pub gates: u32,
    pub outputs: u32,
    pub live: u32,
    /// Its reliability, averaged over all patterns, in units.
    pub average: u32,
    /// How far its figures can be from the exact ones, in half units.
    pub error: u32,
}

/// What two modules come to beside each other.
#[derive(Clone, Copy, Debug, PartialEq, Eq)]
pub struct Comparison {
    pub verdict: Verdict,
    pub first: Module,
    pub second: Module,
    /// Where both have the same number of inputs.
    pub patterns: Option<PatternCounts>,
}

/// The error of an image's figures as it is opened, by its flip kinds. It takes no area.
///
/// Refused: 1 to 9 and 22 as [`open`] does.
pub fn error_of_image(image: &[u8]) -> Result<ErrorBound, Refusal> {
    let (mut halves, mut live) = (0, 0);
    // SAFETY: the slice goes with its own length, and both results outlive the call.
    let returned =
        unsafe { c::bench_error_of_image(image.as_ptr(), image.len(), &mut halves, &mut live) };
    answer(returned, ErrorBound { halves, live })
}

/// The reliability, in units, of an image in which gates may be shared, under one pattern, of which
/// only the low bits count, one for each input. Each shared gate is supposed right or wrong, and the
/// figures of all sets of suppositions are added. It takes no area.
///
/// Refused: 1 to 8 and 22 as [`open`] does, then 23 where more than eight live gates are shared.
pub fn shared_reliability(image: &[u8], pattern: u32) -> Result<u32, Refusal> {
    let mut units = 0;
    // SAFETY: the slice goes with its own length, and the result outlives the call.
    let returned =
        unsafe { c::bench_shared_reliability(image.as_ptr(), image.len(), pattern, &mut units) };
    answer(returned, units)
}

/// Which of two modules stands higher, on the average of all patterns: decided where twice the
/// averages differ by more than both errors and 2, and then the exact averages differ in the same
/// direction. It takes no area, and up to 228 KB of stack.
///
/// Refused: 1 to 9 and 22 of the first image as [`open`] does, then of the second.
pub fn compare(first: &[u8], second: &[u8]) -> Result<Comparison, ImageRefusal> {
    let mut to = c::Comparison::default();
    // SAFETY: both slices go with their own lengths, and the result outlives the call.
    let returned = unsafe {
        c::bench_compare(first.as_ptr(), first.len(), second.as_ptr(), second.len(), &mut to)
    };
    let which = if returned >> 40 == 1 { Which::First } else { Which::Second };
    answer(returned, ()).map_err(|refusal| ImageRefusal { image: which, refusal })?;
    let counts = PatternCounts {
        first: to.first_higher,
        second: to.second_higher,
        neither: to.neither_higher,
    };
    Ok(Comparison {
        verdict: match to.verdict {
            1 => Verdict::First,
            2 => Verdict::Second,
            _ => Verdict::Undecided,
        },
        first: to.first,
        second: to.second,
        patterns: (to.first.inputs == to.second.inputs).then_some(counts),
    })
}
