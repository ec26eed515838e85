//! The proved library's C functions, each behind a safe function with the enum as its answer.

use crate::answer::{Answer, Bench, GateReading, NetlistReading};
use crate::counts::Method;
use crate::standing::{Comparison, Outcome};

mod c {
    extern "C" {
        pub fn bench_open(
            area: *mut u32,
            area_len: usize,
            image: *const u8,
            image_len: usize,
            live: *mut u32,
        ) -> u64;
        pub fn bench_toggle_input(area: *mut u32, area_len: usize, input: u32) -> u64;
        pub fn bench_set_flip(
            area: *mut u32,
            area_len: usize,
            gate: u32,
            kind: u8,
            field: u64,
        ) -> u64;
        pub fn bench_read_netlist(
            area: *const u32,
            area_len: usize,
            pattern: *mut u32,
            units: *mut u32,
            reliability: *mut f64,
        ) -> u64;
        pub fn bench_read_gate(
            area: *const u32,
            area_len: usize,
            gate: u32,
            right: *mut u32,
            failure: *mut u32,
        ) -> u64;
        pub fn bench_average(
            area: *mut u32,
            area_len: usize,
            weights: *const u32,
            weights_len: usize,
            units: *mut u32,
        ) -> u64;
        pub fn bench_counts_by_flip(
            area: *const u32,
            area_len: usize,
            patterns: *const u32,
            patterns_len: usize,
            counts: *mut u32,
            counts_len: usize,
        ) -> u64;
        pub fn bench_counts_by_mask(
            area: *const u32,
            area_len: usize,
            patterns: *const u32,
            patterns_len: usize,
            counts: *mut u32,
            counts_len: usize,
        ) -> u64;
        pub fn bench_write_image(
            area: *const u32,
            area_len: usize,
            image: *mut u8,
            image_len: usize,
            bytes: *mut u32,
        ) -> u64;
        pub fn bench_read_blif(
            text: *const u8,
            text_len: usize,
            image: *mut u8,
            image_len: usize,
            bytes: *mut u32,
        ) -> u64;
        pub fn bench_error_of_image(
            image: *const u8,
            image_len: usize,
            halves: *mut u32,
            live: *mut u32,
        ) -> u64;
        pub fn bench_shared_reliability(
            image: *const u8,
            image_len: usize,
            pattern: u32,
            units: *mut u32,
        ) -> u64;
        pub fn bench_compare(
            first: *const u8,
            first_len: usize,
            second: *const u8,
            second_len: usize,
            result: *mut [u32; 16],
        ) -> u64;
    }
}

/// What the out-parameters hold before a call. No call can give these as a result (live gates,
/// patterns, units, failures and right values are all smaller; no reliability has these bits), so a
/// result that was never written cannot pass for one, nor a write on refusal go unseen.
const UNTOUCHED: u32 = 0xA5C3_96E1;
const UNTOUCHED_BITS: u64 = 0xC0DE_A5C3_96E1_0F1E;

/// Turns the returned number into the answer. `untouched` says whether every out-parameter still
/// holds what it held before the call.
fn answer<T>(returned: u64, untouched: bool, result: T) -> Answer<T> {
    if returned == 0 {
        return Answer::Done(result);
    }
    let number = returned >> 32;
    assert!((1..=255).contains(&number), "the library returned {returned:#x}");
    assert!(untouched, "refusal {number} wrote to an out-parameter");
    Answer::Refused { number: number as u8, place: returned as u32 }
}

pub fn open(area: &mut [u32], image: &[u8]) -> Answer<u32> {
    let mut live = UNTOUCHED;
    // SAFETY: both slices are passed with their own lengths, and `live` outlives the call.
    let returned = unsafe {
        c::bench_open(area.as_mut_ptr(), area.len(), image.as_ptr(), image.len(), &mut live)
    };
    answer(returned, live == UNTOUCHED, live)
}

pub fn toggle_input(area: &mut [u32], input: u32) -> Answer<()> {
    // SAFETY: the slice is passed with its own length.
    let returned = unsafe { c::bench_toggle_input(area.as_mut_ptr(), area.len(), input) };
    answer(returned, true, ())
}

pub fn set_flip(area: &mut [u32], gate: u32, kind: u8, field: [u8; 8]) -> Answer<()> {
    let number = u64::from_le_bytes(field);
    // SAFETY: the slice is passed with its own length.
    let returned = unsafe { c::bench_set_flip(area.as_mut_ptr(), area.len(), gate, kind, number) };
    answer(returned, true, ())
}

pub fn read_netlist(area: &[u32]) -> Answer<NetlistReading> {
    let mut pattern = UNTOUCHED;
    let mut units = UNTOUCHED;
    let mut reliability = f64::from_bits(UNTOUCHED_BITS);
    // SAFETY: the slice is passed with its own length, and the three results outlive the call.
    let returned = unsafe {
        c::bench_read_netlist(area.as_ptr(), area.len(), &mut pattern, &mut units, &mut reliability)
    };
    let reliability_bits = reliability.to_bits();
    let untouched =
        pattern == UNTOUCHED && units == UNTOUCHED && reliability_bits == UNTOUCHED_BITS;
    answer(returned, untouched, NetlistReading { pattern, units, reliability_bits })
}

pub fn read_gate(area: &[u32], gate: u32) -> Answer<GateReading> {
    let mut right = UNTOUCHED;
    let mut failure = UNTOUCHED;
    // SAFETY: the slice is passed with its own length, and both results outlive the call.
    let returned =
        unsafe { c::bench_read_gate(area.as_ptr(), area.len(), gate, &mut right, &mut failure) };
    let untouched = right == UNTOUCHED && failure == UNTOUCHED;
    answer(returned, untouched, GateReading { right, failure })
}

pub fn average(area: &mut [u32], weights: &[u32]) -> Answer<u32> {
    let mut units = UNTOUCHED;
    // SAFETY: both slices are passed with their own lengths, and `units` outlives the call.
    let returned = unsafe {
        c::bench_average(area.as_mut_ptr(), area.len(), weights.as_ptr(), weights.len(), &mut units)
    };
    answer(returned, units == UNTOUCHED, units)
}

pub fn counts(method: Method, area: &[u32], patterns: &[u32], counts: &mut [u32]) -> Answer<()> {
    let before = counts.to_vec();
    let function = match method {
        Method::Flip => c::bench_counts_by_flip,
        Method::Mask => c::bench_counts_by_mask,
    };
    // SAFETY: the three slices are passed with their own lengths.
    let returned = unsafe {
        function(
            area.as_ptr(),
            area.len(),
            patterns.as_ptr(),
            patterns.len(),
            counts.as_mut_ptr(),
            counts.len(),
        )
    };
    answer(returned, before == counts, ())
}

pub fn write_image(area: &[u32], slice: &mut [u8]) -> Answer<u32> {
    let mut bytes = UNTOUCHED;
    // SAFETY: both slices are passed with their own lengths, and `bytes` outlives the call.
    let returned = unsafe {
        c::bench_write_image(area.as_ptr(), area.len(), slice.as_mut_ptr(), slice.len(), &mut bytes)
    };
    answer(returned, bytes == UNTOUCHED, bytes)
}

pub fn read_blif(text: &[u8], slice: &mut [u8]) -> Answer<u32> {
    let mut bytes = UNTOUCHED;
    // SAFETY: both slices are passed with their own lengths, and `bytes` outlives the call.
    let returned = unsafe {
        c::bench_read_blif(text.as_ptr(), text.len(), slice.as_mut_ptr(), slice.len(), &mut bytes)
    };
    answer(returned, bytes == UNTOUCHED, bytes)
}

/// The error of an image in half units, and its live gates.
pub fn error_of_image(image: &[u8]) -> Answer<(u32, u32)> {
    let (mut halves, mut live) = (UNTOUCHED, UNTOUCHED);
    // SAFETY: the slice is passed with its own length, and both results outlive the call.
    let returned =
        unsafe { c::bench_error_of_image(image.as_ptr(), image.len(), &mut halves, &mut live) };
    answer(returned, (halves, live) == (UNTOUCHED, UNTOUCHED), (halves, live))
}

pub fn shared_reliability(image: &[u8], pattern: u32) -> Answer<u32> {
    let mut units = UNTOUCHED;
    // SAFETY: the slice is passed with its own length, and `units` outlives the call.
    let returned =
        unsafe { c::bench_shared_reliability(image.as_ptr(), image.len(), pattern, &mut units) };
    answer(returned, units == UNTOUCHED, units)
}

pub fn compare(first: &[u8], second: &[u8]) -> Outcome {
    let mut result = [UNTOUCHED; 16];
    // SAFETY: both slices are passed with their own lengths, and the result outlives the call.
    let returned = unsafe {
        c::bench_compare(first.as_ptr(), first.len(), second.as_ptr(), second.len(), &mut result)
    };
    if returned != 0 {
        assert_eq!(result, [UNTOUCHED; 16], "a refused comparison wrote to its result");
        let image = (returned >> 40) as u8;
        assert!(image == 1 || image == 2, "the library returned {returned:#x}");
        return Outcome::Refused { image, number: (returned >> 32) as u8, place: returned as u32 };
    }
    Outcome::Done(Comparison::from_words(result))
}

/// The library as a bench.
pub struct Library;

impl Bench for Library {
    fn open(&self, area: &mut [u32], image: &[u8]) -> Answer<u32> {
        open(area, image)
    }
    fn toggle_input(&self, area: &mut [u32], input: u32) -> Answer<()> {
        toggle_input(area, input)
    }
    fn set_flip(&self, area: &mut [u32], gate: u32, kind: u8, field: [u8; 8]) -> Answer<()> {
        set_flip(area, gate, kind, field)
    }
    fn read_netlist(&self, area: &[u32]) -> Answer<NetlistReading> {
        read_netlist(area)
    }
    fn read_gate(&self, area: &[u32], gate: u32) -> Answer<GateReading> {
        read_gate(area, gate)
    }
    fn average(&self, area: &mut [u32], weights: &[u32]) -> Answer<u32> {
        average(area, weights)
    }
    fn counts(
        &self,
        method: Method,
        area: &[u32],
        patterns: &[u32],
        slice: &mut [u32],
    ) -> Answer<()> {
        counts(method, area, patterns, slice)
    }
    fn write_image(&self, area: &[u32], image: &mut [u8]) -> Answer<u32> {
        write_image(area, image)
    }
}
