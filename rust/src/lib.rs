//! The proved soft-error bench for Rust: nine calls on a work area that the caller owns, one that makes
//! a netlist image from BLIF, and images made from text; and three on images alone: how far their figures
//! can be from the exact ones, their reliability where gates are shared, and which of two modules stands
//! higher.
//!
//! Every call answers a [`Result`]: its result, or a [`Refusal`] with the number and place that
//! docs/SCOPE.md gives; of two images, an [`ImageRefusal`], which says which one it is. A refused
//! call has changed nothing. Figures are whole numbers of units, of which [`ONE`] make 1; what is
//! rounded goes to the nearest unit, and a half to the even unit.
//!
//! ```
//! use filzaod::{average, open, read_gate, read_netlist, set_flip, text, toggle_input, Flip, MAX_WORDS};
//!
//! let module = text::read(
//!     "inputs 2
//!      gate left 2 pins 0 chance 0.5
//!      gate right 2 pins 1 chance 0.5
//!      gate both 8 pins left right never
//!      output both",
//! )?;
//! let mut area = vec![0; MAX_WORDS];
//! assert_eq!(open(&mut area, &module.image)?, 3); // three live gates
//! assert_eq!(average(&mut area, &[1, 1, 1, 1])?, 671_088_640);
//!
//! toggle_input(&mut area, 0)?;
//! toggle_input(&mut area, 1)?;
//! let netlist = read_netlist(&area)?;
//! assert_eq!((netlist.pattern, netlist.units, netlist.reliability), (3, 268_435_456, 0.25));
//!
//! set_flip(&mut area, 0, Flip::Never)?;
//! assert_eq!(read_netlist(&area)?.reliability, 0.5);
//! assert!(read_gate(&area, 2)?.right);
//!
//! let refusal = toggle_input(&mut area, 2).unwrap_err();
//! assert_eq!((refusal.number, refusal.place), (10, 2));
//! assert_eq!(refusal.to_string(), "refused 10 2: there is no input or gate 2");
//! # Ok::<(), Box<dyn std::error::Error>>(())
//! ```
//!
//! Which gate is worth hardening? The one whose flip makes an output wrong in the most patterns:
//!
//! ```
//! use filzaod::{counts_by_flip, counts_by_mask, open, text, MAX_WORDS};
//!
//! let module = text::read(
//!     "inputs 2
//!      gate left 2 pins 0 chance 0.5
//!      gate right 2 pins 1 chance 0.5
//!      gate both 8 pins left right never
//!      output both",
//! )?;
//! let mut area = vec![0; MAX_WORDS];
//! open(&mut area, &module.image)?;
//! let mut counts = [0; 3]; // one for each gate
//! counts_by_mask(&area, &[0, 1, 2, 3], &mut counts)?;
//! assert_eq!(counts, [2, 2, 4]);
//! counts_by_flip(&area, &[3], &mut counts)?; // both inputs 1: every flip is seen
//! assert_eq!(counts, [1, 1, 1]);
//!
//! let refusal = counts_by_mask(&area, &[3, 4], &mut counts).unwrap_err();
//! assert_eq!((refusal.number, refusal.place), (16, 1)); // with two inputs there is no pattern 4
//! # Ok::<(), Box<dyn std::error::Error>>(())
//! ```
//!
//! Two suppliers send one netlist with other headings and other flip kinds. Written from the areas they
//! are the same bytes:
//!
//! ```
//! use filzaod::{open, text, words, write_image, written};
//!
//! let write = |flip: &str| -> Result<Vec<u8>, Box<dyn std::error::Error>> {
//!     let module = text::read(&format!("inputs 1\ngate only 1 pins 0 {flip}\noutput only"))?;
//!     let mut area = vec![0; words(1, 1)];
//!     open(&mut area, &module.image)?;
//!     let mut image = vec![0; written(1, 1)];
//!     assert_eq!(write_image(&area, &mut image)?, 38);
//!     Ok(image)
//! };
//! assert_eq!(write("chance 0.125")?, write("strike 0.25 0.5")?);
//! assert_ne!(write("chance 0.125")?, write("never")?);
//! # Ok::<(), Box<dyn std::error::Error>>(())
//! ```
//!
//! A netlist that a synthesis tool wrote as BLIF has no flips until they are set:
//!
//! ```
//! use filzaod::{open, read_blif, read_netlist, set_flip, Flip, MAX_BLIF_IMAGE, MAX_WORDS};
//!
//! let text = b".model both\n.inputs a b\n.outputs z\n.names a b z # an AND\n11 1\n.end\n";
//! let mut image = vec![0; MAX_BLIF_IMAGE];
//! let length = read_blif(text, &mut image)?;
//! let mut area = vec![0; MAX_WORDS];
//! assert_eq!(open(&mut area, &image[..length as usize])?, 1);
//! set_flip(&mut area, 0, Flip::Chance(0.25))?;
//! assert_eq!(read_netlist(&area)?.reliability, 0.75);
//!
//! let refusal = read_blif(b".model none\n.end\n", &mut image).unwrap_err();
//! assert_eq!((refusal.number, refusal.place), (19, 2)); // it has no output
//! # Ok::<(), Box<dyn std::error::Error>>(())
//! ```
//!
//! A gate that is read twice is refused when an image is opened; its reliability can be had all the same:
//!
//! ```
//! use filzaod::{open, shared_reliability, text, words, ONE};
//!
//! let twice = "inputs 1\n gate same 2 pins 0 chance 0.5\n output same\n output same";
//! let image = text::read(twice)?.image;
//! assert_eq!(open(&mut vec![0; words(1, 2)], &image).unwrap_err().number, 9);
//! assert_eq!(shared_reliability(&image, 0)?, ONE / 2); // not a quarter: both outputs fail together
//! # Ok::<(), Box<dyn std::error::Error>>(())
//! ```
//!
//! Which of two modules is more reliable? It is said only where the errors of the figures leave no
//! doubt:
//!
//! ```
//! use filzaod::{compare, error_of_image, text, Verdict};
//!
//! let sure = text::read("inputs 1\n gate same 2 pins 0 never\n output same")?.image;
//! let rare = text::read("inputs 1\n gate same 2 pins 0 chance 0.001\n output same")?.image;
//! let slight = text::read("inputs 1\n gate same 2 pins 0 chance 1e-9\n output same")?.image;
//! assert_eq!(error_of_image(&rare)?.halves, 2); // a gate that flips
//!
//! let answer = compare(&rare, &sure)?;
//! assert_eq!(answer.verdict, Verdict::Second);
//! assert_eq!(answer.patterns.map(|counts| counts.second), Some(2)); // under both patterns
//! assert_eq!(compare(&sure, &slight)?.verdict, Verdict::Undecided); // one unit apart
//!
//! let refusal = compare(&sure, &sure[1..]).unwrap_err();
//! assert_eq!(refusal.to_string().split(':').next(), Some("the second image"));
//! # Ok::<(), Box<dyn std::error::Error>>(())
//! ```

mod calls;
mod flip;
mod image;
mod refusal;
pub mod text;

pub use calls::{average, counts_by_flip, counts_by_mask, read_blif, write_image};
pub use calls::{compare, error_of_image, shared_reliability};
pub use calls::{open, read_gate, read_netlist, set_flip, toggle_input};
pub use calls::{Comparison, ErrorBound, Module, PatternCounts, Verdict};
pub use calls::{GateReading, NetlistReading};
pub use flip::Flip;
pub use refusal::{ImageRefusal, Refusal, Which};

/// One, in units.
pub const ONE: u32 = 1 << 30;
/// The largest flip of a gate, in units: a chance of 0.5.
pub const MAX_FLIP: u32 = ONE / 2;
/// The most inputs that a netlist has.
pub const MAX_INPUTS: usize = 12;
/// The most gates that a netlist has.
pub const MAX_GATES: usize = 1024;
/// The most outputs that a netlist has; it has one at least.
pub const MAX_OUTPUTS: usize = 64;
/// The longest image, in bytes.
pub const MAX_IMAGE: usize = 32_768;
/// The largest weight of a pattern in an average.
pub const MAX_WEIGHT: u32 = 1_048_575;
/// The most shared gates that [`shared_reliability`] takes.
pub const MAX_SHARED: usize = 8;
/// The most patterns that a list for counts has; it has one at least.
pub const MAX_LISTED: usize = 4096;
/// The most bytes of a text that [`read_blif`] reads.
pub const MAX_TEXT: usize = 32_768;
/// The most bytes of an image that [`read_blif`] writes.
pub const MAX_BLIF_IMAGE: usize = 20_624;
/// Words of an area that is long enough for every netlist.
pub const MAX_WORDS: usize = words(MAX_GATES, MAX_OUTPUTS);

/// The most bytes of an image that [`write_image`] writes.
pub const MAX_WRITTEN: usize = written(MAX_GATES, MAX_OUTPUTS);

/// How many bytes of an image [`write_image`] writes for a netlist with these counts.
pub const fn written(gates: usize, outputs: usize) -> usize {
    20 * gates + 2 * outputs + 16
}

/// How many words of an area a netlist with these counts takes.
pub const fn words(gates: usize, outputs: usize) -> usize {
    8 + 8 * gates + outputs
}
