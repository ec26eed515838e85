//! The second program: document 01 written once more, without a look at the proved code, and what
//! the tests need to hold the proved library against it.
//!
//! One command, in this directory, after `tests/library` at the repository root:
//!
//! ```text
//! cargo test --release --offline
//! ```
//!
//! `SEED=number` in the environment changes the random runs; every run prints the seed it used.
//! `SHEET=/path/to/sheet` also runs the program `sheet` on the examples and on random images.
//!
//! Without the library, `cargo test --release --offline --features self_test` runs the same tests
//! against this package's own model. `FAULT=name` then makes that stand-in wrong in one chosen way
//! (the names are in `stand_in.rs`), and `./try-faults` shows that the tests notice every one.

pub mod answer;
pub mod arguments;
pub mod blif;
pub mod blif_texts;
pub mod book;
pub mod compare;
pub mod counts;
pub mod exact;
pub mod ffi;
pub mod images;
pub mod model;
pub mod random;
pub mod shared;
pub mod sheet;
#[cfg(feature = "self_test")]
pub mod stand_in;
pub mod standing;
pub mod written;
