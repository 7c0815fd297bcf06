//! Document 01, with the requests of document 02 that have landed, in plain Rust, by a second hand. The slow modules, which the
//! library is compared with, follow the papers' words, and nothing in them was taken from the proved code or its definitions;
//! `swift`, `swift_dimacs`, `swift_reports`, `swift_sheet` and `swift_text`, which it is timed beside, have the same results by the
//! methods an ordinary program would use, and of them `swift::Buckets` is built as the library is.

#[cfg(feature = "library")]
pub mod against;
pub mod boundaries;
pub mod dimacs;
pub mod drawings;
pub mod facts;
pub mod flow;
pub mod forests;
pub mod generate;
#[cfg(feature = "library")]
pub mod imported;
pub mod keep;
#[cfg(feature = "library")]
pub mod last;
pub mod lengths;
#[cfg(feature = "library")]
pub mod library;
pub mod manner;
pub mod outs;
pub mod over;
pub mod plan;
#[cfg(feature = "library")]
pub mod printed;
pub mod random;
#[cfg(feature = "library")]
pub mod reported;
pub mod reports;
#[cfg(feature = "library")]
pub mod routed;
pub mod sets;
pub mod sheet;
pub mod sheets;
pub mod spoilt;
pub mod spoilt_sets;
pub mod states;
pub mod sure;
pub mod sweep;
pub mod swift;
pub mod swift_dimacs;
pub mod swift_reports;
pub mod swift_sheet;
pub mod swift_text;
pub mod table;
pub mod tally;
pub mod text;
#[cfg(feature = "library")]
pub mod texts;
pub mod variants;
#[cfg(feature = "library")]
pub mod verified;
pub mod verify;
pub mod wishes;

#[cfg(test)]
mod dimacs_examples;
#[cfg(test)]
mod examples;
#[cfg(test)]
mod report_examples;
#[cfg(test)]
mod set_examples;
#[cfg(test)]
mod sheet_examples;
#[cfg(test)]
mod state_examples;
