//! The papers' rules once more, in plain integers and exact fractions, written from documents 01 and 02 and not from the
//! proved code. Nothing here is shared with it, so that the two can be compared.

// Each program that compares uses its own part.
#![allow(dead_code)]

pub mod calendar;
pub mod clock;
pub mod correlation;
pub mod decimal;
pub mod goce;
pub mod layouts;
pub mod leap;
pub mod lines;
pub mod runs;
pub mod season;
pub mod text;
pub mod time;

/// A refusal's number.
pub type Number = u64;
