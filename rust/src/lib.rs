//! Vrikshonem, the dating desk: counters and times of packets as dates, or one numbered refusal.
//!
//! The library behind this crate is proved: each reading is the exact time to the microsecond, each writing the bytes whose
//! reading is that time or the last not later, and each refusal the first that applies, in a fixed order. The crate adds
//! types: [`Tai`], [`Utc`] and [`Gps`] times cannot be mistaken for each other, and the [`Mark`] of each says where it came from; a
//! [`LeapList`] is borrowed; a refusal is an [`Error`] that has a name and a number, and says in words what is wrong.
//!
//! ```
//! use vrikshonem::{cuc, text, Error, Form, LeapList};
//!
//! let list = LeapList::PUBLISHED;
//! let gps = cuc::read(&[0x45, 0x93, 0x09, 0x11, 0x00, 0x01])?;
//! let utc = gps.to_utc(&list)?;
//! assert_eq!(text::string(utc, Form::PrefixedMicros, &list)?, "UTC=31-DEC-2016 23:59:60.000015");
//!
//! let refused = cuc::read(&[0; 5]).unwrap_err();
//! assert_eq!(refused, Error::LENGTH_IS_NONE);
//! assert_eq!(refused.number, 1);
//! assert_eq!(refused.to_string(), "refused 1: input length is none of the layout's");
//! # Ok::<(), vrikshonem::Error>(())
//! ```
//!
//! A time of one scale is not accepted where another is due:
//!
//! ```compile_fail,E0308
//! use vrikshonem::{Gps, LeapList, SbtCorrelation, Tick, Utc};
//! fn dated(correlation: SbtCorrelation<Utc>) {
//!     let _ = correlation.date(Tick(0), Gps::new(0, 0), &LeapList::PUBLISHED);
//! }
//! ```
#![deny(unsafe_code)]

mod correlation;
mod error;
mod layouts;
mod leap;
mod mark;
mod refusals;
mod runs;
pub mod season;
mod sys;
pub mod text;
mod time;

pub use correlation::{GoceCorrelation, SbtCorrelation, Tick};
pub use error::Error;
pub use layouts::{cryosat, cuc, goce, obet, proteus, sbt, siral};
pub use leap::{change, LeapList};
pub use mark::Mark;
pub use text::Form;
pub use time::{Gps, Handed, Scale, Scaled, Tai, Time, Utc};
