//! The refusal slip.

use std::fmt;

/// A refusal: the first that applies, in a fixed order. Memory that was lent keeps all its bytes.
///
/// Each has a name, and in a `match` that name is a pattern:
///
/// ```
/// use vrikshonem::{Error, LeapList, SbtCorrelation, Tick, Utc};
///
/// fn said(correlation: &SbtCorrelation<Utc>, tick: Tick, receipt: Utc) -> String {
///     match correlation.date(tick, receipt, &LeapList::PUBLISHED) {
///         Ok(time) => format!("day {}, microsecond {}", time.day, time.micro),
///         Err(Error::NOT_IN_FORCE) => "a new correlation is needed".to_string(),
///         Err(refused) => refused.to_string(),
///     }
/// }
///
/// let (reference, received) = (Utc::new(640, 36_000_000_000), Utc::new(640, 36_060_000_000));
/// let autumn = SbtCorrelation { tick: Tick(7), reference, period: 3_906_250_000, back: 0, ahead: 663_552_000 };
/// assert_eq!(said(&autumn, Tick(8), received), "day 640, microsecond 36000003906");
/// assert_eq!(said(&autumn, Tick(6), received), "a new correlation is needed");
/// let slow = SbtCorrelation { period: 0, ..autumn };
/// assert_eq!(said(&slow, Tick(8), received), Error::CORRELATION_NOT_ACCEPTED.to_string());
/// ```
#[derive(Clone, Copy, PartialEq, Eq, Hash, Debug)]
#[non_exhaustive]
pub struct Error {
    /// Its number, from 1 on.
    pub number: u32,
}

impl fmt::Display for Error {
    fn fmt(&self, f: &mut fmt::Formatter<'_>) -> fmt::Result {
        write!(f, "refused {}: {}", self.number, self.words())
    }
}

impl std::error::Error for Error {}

/// The value where the number is 0.
pub(crate) fn answered<T>(number: u32, value: T) -> Result<T, Error> {
    if number == 0 {
        Ok(value)
    } else {
        Err(Error { number })
    }
}
