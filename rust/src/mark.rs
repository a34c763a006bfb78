//! Where a time came from.

use crate::sys;

/// Where a time came from. A change of scale keeps it, and [`proteus::write`](crate::proteus::write) takes H3 from it. Nothing else
/// looks at it: two times that differ in their marks alone are equal.
///
/// ```
/// use vrikshonem::{proteus, LeapList, Mark};
/// let list = LeapList::PUBLISHED;
/// let bytes = [0x41, 0xB1, 0x00, 0x00, 0x00, 0x07, 0x80, 0x00];
/// let tai = proteus::read(&bytes)?.to_tai(&list)?;
/// assert_eq!(tai.mark, Mark::Proteus(true));
///
/// let mut again = [0; proteus::LENGTH];
/// proteus::write(tai.to_utc(&list)?, &mut again)?;
/// assert_eq!(again, bytes);
/// // without its mark it is the same time, and H3 is 0
/// let plain = tai.with_mark(Mark::Plain);
/// assert_eq!(plain, tai);
/// proteus::write(plain.to_utc(&list)?, &mut again)?;
/// assert_eq!(again[1], 0xB0);
/// # Ok::<(), vrikshonem::Error>(())
/// ```
#[derive(Clone, Copy, PartialEq, Eq, Hash, Debug, Default)]
pub enum Mark {
    /// Nothing is told: a time that was built, or read from a text, a decimal day, CUC, CryoSat or SIRAL.
    #[default]
    Plain,
    /// Read from Proteus bytes, with their H3.
    Proteus(bool),
    /// Dated by a correlation, with its reference: `tick` of an [`SbtCorrelation`](crate::SbtCorrelation), `obt0` of a
    /// [`GoceCorrelation`](crate::GoceCorrelation).
    Correlated(u64),
}

impl Mark {
    /// Its code, and the source that belongs to it.
    pub(crate) fn given(self) -> (u32, u64) {
        match self {
            Mark::Plain => (0, 0),
            Mark::Proteus(h3) => (1, u64::from(h3)),
            Mark::Correlated(reference) => (2, reference),
        }
    }

    /// The mark of an answer; with a refusal it is plain.
    pub(crate) fn of(time: sys::VrkTime) -> Mark {
        match time.mark {
            0 => Mark::Plain,
            1 => Mark::Proteus(time.source == 1),
            2 => Mark::Correlated(time.source),
            code => unreachable!("the library has no mark {code}"),
        }
    }
}
