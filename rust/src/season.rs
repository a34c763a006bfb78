//! The season's file: up to 512 correlations of SBT in TAI, in one. `docs/SEASON.md` says what its bytes are.
//!
//! ```
//! use vrikshonem::{season, Error, LeapList, SbtCorrelation, Tai, Tick};
//!
//! // thirty days each, and 50,400 s between the two
//! let reference = Tai::new(640, 36_000_000_000);
//! let autumn = SbtCorrelation { tick: Tick(7), reference, period: 3_906_250_000, back: 0, ahead: 663_552_000 };
//! let winter = SbtCorrelation { tick: Tick(9), reference: Tai::new(671, 0), ..autumn };
//! let file = season::bytes([autumn, winter])?;
//! assert_eq!(file.len(), 2 + 48 * 2);
//!
//! // on the standby rack: which correlation is it for this receipt?
//! let receipt = Tai::new(680, 0);
//! let cover = season::covering(&file, receipt)?;
//! let entries = season::read(&file)?;
//! let entry = entries.iter().find(|entry| entry.cover() == cover).expect("the question's answer is an entry");
//! assert_eq!(entry.correlation, winter);
//! assert_eq!(entry.correlation.date(Tick(265), receipt, &LeapList::PUBLISHED), Ok(Tai::new(671, 1_000_000)));
//! assert_eq!(season::covering(&file, Tai::new(670, 86_399_999_999)), Err(Error::NO_ENTRY));
//!
//! // it could not have been written in another order
//! assert_eq!(season::bytes([winter, autumn]), Err(Error::SEASON_BROKEN));
//! # Ok::<(), vrikshonem::Error>(())
//! ```

use crate::correlation::{SbtCorrelation, Tick};
use crate::error::{answered, Error};
use crate::sys;
use crate::time::{Scaled, Tai};

/// The most bytes of a file.
pub const LENGTH: usize = sys::image::SEASON_WRITE;

/// The words of an entry as the library writes them, and of a correlation as it takes them.
const ENTRY: usize = 9;
const BODY: usize = 7;
/// The bytes that each entry adds to a file.
const ADDED: usize = 48;

/// What an entry covers: its first and its last microsecond, counted from the beginning of day 0. They may lie outside the span.
#[derive(Clone, Copy, PartialEq, Eq, Hash, Debug)]
#[allow(missing_docs)]
pub struct Cover {
    pub first: i64,
    pub last: i64,
}

/// An entry of a file that was read.
#[derive(Clone, Copy, PartialEq, Eq, Debug)]
pub struct Entry {
    /// The first microsecond that it covers, counted from the beginning of day 0.
    pub first: i64,
    /// The last.
    pub last: i64,
    /// The correlation, which covers these and no others.
    pub correlation: SbtCorrelation<Tai>,
}

impl Entry {
    /// Its first and last microsecond, as [`covering`] gives them.
    pub fn cover(&self) -> Cover {
        Cover { first: self.first, last: self.last }
    }

    fn of(words: &[i64]) -> Entry {
        let unsigned = |at: usize| words[at] as u64;
        let correlation = SbtCorrelation {
            tick: Tick(words[2] as u32),
            reference: Tai::new(words[4], unsigned(5)),
            period: unsigned(6),
            back: unsigned(7),
            ahead: unsigned(8),
        };
        Entry { first: words[0], last: words[1], correlation }
    }
}

/// The entries of a file, in their order. Refused: 14 any rule of the file that is broken; 13 never, since there is room.
pub fn read(bytes: &[u8]) -> Result<Vec<Entry>, Error> {
    let mut words = vec![0; bytes.len().min(LENGTH) / ADDED * ENTRY];
    let read = sys::season_read(bytes, &mut words);
    let entries = words.chunks(ENTRY).take(read.count as usize).map(Entry::of).collect();
    answered(read.refusal, entries)
}

/// The seven words of a correlation. A number that 63 bits cannot hold becomes a negative one, which is refused as it would be.
fn words(correlation: SbtCorrelation<Tai>) -> [i64; BODY] {
    let SbtCorrelation { tick, reference, period, back, ahead } = correlation;
    let scale = i64::from(Tai::SCALE.code());
    [tick.0.into(), scale, reference.day, reference.micro as i64, period as i64, back as i64, ahead as i64]
}

/// Writes the file of these correlations onto the front of `out`, and hands back its length: 48 bytes for each, and 2 more.
/// Refused: 14 more than 512, one that is not accepted, one whose cover does not begin after that of the one before has ended; 13.
pub fn write(correlations: impl IntoIterator<Item = SbtCorrelation<Tai>>, out: &mut [u8]) -> Result<usize, Error> {
    let words: Vec<i64> = correlations.into_iter().flat_map(words).collect();
    let written = sys::season_write(&words, out);
    answered(written.refusal, written.length as usize)
}

/// The same as new bytes; 13 cannot be.
pub fn bytes(correlations: impl IntoIterator<Item = SbtCorrelation<Tai>>) -> Result<Vec<u8>, Error> {
    let mut file = vec![0; LENGTH];
    let length = write(correlations, &mut file)?;
    file.truncate(length);
    Ok(file)
}

/// The cover of the one entry of a file that covers a receipt. Only the count and the contents are read, not the bodies. Refused:
/// 14 a rule of the length, the count, the positions or the order of the covers that is broken; 7 for the receipt; 15 no entry
/// covers the receipt.
pub fn covering(bytes: &[u8], receipt: Tai) -> Result<Cover, Error> {
    let cover = sys::season_covering(bytes, receipt.day, receipt.micro);
    answered(cover.refusal, Cover { first: cover.first, last: cover.last })
}
