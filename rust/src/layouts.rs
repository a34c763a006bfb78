//! The byte layouts, most significant byte first. A reader takes bytes of any length. A writer writes its image onto the front
//! of `out`, leaves every byte after it, and hands back the image's length; a refusal leaves every byte.

use crate::error::{answered, Error};
use crate::sys;

fn written(written: sys::VrkWritten) -> Result<usize, Error> {
    answered(written.refusal, written.length as usize)
}

/// CUC, Aeolus, 6 bytes: seconds since 6 January 1980 and a fraction of 1/65536 s, in GPS. A fraction is read as the nearest
/// microsecond, halves upward.
pub mod cuc {
    use super::*;
    use crate::time::{at, Handed, Gps};

    /// The bytes of an image.
    pub const LENGTH: usize = sys::image::CUC_WRITE;

    /// The fields. A field over its limit, or wider than its bits, is refused with 3.
    #[derive(Clone, Copy, PartialEq, Eq, Hash, Debug)]
    #[allow(missing_docs)]
    pub struct Fields {
        pub seconds: u32,
        pub fraction: u32,
    }

    /// The time that the bytes stand for. Refused: 1; 7.
    pub fn read(bytes: &[u8]) -> Result<Gps, Error> {
        at(sys::cuc_read(bytes))
    }

    /// Writes the last image whose reading is not later. Refused: 4; 7; 12 a scale other than GPS; 13.
    pub fn write(time: impl Into<Handed>, out: &mut [u8]) -> Result<usize, Error> {
        written(sys::cuc_write(time.into().given(), out))
    }

    /// The fields of the bytes, exactly. Refused: 1.
    pub fn read_fields(bytes: &[u8]) -> Result<Fields, Error> {
        let read = sys::cuc_fields_read(bytes);
        answered(read.refusal, Fields { seconds: read.seconds, fraction: read.fraction })
    }

    /// Writes the fields, exactly. Refused: 3; 13.
    pub fn write_fields(fields: Fields, out: &mut [u8]) -> Result<usize, Error> {
        written(sys::cuc_fields_write(fields.seconds, fields.fraction, out))
    }
}

/// GOCE OBT, 6 bytes: a count of 48 bits, without an epoch; a [`GoceCorrelation`](crate::GoceCorrelation) dates it.
pub mod goce {
    use super::*;

    /// The bytes of an image.
    pub const LENGTH: usize = sys::image::GOCE_WRITE;

    /// The count. Refused: 1.
    pub fn read(bytes: &[u8]) -> Result<u64, Error> {
        let read = sys::goce_read(bytes);
        answered(read.refusal, read.count)
    }

    /// Writes a count. Refused: 3 from 2^48 on; 13.
    pub fn write(count: u64, out: &mut [u8]) -> Result<usize, Error> {
        written(sys::goce_write(count, out))
    }
}

/// OBET, SMOS, 8 bytes: the byte 66 hexadecimal and a count of 56 bits.
pub mod obet {
    use super::*;

    /// The bytes of an image.
    pub const LENGTH: usize = sys::image::OBET_WRITE;

    /// The count. Refused: 1; 2.
    pub fn read(bytes: &[u8]) -> Result<u64, Error> {
        let read = sys::obet_read(bytes);
        answered(read.refusal, read.count)
    }

    /// Writes a count. Refused: 3 from 2^56 on; 13.
    pub fn write(count: u64, out: &mut [u8]) -> Result<usize, Error> {
        written(sys::obet_write(count, out))
    }
}

/// Proteus, SMOS, 8 bytes: week, H3, second of week and fraction; UTC in weeks of 604,800 s, without a leap list. A fraction is
/// read as the nearest microsecond, halves upward, as in [`cuc`]. H3 is kept in the time's [`Mark`](crate::Mark).
pub mod proteus {
    use super::*;
    use crate::time::{at, Handed, Utc};

    /// The bytes of an image.
    pub const LENGTH: usize = sys::image::PROTEUS_WRITE;

    /// The fields. A field over its limit, or wider than its bits, is refused with 3.
    #[derive(Clone, Copy, PartialEq, Eq, Hash, Debug)]
    #[allow(missing_docs)]
    pub struct Fields {
        pub week: u32,
        pub h3: bool,
        pub second: u32,
        pub fraction: u32,
    }

    /// The time that the bytes stand for, marked [`Mark::Proteus`](crate::Mark::Proteus) with their H3. Refused: 1; 2; 3.
    pub fn read(bytes: &[u8]) -> Result<Utc, Error> {
        at(sys::proteus_read(bytes))
    }

    /// Writes the last image whose reading is not later, with the H3 of a time marked [`Mark::Proteus`](crate::Mark::Proteus), and 0
    /// for any other. Refused: 4; 7; 12 a scale other than UTC, second 60, a day outside -7300 to 21371; 13.
    pub fn write(time: impl Into<Handed>, out: &mut [u8]) -> Result<usize, Error> {
        written(sys::proteus_write(time.into().given(), out))
    }

    /// The fields of the bytes, exactly. Refused: 1; 2; 3.
    pub fn read_fields(bytes: &[u8]) -> Result<Fields, Error> {
        let read = sys::proteus_fields_read(bytes);
        answered(read.refusal, Fields { week: read.week, h3: read.h3 == 1, second: read.second, fraction: read.fraction })
    }

    /// Writes the fields, exactly. Refused: 3; 13.
    pub fn write_fields(fields: Fields, out: &mut [u8]) -> Result<usize, Error> {
        let Fields { week, h3, second, fraction } = fields;
        written(sys::proteus_fields_write(week, u32::from(h3), second, fraction, out))
    }
}

/// CryoSat general, 8 bytes: day from 1 January 2000, millisecond and microsecond, in TAI.
pub mod cryosat {
    use super::*;
    use crate::time::{at, Handed, Tai};

    /// The bytes of an image.
    pub const LENGTH: usize = sys::image::CRYOSAT_WRITE;

    /// The fields. A field over its limit, or wider than its bits, is refused with 3.
    #[derive(Clone, Copy, PartialEq, Eq, Hash, Debug)]
    #[allow(missing_docs)]
    pub struct Fields {
        pub day: u32,
        pub millisecond: u32,
        pub microsecond: u32,
    }

    /// The time that the bytes stand for. Refused: 1; 3; 7.
    pub fn read(bytes: &[u8]) -> Result<Tai, Error> {
        at(sys::cryosat_read(bytes))
    }

    /// Writes the time, exactly. Refused: 4; 7; 12 a scale other than TAI, a day before 0; 13.
    pub fn write(time: impl Into<Handed>, out: &mut [u8]) -> Result<usize, Error> {
        written(sys::cryosat_write(time.into().given(), out))
    }

    /// The fields of the bytes, exactly. Refused: 1; 3.
    pub fn read_fields(bytes: &[u8]) -> Result<Fields, Error> {
        let read = sys::cryosat_fields_read(bytes);
        answered(read.refusal, Fields { day: read.day, millisecond: read.millisecond, microsecond: read.microsecond })
    }

    /// Writes the fields, exactly. Refused: 3; 13.
    pub fn write_fields(fields: Fields, out: &mut [u8]) -> Result<usize, Error> {
        written(sys::cryosat_fields_write(fields.day, fields.millisecond, fields.microsecond, out))
    }
}

/// SIRAL, 10 bytes: CryoSat general's, and an extra counter of 33/16 microsecond, which is added. [`run`](siral::run) dates
/// packets after the counter has rolled over.
pub mod siral {
    use super::*;
    pub use crate::runs::{run, Run};
    use crate::time::{at, Handed, Tai};

    /// The bytes of an image.
    pub const LENGTH: usize = sys::image::SIRAL_WRITE;

    /// The fields. A field over its limit, or wider than its bits, is refused with 3.
    #[derive(Clone, Copy, PartialEq, Eq, Hash, Debug)]
    #[allow(missing_docs)]
    pub struct Fields {
        pub day: u32,
        pub millisecond: u32,
        pub microsecond: u32,
        pub extra: u32,
    }

    /// The time that the bytes stand for. Refused: 1; 3; 7.
    pub fn read(bytes: &[u8]) -> Result<Tai, Error> {
        at(sys::siral_read(bytes))
    }

    /// Writes the time, exactly, with the extra counter 0. Refused: 4; 7; 12 a scale other than TAI, a day before 0; 13.
    pub fn write(time: impl Into<Handed>, out: &mut [u8]) -> Result<usize, Error> {
        written(sys::siral_write(time.into().given(), out))
    }

    /// The fields of the bytes, exactly. Refused: 1; 3.
    pub fn read_fields(bytes: &[u8]) -> Result<Fields, Error> {
        let read = sys::siral_fields_read(bytes);
        let fields =
            Fields { day: read.day, millisecond: read.millisecond, microsecond: read.microsecond, extra: read.extra };
        answered(read.refusal, fields)
    }

    /// Writes the fields, exactly. Refused: 3; 13.
    pub fn write_fields(fields: Fields, out: &mut [u8]) -> Result<usize, Error> {
        written(sys::siral_fields_write(fields.day, fields.millisecond, fields.microsecond, fields.extra, out))
    }
}

/// SBT, 4 bytes: the tick.
pub mod sbt {
    use super::*;
    use crate::correlation::Tick;

    /// The bytes of an image.
    pub const LENGTH: usize = sys::image::SBT_WRITE;

    /// The tick. Refused: 1.
    pub fn read(bytes: &[u8]) -> Result<Tick, Error> {
        let read = sys::sbt_read(bytes);
        answered(read.refusal, Tick(read.count as u32))
    }

    /// Writes a tick. Refused: 13.
    pub fn write(tick: Tick, out: &mut [u8]) -> Result<usize, Error> {
        written(sys::sbt_write(tick.0, out))
    }
}
