// Made by tools/interface.py --write; not by hand.
//! The interface for C, and the only unsafe code of this crate.
//!
//! Each call below is safe for every argument: the library judges every value, keeps no pointer, reads only the slices
//! that it is given and writes only into those that it is lent, and a `&mut` slice overlaps no other.
#![allow(unsafe_code)]

#[repr(C)]
#[derive(Clone, Copy)]
pub struct VrkWritten {
    pub refusal: u32,
    pub length: u64,
}

#[repr(C)]
#[derive(Clone, Copy)]
pub struct VrkGoceCorrelation {
    pub obt0: u64,
    pub utc0: u64,
    pub offset: i64,
    pub gradient: u64,
    pub back: u64,
    pub ahead: u64,
}

#[repr(C)]
#[derive(Clone, Copy)]
pub struct VrkHanded {
    pub kind: u32,
    pub scale: u32,
    pub day: i64,
    pub micro: u64,
    pub decimal: f64,
    pub mark: u32,
    pub source: u64,
}

#[repr(C)]
#[derive(Clone, Copy)]
pub struct VrkTime {
    pub refusal: u32,
    pub scale: u32,
    pub day: i64,
    pub micro: u64,
    pub mark: u32,
    pub source: u64,
}

#[repr(C)]
#[derive(Clone, Copy)]
pub struct VrkDecimal {
    pub refusal: u32,
    pub day: f64,
}

#[repr(C)]
#[derive(Clone, Copy)]
pub struct VrkSbtCorrelation {
    pub tick: u32,
    pub scale: u32,
    pub day: i64,
    pub micro: u64,
    pub period: u64,
    pub back: u64,
    pub ahead: u64,
}

#[repr(C)]
#[derive(Clone, Copy)]
pub struct VrkCount {
    pub refusal: u32,
    pub count: u64,
}

#[repr(C)]
#[derive(Clone, Copy)]
pub struct VrkCucFields {
    pub refusal: u32,
    pub seconds: u32,
    pub fraction: u32,
}

#[repr(C)]
#[derive(Clone, Copy)]
pub struct VrkProteusFields {
    pub refusal: u32,
    pub week: u32,
    pub h3: u32,
    pub second: u32,
    pub fraction: u32,
}

#[repr(C)]
#[derive(Clone, Copy)]
pub struct VrkCryosatFields {
    pub refusal: u32,
    pub day: u32,
    pub millisecond: u32,
    pub microsecond: u32,
}

#[repr(C)]
#[derive(Clone, Copy)]
pub struct VrkSiralFields {
    pub refusal: u32,
    pub day: u32,
    pub millisecond: u32,
    pub microsecond: u32,
    pub extra: u32,
}

#[repr(C)]
#[derive(Clone, Copy)]
pub struct VrkRun {
    pub refusal: u32,
    pub count: u64,
    pub last: u64,
}

#[repr(C)]
#[derive(Clone, Copy)]
pub struct VrkCover {
    pub refusal: u32,
    pub first: i64,
    pub last: i64,
}

extern "C" {
    pub fn vrk_cuc_read(bytes: *const u8, bytes_count: usize) -> VrkTime;
    pub fn vrk_cryosat_read(bytes: *const u8, bytes_count: usize) -> VrkTime;
    pub fn vrk_siral_read(bytes: *const u8, bytes_count: usize) -> VrkTime;
    pub fn vrk_goce_read(bytes: *const u8, bytes_count: usize) -> VrkCount;
    pub fn vrk_obet_read(bytes: *const u8, bytes_count: usize) -> VrkCount;
    pub fn vrk_sbt_read(bytes: *const u8, bytes_count: usize) -> VrkCount;
    pub fn vrk_cuc_write(time: VrkHanded, out: *mut u8, out_count: usize) -> VrkWritten;
    pub fn vrk_cryosat_write(time: VrkHanded, out: *mut u8, out_count: usize) -> VrkWritten;
    pub fn vrk_siral_write(time: VrkHanded, out: *mut u8, out_count: usize) -> VrkWritten;
    pub fn vrk_goce_write(count: u64, out: *mut u8, out_count: usize) -> VrkWritten;
    pub fn vrk_obet_write(count: u64, out: *mut u8, out_count: usize) -> VrkWritten;
    pub fn vrk_sbt_write(tick: u32, out: *mut u8, out_count: usize) -> VrkWritten;
    pub fn vrk_proteus_read(bytes: *const u8, bytes_count: usize) -> VrkTime;
    pub fn vrk_proteus_write(time: VrkHanded, out: *mut u8, out_count: usize) -> VrkWritten;
    pub fn vrk_goce_date(obt: u64, correlation: VrkGoceCorrelation, receipt_day: i64, receipt_micro: u64, days: *const i64, days_count: usize, offsets: *const u64, offsets_count: usize, last: i64) -> VrkTime;
    pub fn vrk_goce_count(time: VrkHanded, correlation: VrkGoceCorrelation, days: *const i64, days_count: usize, offsets: *const u64, offsets_count: usize, last: i64) -> VrkCount;
    pub fn vrk_decimal_read(day: f64, scale: u32) -> VrkTime;
    pub fn vrk_decimal_write(time: VrkHanded) -> VrkDecimal;
    pub fn vrk_sbt_date(tick: u32, correlation: VrkSbtCorrelation, receipt_day: i64, receipt_micro: u64, days: *const i64, days_count: usize, offsets: *const u64, offsets_count: usize, last: i64) -> VrkTime;
    pub fn vrk_sbt_tick(time: VrkHanded, correlation: VrkSbtCorrelation, days: *const i64, days_count: usize, offsets: *const u64, offsets_count: usize, last: i64) -> VrkCount;
    pub fn vrk_list_accepted(days: *const i64, days_count: usize, offsets: *const u64, offsets_count: usize, last: i64) -> u32;
    pub fn vrk_change(time: VrkHanded, to_scale: u32, days: *const i64, days_count: usize, offsets: *const u64, offsets_count: usize, last: i64) -> VrkTime;
    pub fn vrk_cuc_fields_read(bytes: *const u8, bytes_count: usize) -> VrkCucFields;
    pub fn vrk_cuc_fields_write(seconds: u32, fraction: u32, out: *mut u8, out_count: usize) -> VrkWritten;
    pub fn vrk_proteus_fields_read(bytes: *const u8, bytes_count: usize) -> VrkProteusFields;
    pub fn vrk_proteus_fields_write(week: u32, h3: u32, second: u32, fraction: u32, out: *mut u8, out_count: usize) -> VrkWritten;
    pub fn vrk_cryosat_fields_read(bytes: *const u8, bytes_count: usize) -> VrkCryosatFields;
    pub fn vrk_cryosat_fields_write(day: u32, millisecond: u32, microsecond: u32, out: *mut u8, out_count: usize) -> VrkWritten;
    pub fn vrk_siral_fields_read(bytes: *const u8, bytes_count: usize) -> VrkSiralFields;
    pub fn vrk_siral_fields_write(day: u32, millisecond: u32, microsecond: u32, extra: u32, out: *mut u8, out_count: usize) -> VrkWritten;
    pub fn vrk_siral_run(bytes: *const u8, bytes_count: usize, told: u64, dates: *mut i64, dates_count: usize) -> VrkRun;
    pub fn vrk_season_read(bytes: *const u8, bytes_count: usize, words: *mut i64, words_count: usize) -> VrkCount;
    pub fn vrk_season_write(words: *const i64, words_count: usize, out: *mut u8, out_count: usize) -> VrkWritten;
    pub fn vrk_season_covering(bytes: *const u8, bytes_count: usize, receipt_day: i64, receipt_micro: u64) -> VrkCover;
    pub fn vrk_text_read(text: *const u8, text_count: usize, days: *const i64, days_count: usize, offsets: *const u64, offsets_count: usize, last: i64) -> VrkTime;
    pub fn vrk_text_write(time: VrkHanded, days: *const i64, days_count: usize, offsets: *const u64, offsets_count: usize, last: i64, form: u32, out: *mut u8, out_count: usize) -> VrkWritten;
}

/// The bytes of each writer's image, or the most that it has.
#[allow(dead_code)]
pub(crate) mod image {
    pub const CUC_WRITE: usize = 6;
    pub const GOCE_WRITE: usize = 6;
    pub const OBET_WRITE: usize = 8;
    pub const PROTEUS_WRITE: usize = 8;
    pub const CRYOSAT_WRITE: usize = 8;
    pub const SIRAL_WRITE: usize = 10;
    pub const SBT_WRITE: usize = 4;
    pub const CUC_FIELDS_WRITE: usize = 6;
    pub const PROTEUS_FIELDS_WRITE: usize = 8;
    pub const CRYOSAT_FIELDS_WRITE: usize = 8;
    pub const SIRAL_FIELDS_WRITE: usize = 10;
    pub const SEASON_WRITE: usize = 24578;
    pub const TEXT_WRITE: usize = 31;
}

pub(crate) fn cuc_read(bytes: &[u8]) -> VrkTime {
    unsafe { vrk_cuc_read(bytes.as_ptr(), bytes.len()) }
}

pub(crate) fn cryosat_read(bytes: &[u8]) -> VrkTime {
    unsafe { vrk_cryosat_read(bytes.as_ptr(), bytes.len()) }
}

pub(crate) fn siral_read(bytes: &[u8]) -> VrkTime {
    unsafe { vrk_siral_read(bytes.as_ptr(), bytes.len()) }
}

pub(crate) fn goce_read(bytes: &[u8]) -> VrkCount {
    unsafe { vrk_goce_read(bytes.as_ptr(), bytes.len()) }
}

pub(crate) fn obet_read(bytes: &[u8]) -> VrkCount {
    unsafe { vrk_obet_read(bytes.as_ptr(), bytes.len()) }
}

pub(crate) fn sbt_read(bytes: &[u8]) -> VrkCount {
    unsafe { vrk_sbt_read(bytes.as_ptr(), bytes.len()) }
}

pub(crate) fn cuc_write(time: VrkHanded, out: &mut [u8]) -> VrkWritten {
    unsafe { vrk_cuc_write(time, out.as_mut_ptr(), out.len()) }
}

pub(crate) fn cryosat_write(time: VrkHanded, out: &mut [u8]) -> VrkWritten {
    unsafe { vrk_cryosat_write(time, out.as_mut_ptr(), out.len()) }
}

pub(crate) fn siral_write(time: VrkHanded, out: &mut [u8]) -> VrkWritten {
    unsafe { vrk_siral_write(time, out.as_mut_ptr(), out.len()) }
}

pub(crate) fn goce_write(count: u64, out: &mut [u8]) -> VrkWritten {
    unsafe { vrk_goce_write(count, out.as_mut_ptr(), out.len()) }
}

pub(crate) fn obet_write(count: u64, out: &mut [u8]) -> VrkWritten {
    unsafe { vrk_obet_write(count, out.as_mut_ptr(), out.len()) }
}

pub(crate) fn sbt_write(tick: u32, out: &mut [u8]) -> VrkWritten {
    unsafe { vrk_sbt_write(tick, out.as_mut_ptr(), out.len()) }
}

pub(crate) fn proteus_read(bytes: &[u8]) -> VrkTime {
    unsafe { vrk_proteus_read(bytes.as_ptr(), bytes.len()) }
}

pub(crate) fn proteus_write(time: VrkHanded, out: &mut [u8]) -> VrkWritten {
    unsafe { vrk_proteus_write(time, out.as_mut_ptr(), out.len()) }
}

pub(crate) fn goce_date(obt: u64, correlation: VrkGoceCorrelation, receipt_day: i64, receipt_micro: u64, days: &[i64], offsets: &[u64], last: i64) -> VrkTime {
    unsafe { vrk_goce_date(obt, correlation, receipt_day, receipt_micro, days.as_ptr(), days.len(), offsets.as_ptr(), offsets.len(), last) }
}

pub(crate) fn goce_count(time: VrkHanded, correlation: VrkGoceCorrelation, days: &[i64], offsets: &[u64], last: i64) -> VrkCount {
    unsafe { vrk_goce_count(time, correlation, days.as_ptr(), days.len(), offsets.as_ptr(), offsets.len(), last) }
}

pub(crate) fn decimal_read(day: f64, scale: u32) -> VrkTime {
    unsafe { vrk_decimal_read(day, scale) }
}

pub(crate) fn decimal_write(time: VrkHanded) -> VrkDecimal {
    unsafe { vrk_decimal_write(time) }
}

pub(crate) fn sbt_date(tick: u32, correlation: VrkSbtCorrelation, receipt_day: i64, receipt_micro: u64, days: &[i64], offsets: &[u64], last: i64) -> VrkTime {
    unsafe { vrk_sbt_date(tick, correlation, receipt_day, receipt_micro, days.as_ptr(), days.len(), offsets.as_ptr(), offsets.len(), last) }
}

pub(crate) fn sbt_tick(time: VrkHanded, correlation: VrkSbtCorrelation, days: &[i64], offsets: &[u64], last: i64) -> VrkCount {
    unsafe { vrk_sbt_tick(time, correlation, days.as_ptr(), days.len(), offsets.as_ptr(), offsets.len(), last) }
}

pub(crate) fn list_accepted(days: &[i64], offsets: &[u64], last: i64) -> u32 {
    unsafe { vrk_list_accepted(days.as_ptr(), days.len(), offsets.as_ptr(), offsets.len(), last) }
}

pub(crate) fn change(time: VrkHanded, to_scale: u32, days: &[i64], offsets: &[u64], last: i64) -> VrkTime {
    unsafe { vrk_change(time, to_scale, days.as_ptr(), days.len(), offsets.as_ptr(), offsets.len(), last) }
}

pub(crate) fn cuc_fields_read(bytes: &[u8]) -> VrkCucFields {
    unsafe { vrk_cuc_fields_read(bytes.as_ptr(), bytes.len()) }
}

pub(crate) fn cuc_fields_write(seconds: u32, fraction: u32, out: &mut [u8]) -> VrkWritten {
    unsafe { vrk_cuc_fields_write(seconds, fraction, out.as_mut_ptr(), out.len()) }
}

pub(crate) fn proteus_fields_read(bytes: &[u8]) -> VrkProteusFields {
    unsafe { vrk_proteus_fields_read(bytes.as_ptr(), bytes.len()) }
}

pub(crate) fn proteus_fields_write(week: u32, h3: u32, second: u32, fraction: u32, out: &mut [u8]) -> VrkWritten {
    unsafe { vrk_proteus_fields_write(week, h3, second, fraction, out.as_mut_ptr(), out.len()) }
}

pub(crate) fn cryosat_fields_read(bytes: &[u8]) -> VrkCryosatFields {
    unsafe { vrk_cryosat_fields_read(bytes.as_ptr(), bytes.len()) }
}

pub(crate) fn cryosat_fields_write(day: u32, millisecond: u32, microsecond: u32, out: &mut [u8]) -> VrkWritten {
    unsafe { vrk_cryosat_fields_write(day, millisecond, microsecond, out.as_mut_ptr(), out.len()) }
}

pub(crate) fn siral_fields_read(bytes: &[u8]) -> VrkSiralFields {
    unsafe { vrk_siral_fields_read(bytes.as_ptr(), bytes.len()) }
}

pub(crate) fn siral_fields_write(day: u32, millisecond: u32, microsecond: u32, extra: u32, out: &mut [u8]) -> VrkWritten {
    unsafe { vrk_siral_fields_write(day, millisecond, microsecond, extra, out.as_mut_ptr(), out.len()) }
}

pub(crate) fn siral_run(bytes: &[u8], told: u64, dates: &mut [i64]) -> VrkRun {
    unsafe { vrk_siral_run(bytes.as_ptr(), bytes.len(), told, dates.as_mut_ptr(), dates.len()) }
}

pub(crate) fn season_read(bytes: &[u8], words: &mut [i64]) -> VrkCount {
    unsafe { vrk_season_read(bytes.as_ptr(), bytes.len(), words.as_mut_ptr(), words.len()) }
}

pub(crate) fn season_write(words: &[i64], out: &mut [u8]) -> VrkWritten {
    unsafe { vrk_season_write(words.as_ptr(), words.len(), out.as_mut_ptr(), out.len()) }
}

pub(crate) fn season_covering(bytes: &[u8], receipt_day: i64, receipt_micro: u64) -> VrkCover {
    unsafe { vrk_season_covering(bytes.as_ptr(), bytes.len(), receipt_day, receipt_micro) }
}

pub(crate) fn text_read(text: &[u8], days: &[i64], offsets: &[u64], last: i64) -> VrkTime {
    unsafe { vrk_text_read(text.as_ptr(), text.len(), days.as_ptr(), days.len(), offsets.as_ptr(), offsets.len(), last) }
}

pub(crate) fn text_write(time: VrkHanded, days: &[i64], offsets: &[u64], last: i64, form: u32, out: &mut [u8]) -> VrkWritten {
    unsafe { vrk_text_write(time, days.as_ptr(), days.len(), offsets.as_ptr(), offsets.len(), last, form, out.as_mut_ptr(), out.len()) }
}
