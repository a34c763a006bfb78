// Made by tools/interface.py --write; not by hand. The functions of the interface.

use super::shape::{given, lent, numbers, Image, Shape};

#[derive(Clone, Copy, PartialEq, Eq, PartialOrd, Ord, Debug)]
pub enum Function {
    CucRead,
    CryosatRead,
    SiralRead,
    GoceRead,
    ObetRead,
    SbtRead,
    CucWrite,
    CryosatWrite,
    SiralWrite,
    GoceWrite,
    ObetWrite,
    SbtWrite,
    ProteusRead,
    ProteusWrite,
    GoceDate,
    GoceCount,
    DecimalRead,
    DecimalWrite,
    SbtDate,
    SbtTick,
    ListAccepted,
    Change,
    CucFieldsRead,
    CucFieldsWrite,
    ProteusFieldsRead,
    ProteusFieldsWrite,
    CryosatFieldsRead,
    CryosatFieldsWrite,
    SiralFieldsRead,
    SiralFieldsWrite,
    SiralRun,
    SeasonRead,
    SeasonWrite,
    SeasonCovering,
    TextRead,
    TextWrite,
}

pub const FUNCTIONS: &[Function] = &[
    Function::CucRead,
    Function::CryosatRead,
    Function::SiralRead,
    Function::GoceRead,
    Function::ObetRead,
    Function::SbtRead,
    Function::CucWrite,
    Function::CryosatWrite,
    Function::SiralWrite,
    Function::GoceWrite,
    Function::ObetWrite,
    Function::SbtWrite,
    Function::ProteusRead,
    Function::ProteusWrite,
    Function::GoceDate,
    Function::GoceCount,
    Function::DecimalRead,
    Function::DecimalWrite,
    Function::SbtDate,
    Function::SbtTick,
    Function::ListAccepted,
    Function::Change,
    Function::CucFieldsRead,
    Function::CucFieldsWrite,
    Function::ProteusFieldsRead,
    Function::ProteusFieldsWrite,
    Function::CryosatFieldsRead,
    Function::CryosatFieldsWrite,
    Function::SiralFieldsRead,
    Function::SiralFieldsWrite,
    Function::SiralRun,
    Function::SeasonRead,
    Function::SeasonWrite,
    Function::SeasonCovering,
    Function::TextRead,
    Function::TextWrite,
];

/// The words of every answer.
pub const ANSWER: usize = 6;

/// The refusals that are asked for by name.
#[allow(dead_code)]
pub mod refusal {
    pub const LENGTH_IS_NONE: u64 = 1;
    pub const MARKER_WRONG: u64 = 2;
    pub const FIELD_OVER: u64 = 3;
    pub const SEASON_BROKEN: u64 = 14;
    pub const NOT_ONE_SECOND: u64 = 16;
    pub const DECIMAL_NOT_FINITE: u64 = 4;
    pub const LIST_NOT_ACCEPTED: u64 = 5;
    pub const CORRELATION_NOT_ACCEPTED: u64 = 6;
    pub const OUTSIDE_SPAN: u64 = 7;
    pub const NO_ENTRY: u64 = 15;
    pub const NOT_IN_FORCE: u64 = 8;
    pub const RESULT_LATER: u64 = 17;
    pub const LIST_EXPIRED: u64 = 9;
    pub const SECOND_LACKING: u64 = 10;
    pub const RESULT_OUTSIDE: u64 = 11;
    pub const NO_IMAGE: u64 = 12;
    pub const OUTPUT_SHORTER: u64 = 13;
}

/// By the functions' numbers.
pub const SHAPES: &[Shape] = &[
    Shape {
        name: "cuc_read",
        takes: &[given("bytes", 1)],
        gives: &["refusal", "scale", "day", "micro", "mark", "source"],
        image: None,
        refuses: &[1, 7],
    },
    Shape {
        name: "cryosat_read",
        takes: &[given("bytes", 1)],
        gives: &["refusal", "scale", "day", "micro", "mark", "source"],
        image: None,
        refuses: &[1, 3, 7],
    },
    Shape {
        name: "siral_read",
        takes: &[given("bytes", 1)],
        gives: &["refusal", "scale", "day", "micro", "mark", "source"],
        image: None,
        refuses: &[1, 3, 7],
    },
    Shape {
        name: "goce_read",
        takes: &[given("bytes", 1)],
        gives: &["refusal", "count"],
        image: None,
        refuses: &[1],
    },
    Shape {
        name: "obet_read",
        takes: &[given("bytes", 1)],
        gives: &["refusal", "count"],
        image: None,
        refuses: &[1, 2],
    },
    Shape {
        name: "sbt_read",
        takes: &[given("bytes", 1)],
        gives: &["refusal", "count"],
        image: None,
        refuses: &[1],
    },
    Shape {
        name: "cuc_write",
        takes: &[numbers("time", &[("kind", 4), ("scale", 4), ("day", 8), ("micro", 8), ("decimal", 8), ("mark", 4), ("source", 8)]), lent("out", 1)],
        gives: &["refusal", "length"],
        image: Some(Image { length: 6, fixed: true, told: None }),
        refuses: &[3, 4, 7, 12, 13],
    },
    Shape {
        name: "cryosat_write",
        takes: &[numbers("time", &[("kind", 4), ("scale", 4), ("day", 8), ("micro", 8), ("decimal", 8), ("mark", 4), ("source", 8)]), lent("out", 1)],
        gives: &["refusal", "length"],
        image: Some(Image { length: 8, fixed: true, told: None }),
        refuses: &[3, 4, 7, 12, 13],
    },
    Shape {
        name: "siral_write",
        takes: &[numbers("time", &[("kind", 4), ("scale", 4), ("day", 8), ("micro", 8), ("decimal", 8), ("mark", 4), ("source", 8)]), lent("out", 1)],
        gives: &["refusal", "length"],
        image: Some(Image { length: 10, fixed: true, told: None }),
        refuses: &[3, 4, 7, 12, 13],
    },
    Shape {
        name: "goce_write",
        takes: &[numbers("count", &[("count", 8)]), lent("out", 1)],
        gives: &["refusal", "length"],
        image: Some(Image { length: 6, fixed: true, told: None }),
        refuses: &[3, 13],
    },
    Shape {
        name: "obet_write",
        takes: &[numbers("count", &[("count", 8)]), lent("out", 1)],
        gives: &["refusal", "length"],
        image: Some(Image { length: 8, fixed: true, told: None }),
        refuses: &[3, 13],
    },
    Shape {
        name: "sbt_write",
        takes: &[numbers("tick", &[("tick", 4)]), lent("out", 1)],
        gives: &["refusal", "length"],
        image: Some(Image { length: 4, fixed: true, told: None }),
        refuses: &[13],
    },
    Shape {
        name: "proteus_read",
        takes: &[given("bytes", 1)],
        gives: &["refusal", "scale", "day", "micro", "mark", "source"],
        image: None,
        refuses: &[1, 2, 3],
    },
    Shape {
        name: "proteus_write",
        takes: &[numbers("time", &[("kind", 4), ("scale", 4), ("day", 8), ("micro", 8), ("decimal", 8), ("mark", 4), ("source", 8)]), lent("out", 1)],
        gives: &["refusal", "length"],
        image: Some(Image { length: 8, fixed: true, told: None }),
        refuses: &[3, 4, 7, 12, 13],
    },
    Shape {
        name: "goce_date",
        takes: &[numbers("obt", &[("obt", 8)]), numbers("correlation", &[("obt0", 8), ("utc0", 8), ("offset", 8), ("gradient", 8), ("back", 8), ("ahead", 8)]), numbers("receipt_day", &[("receipt_day", 8)]), numbers("receipt_micro", &[("receipt_micro", 8)]), given("days", 8), given("offsets", 8), numbers("last", &[("last", 8)])],
        gives: &["refusal", "scale", "day", "micro", "mark", "source"],
        image: None,
        refuses: &[3, 5, 6, 7, 8, 17, 9, 10, 11],
    },
    Shape {
        name: "goce_count",
        takes: &[numbers("time", &[("kind", 4), ("scale", 4), ("day", 8), ("micro", 8), ("decimal", 8), ("mark", 4), ("source", 8)]), numbers("correlation", &[("obt0", 8), ("utc0", 8), ("offset", 8), ("gradient", 8), ("back", 8), ("ahead", 8)]), given("days", 8), given("offsets", 8), numbers("last", &[("last", 8)])],
        gives: &["refusal", "count"],
        image: None,
        refuses: &[3, 4, 5, 6, 7, 8, 9, 10, 12],
    },
    Shape {
        name: "decimal_read",
        takes: &[numbers("day", &[("day", 8)]), numbers("scale", &[("scale", 4)])],
        gives: &["refusal", "scale", "day", "micro", "mark", "source"],
        image: None,
        refuses: &[3, 4, 7],
    },
    Shape {
        name: "decimal_write",
        takes: &[numbers("time", &[("kind", 4), ("scale", 4), ("day", 8), ("micro", 8), ("decimal", 8), ("mark", 4), ("source", 8)])],
        gives: &["refusal", "day"],
        image: None,
        refuses: &[3, 4, 7, 12],
    },
    Shape {
        name: "sbt_date",
        takes: &[numbers("tick", &[("tick", 4)]), numbers("correlation", &[("tick", 4), ("scale", 4), ("day", 8), ("micro", 8), ("period", 8), ("back", 8), ("ahead", 8)]), numbers("receipt_day", &[("receipt_day", 8)]), numbers("receipt_micro", &[("receipt_micro", 8)]), given("days", 8), given("offsets", 8), numbers("last", &[("last", 8)])],
        gives: &["refusal", "scale", "day", "micro", "mark", "source"],
        image: None,
        refuses: &[5, 6, 7, 8, 17, 9, 10, 11],
    },
    Shape {
        name: "sbt_tick",
        takes: &[numbers("time", &[("kind", 4), ("scale", 4), ("day", 8), ("micro", 8), ("decimal", 8), ("mark", 4), ("source", 8)]), numbers("correlation", &[("tick", 4), ("scale", 4), ("day", 8), ("micro", 8), ("period", 8), ("back", 8), ("ahead", 8)]), given("days", 8), given("offsets", 8), numbers("last", &[("last", 8)])],
        gives: &["refusal", "count"],
        image: None,
        refuses: &[3, 4, 5, 6, 7, 8, 9, 10, 12],
    },
    Shape {
        name: "list_accepted",
        takes: &[given("days", 8), given("offsets", 8), numbers("last", &[("last", 8)])],
        gives: &["result"],
        image: None,
        refuses: &[],
    },
    Shape {
        name: "change",
        takes: &[numbers("time", &[("kind", 4), ("scale", 4), ("day", 8), ("micro", 8), ("decimal", 8), ("mark", 4), ("source", 8)]), numbers("to_scale", &[("to_scale", 4)]), given("days", 8), given("offsets", 8), numbers("last", &[("last", 8)])],
        gives: &["refusal", "scale", "day", "micro", "mark", "source"],
        image: None,
        refuses: &[3, 4, 5, 7, 9, 10, 11],
    },
    Shape {
        name: "cuc_fields_read",
        takes: &[given("bytes", 1)],
        gives: &["refusal", "seconds", "fraction"],
        image: None,
        refuses: &[1],
    },
    Shape {
        name: "cuc_fields_write",
        takes: &[numbers("seconds", &[("seconds", 4)]), numbers("fraction", &[("fraction", 4)]), lent("out", 1)],
        gives: &["refusal", "length"],
        image: Some(Image { length: 6, fixed: true, told: None }),
        refuses: &[3, 13],
    },
    Shape {
        name: "proteus_fields_read",
        takes: &[given("bytes", 1)],
        gives: &["refusal", "week", "h3", "second", "fraction"],
        image: None,
        refuses: &[1, 2, 3],
    },
    Shape {
        name: "proteus_fields_write",
        takes: &[numbers("week", &[("week", 4)]), numbers("h3", &[("h3", 4)]), numbers("second", &[("second", 4)]), numbers("fraction", &[("fraction", 4)]), lent("out", 1)],
        gives: &["refusal", "length"],
        image: Some(Image { length: 8, fixed: true, told: None }),
        refuses: &[3, 13],
    },
    Shape {
        name: "cryosat_fields_read",
        takes: &[given("bytes", 1)],
        gives: &["refusal", "day", "millisecond", "microsecond"],
        image: None,
        refuses: &[1, 3],
    },
    Shape {
        name: "cryosat_fields_write",
        takes: &[numbers("day", &[("day", 4)]), numbers("millisecond", &[("millisecond", 4)]), numbers("microsecond", &[("microsecond", 4)]), lent("out", 1)],
        gives: &["refusal", "length"],
        image: Some(Image { length: 8, fixed: true, told: None }),
        refuses: &[3, 13],
    },
    Shape {
        name: "siral_fields_read",
        takes: &[given("bytes", 1)],
        gives: &["refusal", "day", "millisecond", "microsecond", "extra"],
        image: None,
        refuses: &[1, 3],
    },
    Shape {
        name: "siral_fields_write",
        takes: &[numbers("day", &[("day", 4)]), numbers("millisecond", &[("millisecond", 4)]), numbers("microsecond", &[("microsecond", 4)]), numbers("extra", &[("extra", 4)]), lent("out", 1)],
        gives: &["refusal", "length"],
        image: Some(Image { length: 10, fixed: true, told: None }),
        refuses: &[3, 13],
    },
    Shape {
        name: "siral_run",
        takes: &[given("bytes", 1), numbers("told", &[("told", 8)]), lent("dates", 8)],
        gives: &["refusal", "count", "last"],
        image: None,
        refuses: &[1, 3, 16, 7, 13],
    },
    Shape {
        name: "season_read",
        takes: &[given("bytes", 1), lent("words", 8)],
        gives: &["refusal", "count"],
        image: None,
        refuses: &[14, 13],
    },
    Shape {
        name: "season_write",
        takes: &[given("words", 8), lent("out", 1)],
        gives: &["refusal", "length"],
        image: Some(Image { length: 24578, fixed: false, told: None }),
        refuses: &[14, 13],
    },
    Shape {
        name: "season_covering",
        takes: &[given("bytes", 1), numbers("receipt_day", &[("receipt_day", 8)]), numbers("receipt_micro", &[("receipt_micro", 8)])],
        gives: &["refusal", "first", "last"],
        image: None,
        refuses: &[14, 7, 15],
    },
    Shape {
        name: "text_read",
        takes: &[given("text", 1), given("days", 8), given("offsets", 8), numbers("last", &[("last", 8)])],
        gives: &["refusal", "scale", "day", "micro", "mark", "source"],
        image: None,
        refuses: &[1, 3, 5, 7, 9, 10],
    },
    Shape {
        name: "text_write",
        takes: &[numbers("time", &[("kind", 4), ("scale", 4), ("day", 8), ("micro", 8), ("decimal", 8), ("mark", 4), ("source", 8)]), given("days", 8), given("offsets", 8), numbers("last", &[("last", 8)]), numbers("form", &[("form", 4)]), lent("out", 1)],
        gives: &["refusal", "length"],
        image: Some(Image { length: 31, fixed: false, told: Some("form") }),
        refuses: &[3, 4, 5, 7, 9, 10, 12, 13],
    },
];
