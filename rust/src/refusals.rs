// Made by tools/interface.py --write; not by hand. The refusals, from refusals.txt.

use crate::error::Error;

/// Each refusal by its name, for a `match`; the first that applies in this order is given.
impl Error {
    /// 1: input length is none of the layout's.
    pub const LENGTH_IS_NONE: Error = Error { number: 1 };
    /// 2: marker byte or zero bits wrong.
    pub const MARKER_WRONG: Error = Error { number: 2 };
    /// 3: a field over its limit, bad character, date not in the calendar.
    pub const FIELD_OVER: Error = Error { number: 3 };
    /// 14: a rule of the season file broken.
    pub const SEASON_BROKEN: Error = Error { number: 14 };
    /// 16: a run's three fields differ, or a total above 484,848 units.
    pub const NOT_ONE_SECOND: Error = Error { number: 16 };
    /// 4: decimal day infinite or not a number.
    pub const DECIMAL_NOT_FINITE: Error = Error { number: 4 };
    /// 5: leap list not accepted.
    pub const LIST_NOT_ACCEPTED: Error = Error { number: 5 };
    /// 6: correlation not accepted.
    pub const CORRELATION_NOT_ACCEPTED: Error = Error { number: 6 };
    /// 7: input time or receipt outside its span.
    pub const OUTSIDE_SPAN: Error = Error { number: 7 };
    /// 15: no entry covers the receipt.
    pub const NO_ENTRY: Error = Error { number: 15 };
    /// 8: correlation not in force.
    pub const NOT_IN_FORCE: Error = Error { number: 8 };
    /// 17: result later than receipt.
    pub const RESULT_LATER: Error = Error { number: 17 };
    /// 9: leap list expired.
    pub const LIST_EXPIRED: Error = Error { number: 9 };
    /// 10: UTC second that its day lacks.
    pub const SECOND_LACKING: Error = Error { number: 10 };
    /// 11: result outside its scale's span.
    pub const RESULT_OUTSIDE: Error = Error { number: 11 };
    /// 12: time has no image.
    pub const NO_IMAGE: Error = Error { number: 12 };
    /// 13: output slice shorter than the image.
    pub const OUTPUT_SHORTER: Error = Error { number: 13 };

    /// What is wrong, in words.
    pub fn words(self) -> &'static str {
        match self {
            Error::LENGTH_IS_NONE => "input length is none of the layout's",
            Error::MARKER_WRONG => "marker byte or zero bits wrong",
            Error::FIELD_OVER => "a field over its limit, bad character, date not in the calendar",
            Error::SEASON_BROKEN => "a rule of the season file broken",
            Error::NOT_ONE_SECOND => "a run's three fields differ, or a total above 484,848 units",
            Error::DECIMAL_NOT_FINITE => "decimal day infinite or not a number",
            Error::LIST_NOT_ACCEPTED => "leap list not accepted",
            Error::CORRELATION_NOT_ACCEPTED => "correlation not accepted",
            Error::OUTSIDE_SPAN => "input time or receipt outside its span",
            Error::NO_ENTRY => "no entry covers the receipt",
            Error::NOT_IN_FORCE => "correlation not in force",
            Error::RESULT_LATER => "result later than receipt",
            Error::LIST_EXPIRED => "leap list expired",
            Error::SECOND_LACKING => "UTC second that its day lacks",
            Error::RESULT_OUTSIDE => "result outside its scale's span",
            Error::NO_IMAGE => "time has no image",
            Error::OUTPUT_SHORTER => "output slice shorter than the image",
            _ => "a refusal that this version does not know",
        }
    }
}
