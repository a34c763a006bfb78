//! The stored lines, group by group. A group's title is a line too, and is refused as one.

const MONTHS: [&str; 12] = ["JAN", "FEB", "MAR", "APR", "MAY", "JUN", "JUL", "AUG", "SEP", "OCT", "NOV", "DEC"];
const LEAP: &str = "UTC=31-DEC-2016 23:59:60.000000";
const PREFIXES: [&str; 4] = ["", "UTC=", "TAI=", "GPS="];

pub struct Lines(Vec<u8>);

impl Lines {
    pub fn line(&mut self, line: impl AsRef<[u8]>) {
        self.0.extend(line.as_ref());
        self.0.push(b'\n');
    }

    /// Not as long as a form, so that it is refused with 1 and read as a title.
    pub fn title(&mut self, title: &str) {
        let mut title = format!("# {title}");
        while title.len() < 32 {
            title.push('.');
        }
        self.line("");
        self.line(title);
    }

    fn group(&mut self, title: &str, lines: &[&str]) {
        self.title(title);
        lines.iter().for_each(|line| self.line(line));
    }

    /// A time with each prefix and without one.
    fn in_each_scale(&mut self, text: &str) {
        PREFIXES.iter().for_each(|prefix| self.line(format!("{prefix}{text}")));
    }
}

pub fn lines() -> Vec<u8> {
    let mut made = Lines(Vec::new());
    made.group("document 01's example", &[LEAP, "31-DEC-2016 23:59:6"]);
    forms(&mut made);
    lengths(&mut made);
    dates(&mut made);
    spans(&mut made);
    clock(&mut made);
    characters(&mut made);
    names(&mut made);
    crate::steps::lines(&mut made);
    bytes(&mut made);
    made.0
}

fn forms(made: &mut Lines) {
    made.title("the four forms, in each scale");
    for text in ["24-FEB-2001 07:08:09", "24-FEB-2001 07:08:09.000000", "24-FEB-2001 07:08:09.012345"] {
        made.in_each_scale(text);
    }
    made.group(
        "marked cases 1 to 3",
        &["UTC=06-JAN-1980 00:00:00.000000", "GPS=06-JAN-1980 00:00:00.000000", LEAP, "UTC=01-JAN-2017 00:00:00.000000"],
    );
    made.title("every part of a second has its digits");
    for place in 0..6 {
        for digit in [1, 9] {
            made.line(format!("TAI=01-JAN-2000 00:00:00.{:06}", digit * 10_u32.pow(place)));
        }
    }
}

fn lengths(made: &mut Lines) {
    made.title("every length from 0 to 40, with a prefix: 24 and 31 are forms");
    let long = format!("{LEAP}000000000");
    (0..=40).for_each(|n| made.line(&long[..n]));
    made.title("every length from 0 to 36, without one: 20 and 27 are forms");
    (0..=36).for_each(|n| made.line(&long[4..4 + n]));
    made.group(
        "a form with one character before or behind it",
        &[
            " 31-DEC-2016 23:59:60", "31-DEC-2016 23:59:60 ", " UTC=31-DEC-2016 23:59:60", "UTC=31-DEC-2016 23:59:60 ",
            " 31-DEC-2016 23:59:60.000000", "31-DEC-2016 23:59:60.000000 ", " UTC=31-DEC-2016 23:59:60.000000",
            "UTC=31-DEC-2016 23:59:60.000000 ", "31-DEC-2016 23:59:60.", "31-DEC-2016 23:59:60.0000", "31-DEC-2016 23:59:60.000",
        ],
    );
}

fn dates(made: &mut Lines) {
    made.title("the first and last day of each month, and the days around them");
    for year in [2023, 2024] {
        for month in MONTHS {
            for day in [0, 1, 28, 29, 30, 31, 32] {
                made.line(format!("{day:02}-{month}-{year} 12:00:00"));
            }
        }
    }
    made.title("leap days; TAI where UTC is expired");
    let inside = [1972, 1976, 1999, 2000, 2001, 2004, 2096, 2099];
    let outside = [2100, 2104, 2400, 1600, 1700, 1900, 1971, 0, 1, 4, 100, 400, 9996, 9999];
    for year in inside.iter().chain(&outside) {
        made.line(format!("TAI=29-FEB-{year:04} 00:00:00"));
        made.line(format!("TAI=30-FEB-{year:04} 00:00:00"));
    }
    made.title("years, in each scale");
    let before = [0, 1, 9, 10, 99, 100, 999, 1000, 1582, 1899, 1900, 1970, 1971];
    let from_1972 = [1972, 1979, 1980, 1981, 2024, 2025, 2038, 2098, 2099, 2100, 2101, 3000, 9998, 9999];
    for year in before.iter().chain(&from_1972) {
        made.in_each_scale(&format!("01-JAN-{year:04} 00:00:00"));
    }
    made.title("every year of the list");
    (1972..=2025).for_each(|year| made.line(format!("31-DEC-{year} 23:59:59.999999")));
}

fn spans(made: &mut Lines) {
    made.group(
        "the ends of TAI",
        &[
            "TAI=31-DEC-1971 23:59:59.999999", "TAI=01-JAN-1972 00:00:00.000000", "TAI=01-JAN-1972 00:00:09.999999",
            "TAI=01-JAN-1972 00:00:10.000000", "TAI=31-DEC-2099 23:59:59.999999", "TAI=01-JAN-2100 00:00:00.000000",
        ],
    );
    made.group(
        "the ends of UTC and of the list",
        &[
            "UTC=31-DEC-1971 23:59:59.999999", "UTC=31-DEC-1971 23:59:60.000000", "UTC=01-JAN-1972 00:00:00.000000",
            "UTC=30-DEC-2024 23:59:59.999999", "UTC=31-DEC-2024 23:59:59.999999", "UTC=31-DEC-2024 23:59:60.000000",
            "UTC=01-JAN-2025 00:00:00.000000", "UTC=31-DEC-2025 23:59:60.000000", "UTC=31-DEC-2099 23:59:59.999999",
            "UTC=31-DEC-2099 23:59:60.000000", "UTC=01-JAN-2100 00:00:00.000000", "UTC=31-DEC-2100 23:59:60.999999",
        ],
    );
    made.group(
        "the ends of GPS, and the 19 s at its end that TAI lacks",
        &[
            "GPS=05-JAN-1980 23:59:40.999999", "GPS=05-JAN-1980 23:59:41.000000", "GPS=05-JAN-1980 23:59:59.999999",
            "GPS=06-JAN-1980 00:00:00.000000", "GPS=31-DEC-2099 23:59:40", "GPS=31-DEC-2099 23:59:40.999999",
            "GPS=31-DEC-2099 23:59:41", "GPS=31-DEC-2099 23:59:41.000000", "GPS=31-DEC-2099 23:59:59",
            "GPS=31-DEC-2099 23:59:59.999999", "GPS=01-JAN-2100 00:00:00.000000",
        ],
    );
}

fn clock(made: &mut Lines) {
    made.title("hours, minutes and seconds, and what is over their limits");
    let right = "00:00:00 09:09:09 10:10:10 19:59:59 23:00:00 23:59:59";
    let over = "24:00:00 29:00:00 99:00:00 00:60:00 00:99:00 23:60:00 00:00:61 00:00:99 23:59:61 23:59:99 24:59:60 99:99:99";
    for time in right.split(' ').chain(over.split(' ')) {
        made.in_each_scale(&format!("31-DEC-2016 {time}"));
    }
    made.title("second 60 in another minute");
    for time in ["00:00:60", "00:59:60", "22:59:60", "23:00:60", "23:58:60", "13:59:60"] {
        made.in_each_scale(&format!("31-DEC-2016 {time}.500000"));
    }
    made.title("second 60 on another day: refused in TAI and GPS, lacking in UTC, expired, outside");
    let listed = "30-DEC-2016 01-JAN-2017 31-DEC-2017 30-JUN-2016 30-JUN-1972 29-JUN-1972 31-MAR-1980 30-SEP-1980 31-DEC-1980";
    let others = "31-DEC-2024 30-JUN-2025 31-DEC-2099 31-DEC-1971 31-DEC-2100 31-JUN-2015 00-DEC-2016";
    for day in listed.split(' ').chain(others.split(' ')) {
        made.in_each_scale(&format!("{day} 23:59:60"));
    }
}

/// One text with other bytes at each place, one place at a time.
fn spoilt(made: &mut Lines, text: &str, other: &[u8]) {
    for at in 0..text.len() {
        for &byte in other {
            let mut line = text.as_bytes().to_vec();
            line[at] = byte;
            made.line(line);
        }
    }
}

fn characters(made: &mut Lines) {
    made.title("a character that is nowhere right, at every place of the four forms");
    for text in ["31-DEC-2016 23:59:60", &LEAP[..24], "31-DEC-2016 23:59:60.000000", LEAP] {
        spoilt(made, text, b"x");
    }
    made.title("the neighbours of the digits, a mark and a digit, at every place");
    spoilt(made, "TAI=11-NOV-2011 11:11:11.111111", b"/:0");
    made.title("the other marks, at every place");
    spoilt(made, "GPS=22-DEC-2002 22:22:22.222222", b" -.");
}

fn names(made: &mut Lines) {
    made.title("prefixes");
    let prefixes = "UTC TAI GPS utc Utc UTc tai gps UT1 UT2 GLO BDT GMT TAC UTI GPC UAI TTC GTC SPG IAT CTU === 000";
    for prefix in prefixes.split(' ') {
        made.line(format!("{prefix}=31-DEC-2016 23:59:59"));
        made.line(format!("{prefix}=31-DEC-2016 23:59:59.000000"));
    }
    for prefix in ["UTC:", "UTC ", "TAI-", "GPS+", "=UTC", "UTC0", "TAI<", "GPS>"] {
        made.line(format!("{prefix}31-DEC-2016 23:59:59"));
    }
    made.title("month names");
    let names = "JAN Jan jan JAn JaN jAN JNA NAJ JAX XAN JXN MAN JAY MAI OKT DEZ ENE JUM SEC DEP AUL JAG FEN APY 001 --- ...";
    for name in names.split(' ') {
        made.line(format!("15-{name}-2000 12:00:00"));
    }
    for month in MONTHS {
        made.line(format!("15-{}-2000 12:00:00.000001", month.to_lowercase()));
        made.line(format!("15-{month}-2000 12:00:00.000001"));
    }
}

fn bytes(made: &mut Lines) {
    made.title("a carriage return is part of the line, and so is every other byte");
    // Each form, one byte less of it, and nothing.
    for text in ["", &LEAP[4..23], &LEAP[4..24], &LEAP[..23], &LEAP[..24], &LEAP[4..30], &LEAP[4..], &LEAP[..30], LEAP] {
        for byte in [b'\r', b'\t', 0, 11, 12, 127, 128, 255] {
            made.line([text.as_bytes(), &[byte]].concat());
        }
    }
    made.title("bytes 0 and 255, at every place, and digits with a high bit");
    spoilt(made, LEAP, &[0, 255]);
    spoilt(made, "31-DEC-2016 23:59:59", &[0xB0, 0xB1]);
    made.title("lines of one byte alone");
    for byte in [0, b'\r', b' ', b'0', 128, 255] {
        for length in [1, 20, 24, 27, 31] {
            made.line(vec![byte; length]);
        }
    }
    made.group("empty lines at the end", &["", "", ""]);
}
