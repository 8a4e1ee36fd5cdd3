//! Lines of each kind, and their fields at the edges.

/// Lines that are accepted, of each kind and form, and some of no letter of a record.
pub const GOOD: &[&str] = &[
    "AC00069",
    "AX12345FLIGHT:1",
    "AFLA123",
    "ACAMWatFoo",
    "AFIL01460",
    "AXYZ01460FLIGHT:1",
    "B1015304712345N01102500EA0152301561",
    "B1015304712345N01102500EA0152301561035",
    "B2460609060000S18060000WV-0042+0012035041234",
    "C230718092044000000000204",
    "C230718092044240718+123-4Foo task",
    "C5156040N00038120W",
    "C5156040S18000000ELBZ-Leighton Buzzard NE",
    "HFDTE230718",
    "HFFTYFRTYPE:LXNAV,LX8000F",
    "HOPLTPILOT:J. Åberg: or so",
    "HXABC:",
    "I00",
    "I013638FXA",
    "I033638FXA3940SIU4143ENL",
    "J00",
    "J010812HDT",
    "D1ABCD",
    "D2ABCD",
    "E101530PEV",
    "E101530PEVtext",
    "F101530",
    "F1015300102",
    "F101530006364990102636400",
    "G",
    "Gsigned",
    "K10153000090",
    "LPLT",
    "LXXX: text",
    "Zeta",
    "beta",
    "é",
];

/// A table in force for each kind of line that has values, and a line of each that has them.
pub const TABLES: [&[u8]; 2] = [b"I033638FXA3940SIU4143ENL", b"J030810WDI1113WSP1415OAT"];
pub const OF_TABLES: [&[u8]; 2] = [b"B1015304712345N01102500EA015230156103504123", b"K101530090045-2"];

/// The codes of the 23 makers.
pub const TRIPLES: &str = "ACTCAMCNIDSXEWAFILFLAFLYGCSIMILGSLXNLXVNAVNTENKLPESPFEPRTSCHSDITRIZAN";

/// A line's fields, each with its edges. The first of each is good, and so are most of the second.
pub type Fields = &'static [&'static [&'static str]];

const HOURS: &[&str] = &["10", "00", "23", "24", "25", "99", "+9", "-1", "1x"];
const MINUTES: &[&str] = &["15", "00", "59", "60", "61", "99", "+6", "-0", " 1"];
const SECONDS: &[&str] = &["30", "00", "59", "60", "61", "99", "+0", "--", "1."];
const DAY: &[&str] = &["23", "01", "00", "31", "32", "99", "+0", "-1", "x1"];
const MONTH: &[&str] = &["07", "01", "00", "12", "13", "99", "+0", "-1", "0x"];
const YEAR: &[&str] = &["18", "01", "00", "99", "+0", "-1", "1x"];
const LATITUDE: &[&str] = &["47", "00", "89", "90", "91", "99", "+9", "-0", "x0"];
const LONGITUDE: &[&str] = &["011", "000", "179", "180", "181", "255", "256", "999", "+18", "-00", "0x0"];
const THOUSANDTHS: &[&str] =
    &["12345", "00000", "59999", "60000", "60001", "65535", "65536", "99999", "+0012", "-0000", "1234x", "0250+"];
const NORTH: &[&str] = &["N", "S", "E", "W", "n", "0", "X"];
const EAST: &[&str] = &["E", "W", "N", "S", "e", "0", "X"];
const VALID: &[&str] = &["A", "V", "a", "0", "X"];
const HEIGHT: &[&str] =
    &["01523", "00000", "-0000", "+0000", "32767", "32768", "-9999", "-0042", "+0012", "99999", "0-012", "+-001", "x1561"];

pub const FIX: Fields = &[
    &["B"],
    HOURS,
    MINUTES,
    SECONDS,
    LATITUDE,
    THOUSANDTHS,
    NORTH,
    LONGITUDE,
    THOUSANDTHS,
    EAST,
    VALID,
    HEIGHT,
    HEIGHT,
    &["035", "", "é"],
];

pub const DECLARATION: Fields = &[
    &["C"],
    DAY,
    MONTH,
    YEAR,
    HOURS,
    MINUTES,
    SECONDS,
    &["24", "00", "31", "32", "+0", "x1"],
    &["07", "00", "12", "13", "+0", "0x"],
    &["18", "00", "99", "+0", "-0"],
    &["0002", "0000", "9999", "+002", "-001", "00x2"],
    &["04", "00", "99", "-0", "-9", "+9", "x4"],
    &["", "Foo task", "é"],
];

pub const TURNPOINT: Fields = &[&["C"], LATITUDE, THOUSANDTHS, NORTH, LONGITUDE, THOUSANDTHS, EAST, &["", "LBZ", "é"]];

pub const DATA: Fields = &[&["K"], HOURS, MINUTES, SECONDS, &["090", "", "0", "é"]];

pub const STATION: Fields =
    &[&["D"], &["1", "2", "3", "0", "+", "é"], &["ABCD", "0000", "ABC", "ABCDE", "éCD", "ABé", ""]];

pub const EVENT: Fields =
    &[&["E"], HOURS, MINUTES, SECONDS, &["PEV", "001", "PE", "éV", "PEé"], &["", "text", "é"]];

/// Around the two words of a set, a digit's neighbours, signs.
const SATELLITE: &[&str] =
    &["01", "02", "00", "63", "64", "99", "+1", "-1", "1+", " 1", "1x", "x1", "/0", ":0", "0/", "0:"];

pub const SATELLITES: Fields =
    &[&["F"], HOURS, MINUTES, SECONDS, SATELLITE, SATELLITE, &["", "12", "9", "é", "\u{7f}0"]];

pub const REMARK: Fields = &[&["L"], &["PLT", "XXX", "PL", "P", "", "éT", "Pé"], &["", " text", "é"]];

/// Around the last fixed column of a B line.
pub const I_DEFINITIONS: Fields = &[
    &["I02", "I01", "I03", "I+2", "I0x", "J02"],
    &["36", "00", "02", "35", "34", "99", "+0", "x6"],
    &["38", "00", "35", "36", "37", "99", "+9", "3x"],
    &["FXA", "fxa", "A B", "=0@"],
    &["39", "00", "02", "35", "37", "99", "+0", "-1"],
    &["40", "00", "35", "39", "38", "99", "+9", "4-"],
    &["SIU", "FXA"],
];

/// The same around that of a K line.
pub const J_DEFINITIONS: Fields = &[
    &["J02", "J01", "J03", "J+2", "J0x", "I02"],
    &["08", "00", "02", "07", "06", "99", "+0", "x8"],
    &["10", "00", "07", "08", "09", "99", "+9", "1x"],
    &["WDI", "wdi", "A B", "=0@"],
    &["11", "00", "02", "07", "09", "99", "+0", "-1"],
    &["13", "00", "07", "11", "10", "99", "+9", "1-"],
    &["WSP", "WDI"],
];

/// The line with some fields set to others, the rest good.
fn with(fields: Fields, set: &[(usize, &str)]) -> Vec<u8> {
    let mut words: Vec<&str> = fields.iter().map(|edges| edges[0]).collect();
    for &(field, word) in set {
        words[field] = word;
    }
    words.concat().into_bytes()
}

/// The good line, and each field at each other edge.
pub fn one_edge(fields: Fields) -> Vec<Vec<u8>> {
    let others = fields.iter().enumerate().flat_map(|(a, edges)| edges[1..].iter().map(move |x| with(fields, &[(a, x)])));
    std::iter::once(with(fields, &[])).chain(others).collect()
}

/// Each choice of three fields, each at each of its edges.
pub fn three_edges(fields: Fields, line: &mut dyn FnMut(&[u8])) {
    for (c, third) in fields.iter().enumerate() {
        for (b, second) in fields.iter().enumerate().take(c) {
            for (a, first) in fields.iter().enumerate().take(b) {
                for x in first.iter() {
                    for y in second.iter() {
                        for z in third.iter() {
                            line(&with(fields, &[(a, x), (b, y), (c, z)]));
                        }
                    }
                }
            }
        }
    }
}

/// Each row of up to `most` of the words.
pub fn rows_of(words: &[&[u8]], most: usize, row: &mut dyn FnMut(&[u8])) {
    fn go(words: &[&[u8]], left: usize, text: &mut Vec<u8>, row: &mut dyn FnMut(&[u8])) {
        row(text);
        if left > 0 {
            for word in words {
                let len = text.len();
                text.extend(*word);
                go(words, left - 1, text, row);
                text.truncate(len);
            }
        }
    }
    go(words, most, &mut Vec::new(), row);
}
