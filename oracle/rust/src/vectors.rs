//! The sample that crates/fields is held to: a log, and what the Rust wrote for it.

use crate::lines::*;
use crate::random::{log, Random};
use crate::view::{lines, rows, How, Row};
use std::fs;

/// Lines of document 01, and what stands at the edges of the walk and of lookups.
const FIRST: &[&str] = &[
    "",
    "AFLA123",
    "HFFTYFRTYPE:X",
    "I013638FXA",
    "B1015304712345N01102500EA0152301561035",
    "B1015314712345N01102500EA01523x1561035",
    "HFFTY",
    "HFFTY:",
    "AC00069",
    "AX12345",
    "A12345",
    "AX123456",
    "A123456",
    "C230718092044+0+0+0000204",
    "C230718092044000000000204",
    "I00",
    "B1015304712345N01102500EA0152301561035",
    "I01",
    "I0x",
    "I013836FXA",
    "I063434LOW3636ONE3638FXA3940SIU3636FXA0102OLD",
    "B1015304712345N01102500EA0152301561",
    "B1015304712345N01102500EA0152301561035",
    "B1015304712345N01102500EA01523015610351",
    "B1015304712345N01102500EA015230156103512",
    "B1015304712345N01102500EA0152301561035123",
    "J010812HDT",
    "B1015304712345N01102500EA015230156103512",
    "I013x38FXA",
    "B1015304712345N01102500EA015230156103512",
    "I013699ALL",
    "B1015304712345N01102500EA0152301561",
    "B1015304712345N01102500EA01523015610123456789012345678901234567890123456789012345678901234567890123",
    "B1015304712345N01102500EA015230156101234567890123456789012345678901234567890123456789012345678901234",
    "AFLAé12",
    "AFé12345",
    "C5156040N00038120é",
    "HéABC:",
    "I01é638FX",
    "J01é638FX",
    "J0x",
    "J013836FXA",
    // K lines: a table of their own, set and removed by J lines alone. Of seven bytes they are left out, as a class.
    "K10153004512",
    "K10153",
    "K101530",
    "K1015300",
    "J010808ONE",
    "K1015300",
    "J010810WSP",
    "K10153004512",
    "K2460600451",
    "K101530045",
    "K1015x0045",
    "K101530é45",
    "K1015304é",
    "K256160045",
    "I013638FXA",
    "K10153004512",
    "I0x",
    "K10153004512",
    "J010810WSPX",
    "K10153004512",
    "B1015304712345N01102500EA0152301561035",
    "I013638FXA",
    "J010810WSP",
    "J0",
    "K10153004512",
    "B1015304712345N01102500EA0152301561035",
    "J060606LOW0808ONE0810WSP1112OAT0808WSP0102OLD",
    "K1015300",
    "K101530045",
    "K10153004512",
    "K101530045123",
    "B1015304712345N01102500EA0152301561035",
    "J00",
    "K10153004512",
    "J010899ALL",
    "K1015300123456789012345678901234567890123456789012345678901234567890123456789012345678901234567890",
    "K10153001234567890123456789012345678901234567890123456789012345678901234567890123456789012345678901",
    "K101530012345678901234567890123456789012345678901234567890123456789012345678901234567890123456789012",
    // Events, satellites, stations, remarks, signatures.
    "E101530PEV",
    "E101530PEVtext",
    "E101530PEé",
    "E101530PEVé",
    "E10153PEV",
    "E1015x0PEV",
    "E246060PEV",
    "E250000PEV",
    "E+1+2+3PEV",
    "F101530",
    "F1015300102030405",
    "F1015300101010101",
    "F101530636400990063",
    "F10153",
    "F101530010",
    "F1015x00102",
    "F246060",
    "F2561600102",
    "F101530é",
    "D1ABCD",
    "D2ABCD",
    "D3ABCD",
    "D1ABC",
    "D1ABCDE",
    "G",
    "Gé",
    "LPLT",
    "LPLT text",
    "LPLTé",
    "Z\r",
    "\r",
    "é",
    " ",
];

/// By the book: the pole, the date line, and days that a month has or lacks.
const VERDICTS: &[&str] = &[
    "C9000000N18000000E",
    "C9000001N01102500E",
    "C4712345N18000001W",
    "C4712345N09059999E",
    "C8959999S17959999W",
    "C290200092044290204000204",
    "C290201092044000000000204",
    "C230718092044290201000204",
    "C300200092044000000000204",
    "C310418092044000000000204",
    "C300418092044311218000204",
    "C000718092044000000000204",
    "C010018092044000000000204",
];

/// Writes `stdin` and `stdout` in the folder.
pub fn write(folder: &str) {
    let mut sample = sample();
    // What differs by a class is left out; that may change the table in force, so it is looked at again.
    loop {
        let text = joined(&sample);
        let rows = rows(&text, &[]);
        let kept: Vec<Vec<u8>> = rows.iter().filter(|row| is_same(row)).map(|row| row.line.to_vec()).collect();
        if kept.len() == rows.len() {
            let seen: Vec<u8> = rows.iter().flat_map(|row| [row.text(), b"\n".to_vec()].concat()).collect();
            fs::write(format!("{}/stdin", folder), &text).unwrap();
            fs::write(format!("{}/stdout", folder), seen).unwrap();
            println!("{} lines", rows.len());
            return;
        }
        sample = kept;
    }
}

/// Nothing in the row belongs to a class, but an unreadable number, whose answer is the paper's.
fn is_same(row: &Row) -> bool {
    matches!(row.how, How::Plain | How::Number) && row.lookups.iter().all(|lookup| lookup.answer != b"panic")
}

/// Each third line ends in CR LF, the last one in nothing.
fn joined(sample: &[Vec<u8>]) -> Vec<u8> {
    let mut text = Vec::new();
    for (n, line) in sample.iter().enumerate() {
        text.extend(line);
        if n + 1 < sample.len() {
            text.extend(if n % 3 == 2 || line.ends_with(b"\r") { &b"\r\n"[..] } else { b"\n" });
        }
    }
    text
}

fn sample() -> Vec<Vec<u8>> {
    let mut sample: Vec<Vec<u8>> = FIRST.iter().map(|line| line.as_bytes().to_vec()).collect();
    sample.extend((b'A'..=b'Z').map(|letter| format!("A{}12345", letter as char).into_bytes()));
    sample.extend(TRIPLES.as_bytes().chunks(3).map(|triple| [b"A", triple, b"Wat"].concat()));
    for good in GOOD {
        sample.extend(TABLES.map(<[u8]>::to_vec));
        let bounds = [1, 2, 3, 5, 6, 7, 8, 9, 10, 17, 18, 24, 25, 34, 35, good.len()];
        sample.extend(bounds.iter().filter(|&&len| len <= good.len()).map(|&len| good.as_bytes()[..len].to_vec()));
    }
    for fields in [FIX, DECLARATION, TURNPOINT, DATA, STATION, EVENT, SATELLITES, REMARK] {
        sample.extend(one_edge(fields));
    }
    for line in [one_edge(I_DEFINITIONS), one_edge(J_DEFINITIONS)].concat() {
        sample.push(line);
        sample.extend(OF_TABLES.map(<[u8]>::to_vec));
    }
    // Control bytes are left to the large run, so that the sample can be read.
    let random: Vec<u8> = (0..40).flat_map(|seed| [log(&mut Random(seed), 300), b"\n".to_vec()].concat()).collect();
    let legible = |line: &&[u8]| !line.is_empty() && !line.iter().any(u8::is_ascii_control);
    sample.extend(lines(&random).into_iter().filter(legible).map(<[u8]>::to_vec));
    sample.extend(VERDICTS.iter().map(|line| line.as_bytes().to_vec()));
    sample
}
