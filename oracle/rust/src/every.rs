//! Every case, where all of them can be had.

use crate::lines::*;
use crate::logs::{Logs, LOG_SIZE};

pub fn every(logs: &mut Logs) {
    numbers(logs);
    repeats(logs);
    first_bytes(logs);
    makers(logs);
    verdicts(logs);
    columns(logs);
    lengths(logs);
    logs.part("three fields of a line, each at each edge");
    for fields in
        [FIX, DECLARATION, TURNPOINT, DATA, I_DEFINITIONS, J_DEFINITIONS, STATION, EVENT, SATELLITES, REMARK]
    {
        three_edges(fields, &mut |line| logs.line(line));
    }
    parted(logs);
    tables(logs);
    lookups(logs);
    ends(logs);
    logs.close();
}

/// Each text over an alphabet, put over the columns from `at` on.
fn texts(logs: &mut Logs, good: &str, at: usize, width: usize, alphabet: &[u8]) {
    let mut line = good.as_bytes().to_vec();
    for n in 0..alphabet.len().pow(width as u32) {
        let mut left = n;
        for column in &mut line[at..at + width] {
            *column = alphabet[left % alphabet.len()];
            left /= alphabet.len();
        }
        logs.line(&line);
    }
}

fn numbers(logs: &mut Logs) {
    let bytes: Vec<u8> = (0..=255).collect();
    let ascii = &bytes[..128];
    let marks = b"0123456789+-x";
    let fix = "B1015304712345N01102500EA0000000000";
    let declaration = "C230718092044240718000000";
    let turnpoint = "C0000000N00000000E";
    // With a rest and without one, which is a class by itself.
    let data = "K101530090";
    let bare = "K101530";
    let event = "E101530PEVtext";
    let satellites = "F1015300102";
    let two_bytes: [(&str, &[usize]); 10] = [
        (fix, &[1, 3, 5, 7]),
        (declaration, &[1, 3, 5, 7, 9, 11, 13, 15, 17]),
        (turnpoint, &[1]),
        (data, &[1, 3, 5]),
        (bare, &[1, 3, 5]),
        (event, &[1, 3, 5]),
        (satellites, &[1, 3, 5]),
        ("I00", &[1]),
        ("I013638FXA", &[1, 3, 5]),
        ("J013638FXA", &[1, 3, 5]),
    ];
    logs.part("two bytes as u8");
    for (good, columns) in two_bytes {
        for &at in columns {
            texts(logs, good, at, 2, &bytes);
        }
    }
    logs.part("two bytes as a satellite");
    texts(logs, satellites, 7, 2, &bytes);
    texts(logs, satellites, 9, 2, &bytes);
    logs.part("two bytes as i8");
    texts(logs, declaration, 23, 2, &bytes);
    logs.part("three bytes as u8");
    texts(logs, turnpoint, 9, 3, &bytes);
    logs.part("three ASCII bytes before and behind 0 as u16");
    texts(logs, declaration, 19, 3, ascii);
    texts(logs, declaration, 20, 3, ascii);
    logs.part("three ASCII bytes before and behind 00 as i16");
    texts(logs, fix, 25, 3, ascii);
    texts(logs, fix, 32, 3, ascii);
    logs.part("four and five of 0123456789+-x as u16");
    texts(logs, declaration, 19, 4, marks);
    texts(logs, turnpoint, 3, 5, marks);
    texts(logs, turnpoint, 12, 5, marks);
    logs.part("five of 0123456789+-x as i16");
    texts(logs, fix, 25, 5, marks);
    texts(logs, fix, 30, 5, marks);
}

/// Every row of up to six of these satellites, around both words of a set: repeats of each.
fn repeats(logs: &mut Logs) {
    logs.part("rows of satellites");
    rows_of(&[b"00", b"07", b"63", b"64", b"99"], 6, &mut |list| logs.line(&[b"F101530", list].concat()));
}

fn first_bytes(logs: &mut Logs) {
    logs.part("every first byte");
    for first in 0..=255 {
        logs.line(&[first]);
        for good in GOOD {
            let mut line = good.as_bytes().to_vec();
            line[0] = first;
            logs.line(&line);
        }
    }
}

fn verdicts(logs: &mut Logs) {
    logs.part("every day of a hundred years, and the minutes at every degree");
    for day in 0..=32 {
        for month in 0..=13 {
            for year in 0..=99 {
                let date = format!("{day:02}{month:02}{year:02}");
                logs.line(format!("C{date}092044000000000204").as_bytes());
                logs.line(format!("C230718092044{date}000204").as_bytes());
            }
        }
    }
    for thousandths in [0, 1, 59999, 60000, 60001] {
        for degrees in 0..=91 {
            logs.line(format!("C{degrees:02}{thousandths:05}N01102500E").as_bytes());
            logs.line(format!("B101530{degrees:02}{thousandths:05}S01102500EA0152301561").as_bytes());
        }
        for degrees in 0..=181 {
            logs.line(format!("C4712345N{degrees:03}{thousandths:05}E").as_bytes());
            logs.line(format!("B1015304712345N{degrees:03}{thousandths:05}WA0152301561").as_bytes());
        }
    }
}

fn makers(logs: &mut Logs) {
    logs.part("every maker letter, triples");
    for letter in 0..=255 {
        for tail in [&b"12345"[..], b"12345X", b"12345\xc3\xa9", b"12345\xa9"] {
            logs.line(&[b"A", &[letter][..], tail].concat());
        }
    }
    let letters: Vec<u8> = (b'A'..=b'Z').collect();
    texts(logs, "A...123", 1, 3, &letters);
    texts(logs, "A...12345", 1, 3, &letters);
    for triple in TRIPLES.as_bytes().chunks(3) {
        for column in 0..3 {
            for byte in 0..=255 {
                let mut triple = triple.to_vec();
                triple[column] = byte;
                logs.line(&[b"A", triple.as_slice(), b"Wat"].concat());
            }
        }
    }
}

fn columns(logs: &mut Logs) {
    logs.part("every column, every byte");
    for good in GOOD {
        for column in 0..good.len() {
            logs.lines(&TABLES);
            for byte in 0..=255 {
                let mut line = good.as_bytes().to_vec();
                line[column] = byte;
                logs.line(&line);
                // What the tables in force are then, a line of each kind that has values shows.
                if good.starts_with(['I', 'J']) {
                    logs.lines(&OF_TABLES);
                }
            }
        }
    }
}

/// Each line cut at every length and made longer, in a log with others, before CR LF, and as a log's last line with no
/// LF.
fn lengths(logs: &mut Logs) {
    logs.part("every length");
    let longer: [&[u8]; 9] = [b"0", b"00", b"3638FXA", b":", b"\xc3\xa9", b"\xff", b"\r", b"\r\r", b"\0"];
    for good in GOOD {
        let good = good.as_bytes();
        let cut = (0..=good.len()).map(|len| good[..len].to_vec());
        for line in cut.chain(longer.iter().map(|more| [good, more].concat())) {
            logs.lines(&TABLES);
            logs.line(&line);
            logs.lines(&OF_TABLES);
            logs.line(&[&line, &b"\r"[..]].concat());
            logs.alone([&TABLES[..], &[&line]].concat().join(&b'\n'));
        }
    }
}

/// What parts the forms of A lines, and the name and data of H lines.
fn parted(logs: &mut Logs) {
    logs.part("digits and others in A, colons in H");
    rows_of(&[b"7", b"X", b"\xc3\xa9", b"\xff"], 8, &mut |text| logs.line(&[b"A", text].concat()));
    rows_of(&[b"7", b"X"], 11, &mut |text| logs.line(&[b"A", text].concat()));
    rows_of(&[b"a", b":", b"\xc3\xa9", b"\xff"], 6, &mut |text| logs.line(&[b"HFABC", text].concat()));
}

fn tables(logs: &mut Logs) {
    logs.part("counts, and definitions in turn");
    let many: Vec<u8> = (0..100).flat_map(|n| format!("3638{:03}", n).into_bytes()).collect();
    for letter in ["I", "J"] {
        for count in 0..100usize {
            let head = format!("{}{:02}", letter, count).into_bytes();
            for given in 0..=100 {
                logs.line(&[&head, &many[..7 * given]].concat());
            }
            for len in (7 * count).saturating_sub(7)..700.min(7 * count + 7) {
                logs.line(&[&head, &many[..len]].concat());
            }
        }
        for count in 0..10 {
            logs.line(&[format!("{}+{}", letter, count).as_bytes(), &many[..7 * count]].concat());
        }
    }
    // The first definition that is bad decides. 9 is a fixed column of a B line, and in the rest of a K line.
    let in_turn: [(&str, [&[u8]; 5]); 2] = [
        ("I", [b"3638FXA", b"x638FXA", b"36x8FXA", b"3836FXA", b"+9+9   "]),
        ("J", [b"0810WDI", b"x810WDI", b"08x0WDI", b"1008WDI", b"+9+9   "]),
    ];
    for (letter, words) in in_turn {
        rows_of(&words, 5, &mut |text| {
            logs.line(&[format!("{}{:02}", letter, text.len() / 7).as_bytes(), text].concat());
            logs.lines(&OF_TABLES);
        });
    }
}

/// Every definition that a line can hold, on rests of every length around all ends.
fn lookups(logs: &mut Logs) {
    logs.part("every definition on every length of a rest");
    for (letter, fixed, longest) in [("I", "B1015304712345N01102500EA0152301561", 70), ("J", "K101530", 98)] {
        for start in 0..100 {
            let ends: Vec<usize> = (start..100).collect();
            for ends in ends.chunks(99) {
                let mut block = format!("{}{:02}", letter, ends.len());
                for end in ends {
                    block += &format!("{:02}{:02}{:03}", start, end, end);
                }
                for len in 0..=longest {
                    block += &format!("\n{}{}", fixed, "7".repeat(len));
                }
                logs.together((block + "\n").as_bytes());
            }
        }
    }
}

/// Line ends, and long logs and lines.
fn ends(logs: &mut Logs) {
    logs.part("line ends, long logs and lines");
    rows_of(&[b"\n", b"\r", b"I00", b"Z"], 5, &mut |text| logs.alone(text.to_vec()));
    for size in LOG_SIZE - 1..=LOG_SIZE + 1 {
        for good in GOOD {
            logs.alone(good.bytes().chain(std::iter::repeat(b'7')).take(size).collect());
            logs.alone(good.bytes().chain([b'\n']).cycle().take(size).collect());
        }
        logs.alone(vec![b'\n'; size]);
    }
}
