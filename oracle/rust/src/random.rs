//! Random logs from a seed.

use crate::lines::*;
use crate::logs::{Logs, LOG_SIZE};
use crate::view::Name;

/// splitmix64: small enough to stand here, so that a seed gives the same logs everywhere.
pub struct Random(pub u64);

impl Random {
    fn next(&mut self) -> u64 {
        self.0 = self.0.wrapping_add(0x9e37_79b9_7f4a_7c15);
        let mut z = self.0;
        z = (z ^ (z >> 30)).wrapping_mul(0xbf58_476d_1ce4_e5b9);
        z = (z ^ (z >> 27)).wrapping_mul(0x94d0_49bb_1331_11eb);
        z ^ (z >> 31)
    }

    /// One of 0 up to and without `n`.
    fn below(&mut self, n: usize) -> usize {
        (self.next() % n as u64) as usize
    }

    fn byte(&mut self, low: u8, high: u8) -> u8 {
        low + self.below((high - low) as usize + 1) as u8
    }

    fn once_in(&mut self, n: usize) -> bool {
        self.below(n) == 0
    }

    fn of<'a, T>(&mut self, all: &'a [T]) -> &'a T {
        &all[self.below(all.len())]
    }
}

const NAMES: &[&Name] = &[b"FXA", b"SIU", b"ENL", b"TAS", b"GSP", b"LAD", b"LOD", b"fxa", b"A B", b"=0@", b"   "];

/// In which share of a log's lines something is damaged: in none, or in one of so many.
const DAMAGE: &[usize] = &[0, 0, 8, 3, 2, 1];

/// How the lines of a log end.
const ENDS: &[&[&[u8]]] = &[&[b"\n"], &[b"\r\n"], &[b"\n", b"\r\n", b"\r\r\n", b"\n\n"]];

/// Where the rules on lengths change.
const BOUNDS: &[usize] = &[0, 1, 2, 3, 4, 5, 6, 7, 8, 9, 10, 11, 16, 17, 18, 19, 23, 24, 25, 26, 29, 30, 34, 35, 36];

/// Logs of at least so many lines in all; in one of four each B and K line is asked for some names in place of the
/// table's.
pub fn random(logs: &mut Logs, seed: u64, lines: usize) {
    logs.part("random");
    let mut r = Random(seed);
    let mut made = 0;
    while made < lines {
        let size = match r.below(200) {
            // More than two of the program's windows of a mebibyte, over which the tables in force are carried on.
            0 => 40 * LOG_SIZE,
            1..=25 => r.below(300),
            _ => LOG_SIZE - r.below(200),
        };
        let log = log(&mut r, size);
        made += log.iter().filter(|&&b| b == b'\n').count();
        let names = if r.once_in(4) { (0..=r.below(8)).map(|_| name(&mut r)).collect() } else { Vec::new() };
        logs.asked(log, names);
    }
}

/// A name that a table may have, now and then one that none has.
fn name(r: &mut Random) -> Name {
    let strange: &[&Name] = &[b"XYZ", b"\xc3\xa9X"];
    let names = if r.once_in(5) { strange } else { NAMES };
    **r.of(names)
}

pub fn log(r: &mut Random, size: usize) -> Vec<u8> {
    let damage = *r.of(DAMAGE);
    let ends = *r.of(ENDS);
    let mut log = Vec::new();
    loop {
        let mut line = line(r);
        if damage > 0 && r.once_in(damage) {
            for _ in 0..=r.below(2) {
                hurt(r, &mut line);
            }
        }
        let end = *r.of(ends);
        if log.len() + line.len() + end.len() > size {
            // The last line of half of the logs is not closed.
            if r.once_in(2) {
                line.truncate(size - log.len());
                log.extend(line);
            }
            return log;
        }
        log.extend(line);
        log.extend(end);
    }
}

fn line(r: &mut Random) -> Vec<u8> {
    match r.below(100) {
        0..=34 => [fields(r, FIX), rest(r, 67)].concat(),
        35..=46 => [fields(r, DATA), rest(r, 40)].concat(),
        47..=52 => [fields(r, DECLARATION), text(r, 20)].concat(),
        53..=58 => [fields(r, TURNPOINT), text(r, 20)].concat(),
        59..=66 => [recorder(r), text(r, 12)].concat(),
        67..=72 => {
            let head = format!("H{}{}", *r.of(b"FOPXf") as char, r.of(&["DTE", "PLT", "FTY", "a:b"]));
            [head.into_bytes(), text(r, 30)].concat()
        }
        73..=80 => table(r, 'I', 35),
        81..=86 => table(r, 'J', 7),
        87..=89 => r.of(GOOD).as_bytes().to_vec(),
        90..=91 => [fields(r, EVENT), text(r, 20)].concat(),
        92..=93 => [fields(r, SATELLITES), heard(r)].concat(),
        94 => [fields(r, STATION), r.of(&["ABCD", "éCD", "0000"]).as_bytes().to_vec()].concat(),
        95 => [vec![*r.of(b"DEFGL")], text(r, 40)].concat(),
        96..=97 => text(r, 40),
        _ => (0..r.below(60)).map(|_| r.byte(0, 255)).collect(),
    }
}

/// What values are looked up in.
fn rest(r: &mut Random, most: usize) -> Vec<u8> {
    (0..r.below(most + 1)).map(|_| r.byte(b' ', b'~')).collect()
}

/// Satellites, some of them again; now and then half of one is left over.
fn heard(r: &mut Random) -> Vec<u8> {
    let list: Vec<u8> = (0..r.below(16)).flat_map(|_| format!("{:02}", r.below(100)).into_bytes()).collect();
    let again = list[..list.len() / 2 / 2 * 2].to_vec();
    let left = if r.once_in(20) { b"7".to_vec() } else { Vec::new() };
    [list, again, left].concat()
}

/// Digits, letters, marks, and now and then something else.
fn text(r: &mut Random, most: usize) -> Vec<u8> {
    let len = r.below(most + 1);
    let mut text = Vec::new();
    while text.len() < len {
        match r.below(40) {
            0 => text.extend("é".bytes()),
            1 => text.extend("€".bytes()),
            2 => text.push(r.byte(128, 255)),
            3 => text.push(r.byte(0, 31)),
            4..=6 => text.push(b':'),
            7..=20 => text.push(r.byte(b'0', b'9')),
            _ => text.push(r.byte(b' ', b'~')),
        }
    }
    text
}

/// All fields but the last. In three of four lines they are good, in the others about half stand at an edge.
fn fields(r: &mut Random, fields: Fields) -> Vec<u8> {
    let careful = !r.once_in(4);
    let mut line = Vec::new();
    for edges in &fields[..fields.len() - 1] {
        let good = edges[0].as_bytes();
        if !careful && r.once_in(2) {
            line.extend(r.of(edges).bytes());
        } else if good.iter().all(u8::is_ascii_digit) {
            // No digit above that of a good one, or above 1, so that the value is in range.
            line.extend(good.iter().map(|&b| r.byte(b'0', b.max(b'1'))));
        } else {
            line.extend(r.of(&edges[..edges.len().min(2)]).bytes());
        }
    }
    line
}

fn recorder(r: &mut Random) -> Vec<u8> {
    let id = r.below(100_000);
    match r.below(4) {
        0 => format!("A{}{:05}", r.byte(b'A', b'Z') as char, id).into_bytes(),
        1 => format!("A{}{:05}", r.of(&["FIL", "LXN", "XYZ", "NKL"]), id).into_bytes(),
        2 => format!("A{}{:03}", r.of(&["FLA", "CAM", "abc", "PFE"]), id % 1000).into_bytes(),
        _ => [vec![b'A'], (0..6).map(|_| r.byte(b' ', b'~')).collect()].concat(),
    }
}

/// Definitions behind each other from the first column behind the fixed ones on, with some that lie elsewhere.
fn table(r: &mut Random, letter: char, base: usize) -> Vec<u8> {
    let count = if r.once_in(30) { r.below(100) } else { r.below(6) };
    let mut line = format!("{}{:02}", letter, count).into_bytes();
    let mut start = base + 1;
    for _ in 0..count {
        if r.once_in(10) {
            start = if r.once_in(3) { r.below(100) } else { *r.of(&[base - 1, base, base + 1]) };
        }
        let end = if r.once_in(100) { r.below(100) } else { (start + r.below(4)).min(99) };
        line.extend(format!("{:02}{:02}", start, end).bytes());
        line.extend(r.of(NAMES).iter());
        start = (end + 1).min(99);
    }
    line
}

/// One damage: a byte or a character set, put in or taken out, the line cut, made longer, or joined with another.
fn hurt(r: &mut Random, line: &mut Vec<u8>) {
    let byte = if r.once_in(3) { r.byte(0, 255) } else { *r.of(b"0129+-NSEWAVIJKX: \r\0\x7f\x80\xff") };
    let at = r.below(line.len() + 1);
    match r.below(9) {
        0..=2 if at < line.len() => line[at] = byte,
        3 => line.insert(at, byte),
        4 if at < line.len() => {
            line.remove(at);
        }
        5 => {
            let end = (at + 2).min(line.len());
            line.splice(at..end, "é".bytes());
        }
        6 => line.truncate(*r.of(BOUNDS)),
        7 => line.truncate(at),
        8 => {
            let other = self::line(r);
            line.truncate(at);
            line.extend(other.get(at..).unwrap_or(b""));
        }
        _ => line.extend(text(r, 9)),
    }
}
