//! The two texts of a log held against each other. A difference belongs to a class of docs/DIFFERENCES.md or is unlisted.

use crate::logs::{Job, Part};
use crate::view::{low, rows, wrapped, How, Lookup, Row};
use std::collections::BTreeMap;

#[derive(Clone, Copy, PartialEq, Eq, PartialOrd, Ord, Debug)]
pub enum Class {
    Number,
    LastFixedColumn,
    ExceedsRest,
    SevenBytes,
    NotUtf8,
    Station,
    OddList,
    NoDigit,
    Source,
}

impl Class {
    pub const ALL: [Class; 9] = [
        Class::Number,
        Class::LastFixedColumn,
        Class::ExceedsRest,
        Class::SevenBytes,
        Class::NotUtf8,
        Class::Station,
        Class::OddList,
        Class::NoDigit,
        Class::Source,
    ];

    pub fn title(self) -> &'static str {
        match self {
            Class::Number => "an unreadable number: SyntaxError, here 3",
            Class::LastFixedColumn => "an extension from the last fixed column: panics or wraps, here 5",
            Class::ExceedsRest => "a value that exceeds the rest: panics, here 6",
            Class::SevenBytes => "a K line of seven bytes: SyntaxError, here read",
            Class::NotUtf8 => "a line that is not UTF-8: can't be asked, here read as bytes",
            Class::Station => "a D line that is not ASCII: read or SyntaxError, here 2",
            Class::OddList => "an F line whose list has an odd length, behind another fault: that one, here 1",
            Class::NoDigit => "an F line whose list has a byte that is no digit: read, here 3",
            Class::Source => "an L line with no source, or one that is not ASCII: read, here 1 or 2",
        }
    }
}

/// An input by its size and its text; of those of one size the first text is the smallest.
type Input = (usize, String);

#[derive(Default)]
pub struct Tally {
    pub logs: u64,
    pub lines: BTreeMap<Part, u64>,
    /// What this reader answered: lines by their kind, and lookups by that of their line.
    pub answers: BTreeMap<(&'static str, u8), u64>,
    pub panics: u64,
    /// How often, and the smallest input.
    pub classes: BTreeMap<Class, (u64, Input)>,
    pub unlisted: u64,
    pub shown: Vec<String>,
}

impl Tally {
    pub fn add(&mut self, other: Tally) {
        self.logs += other.logs;
        self.panics += other.panics;
        self.unlisted += other.unlisted;
        for (part, n) in other.lines {
            *self.lines.entry(part).or_default() += n;
        }
        for (answer, n) in other.answers {
            *self.answers.entry(answer).or_default() += n;
        }
        for (class, (n, smallest)) in other.classes {
            self.count(class, n, smallest);
        }
        self.shown.extend(other.shown);
    }

    /// Compares one log; `ours` is what `fields` wrote for it.
    pub fn compare(&mut self, job: &Job, ours: &[u8]) {
        self.logs += 1;
        let rows = rows(&job.log, &job.names);
        let mut texts: Vec<&[u8]> = ours.split(|&b| b == b'\n').collect();
        let end = texts.pop();
        if end != Some(b"") || texts.len() != rows.len() {
            let (theirs, ours) = (rows.len().to_string(), texts.len().to_string());
            self.unlisted(job, b"(the number of lines)", theirs.as_bytes(), ours.as_bytes());
            return;
        }
        *self.lines.entry(job.part).or_default() += rows.len() as u64;
        for (row, text) in rows.iter().zip(texts) {
            if !self.listed(row, text) {
                self.unlisted(job, row.line, &row.text(), text);
            }
        }
    }

    /// Whether a row is the same on both sides, or differs in ways that have a class; these are counted.
    fn listed(&mut self, row: &Row, ours: &[u8]) -> bool {
        self.panics += row.lookups.iter().filter(|l| l.answer == b"panic").count() as u64;
        self.panics += u64::from(row.head.ends_with(b"panic"));
        self.answer(kind(row.line), ours.splitn(4, |&b| b == b' ').nth(2));
        let class = match row.how {
            How::Plain => return self.same_but_lookups(row, ours),
            How::Number if ours == row.text() => Class::Number,
            How::SevenBytes if self.same_but_lookups(row, ours) => Class::SevenBytes,
            How::NotUtf8 if is_by_bytes(row, ours) => Class::NotUtf8,
            How::Otherwise(class) if ours == row.text() => class,
            _ => return false,
        };
        self.count(class, 1, (row.line.len(), row.line.escape_ascii().to_string()));
        true
    }

    fn answer(&mut self, of: &'static str, answer: Option<&[u8]>) {
        let number = |answer| std::str::from_utf8(answer).ok()?.split('@').next()?.parse().ok();
        if let Some(answer) = answer.and_then(number) {
            *self.answers.entry((of, answer)).or_default() += 1;
        }
    }

    fn count(&mut self, class: Class, n: u64, input: Input) {
        let (count, smallest) = self.classes.entry(class).or_insert_with(|| (0, input.clone()));
        *count += n;
        if input < *smallest {
            *smallest = input;
        }
    }

    fn unlisted(&mut self, job: &Job, line: &[u8], theirs: &[u8], ours: &[u8]) {
        self.unlisted += 1;
        if self.shown.len() < 10 {
            let (line, theirs, ours) = (line.escape_ascii(), theirs.escape_ascii(), ours.escape_ascii());
            self.shown.push(format!("{}: {}\n  the Rust:    {}\n  this reader: {}", job.part.1, line, theirs, ours));
        }
    }

    /// All is the same but for lookups, and each of those that differ has a class.
    fn same_but_lookups(&mut self, row: &Row, ours: &[u8]) -> bool {
        let answers = match answers(row, ours) {
            Some(answers) => answers,
            None => return false,
        };
        let of = if kind(row.line) == "K" { "K lookups" } else { "B lookups" };
        for (lookup, answer) in row.lookups.iter().zip(answers) {
            self.answer(of, Some(answer));
            if lookup.answer == answer {
                continue;
            }
            let (class, definition) = match (class_of(row.line, lookup, answer), &lookup.definition) {
                (Some(class), Some(definition)) => (class, definition),
                _ => return false,
            };
            let rest = &row.line[lookup.base..];
            let (start, end) = (definition.start_byte, definition.end_byte);
            let size = (rest.len() * 256 + start as usize) * 256 + end as usize;
            let told = format!("{}, rest \"{}\", {} to {}", kind(row.line), rest.escape_ascii(), start, end);
            self.count(class, 1, (size, told));
        }
        true
    }
}

fn kind(line: &[u8]) -> &'static str {
    match line.first() {
        Some(b'A') => "A",
        Some(b'B') => "B",
        Some(b'C') => "C",
        Some(b'D') => "D",
        Some(b'E') => "E",
        Some(b'F') => "F",
        Some(b'G') => "G",
        Some(b'H') => "H",
        Some(b'I') => "I",
        Some(b'J') => "J",
        Some(b'K') => "K",
        Some(b'L') => "L",
        _ => "any other",
    }
}

/// The Rust's row is that of the line with `~` for each byte from 128 up. Which byte stood where is told by their order.
fn is_by_bytes(row: &Row, ours: &[u8]) -> bool {
    let high = |bytes: &[u8]| -> Vec<u8> { bytes.iter().copied().filter(|b| !b.is_ascii()).collect() };
    low(ours) == row.text() && (row.tail.is_empty() || high(ours) == high(row.line))
}

/// This reader's answers to the lookups of a row whose other parts are the same.
fn answers<'o>(row: &Row, ours: &'o [u8]) -> Option<Vec<&'o [u8]>> {
    let mut rest = ours.strip_prefix(row.head.as_slice())?;
    let mut answers = Vec::new();
    for lookup in &row.lookups {
        rest = rest.strip_prefix(b" ")?.strip_prefix(&lookup.name)?.strip_prefix(b"=")?;
        let len = rest.iter().take_while(|b| b.is_ascii_digit() || matches!(b, b'@' | b'+')).count();
        let (answer, after) = rest.split_at(len);
        answers.push(answer);
        rest = after;
    }
    (rest == row.tail.as_slice()).then_some(answers)
}

fn class_of(line: &[u8], lookup: &Lookup, ours: &[u8]) -> Option<Class> {
    let definition = lookup.definition.as_ref()?;
    let (base, start, end) = (lookup.base, definition.start_byte as usize, definition.end_byte as usize);
    if lookup.answer != b"panic" {
        return None;
    }
    let wrapped = wrapped(std::str::from_utf8(line).ok()?, definition);
    if start == base && ours == b"5" && wrapped == "6" {
        return Some(Class::LastFixedColumn);
    }
    // Columns count from 1: the value starts inside the line and ends behind it.
    if base < start && start <= line.len() && line.len() < end && ours == b"6" && wrapped == "panic" {
        return Some(Class::ExceedsRest);
    }
    None
}
