//! Each accepted line printed twice (K14): its printed text is read and printed again by the same program, and what is
//! shown then is held to what was shown first.

use crate::logs::Job;
use crate::view::lines;

/// What became of lines at their second printing.
#[derive(Default)]
pub struct Settled {
    /// Accepted again, with every field, text and place as before, and printed as the same text.
    pub same: u64,
    /// The same, but for an A line's texts, which stand two columns on: its maker's letter was printed as three.
    pub letters: u64,
    /// The same, but for a flight date of zeros with a plus, which is none then.
    pub flights: u64,
    /// A lines in letter form with an unknown maker: refused then, read as another, or printed otherwise.
    pub unknown: u64,
    pub late: u64,
    pub shown: Vec<String>,
}

/// The line's letter and answer with its fields, and its printed text: of an accepted line alone.
fn printed<'r>(line: &[u8], row: &'r [u8]) -> Option<(&'r [u8], &'r [u8])> {
    let behind = row.iter().position(|&b| b == b' ')? + 1;
    let row = &row[behind..];
    let answer = row.splitn(3, |&b| b == b' ').nth(1)?;
    if answer == b"12" {
        let at = row.windows(2).position(|w| w == b" =")?;
        return Some((&row[..at], &row[at + 2..]));
    }
    if answer != b"0" {
        return None;
    }
    // The verdict, and then the text, which begins as the line does.
    let starts = |w: &[u8]| (w.starts_with(b" y =") || w.starts_with(b" n =")) && w.get(4) == line.first();
    let at = row.windows(5).position(starts)?;
    Some((&row[..at], &row[at + 4..]))
}

/// The log with each accepted line as it was printed. Each line is closed by CR and LF, so that a CR of its own stays.
pub fn again(job: &Job, text: &[u8]) -> Job {
    let mut log = Vec::with_capacity(job.log.len() + job.log.len() / 8);
    for (line, row) in lines(&job.log).into_iter().zip(text.split(|&b| b == b'\n')) {
        log.extend(printed(line, row).map_or(line, |(_, printed)| printed));
        log.extend(b"\r\n");
    }
    Job { part: job.part, names: job.names.clone(), log }
}

fn in_letter_form(line: &[u8]) -> bool {
    line.first() == Some(&b'A') && line.len() >= 7 && line[2..7].iter().all(u8::is_ascii_digit)
}

/// The places of an A line's two texts, as `2+5`, two columns on.
fn moved(fields: &[u8]) -> Vec<u8> {
    let on = |word: &[u8]| -> Option<Vec<u8>> {
        let (start, len) = std::str::from_utf8(word).ok()?.split_once('+')?;
        Some(format!("{}+{}", start.parse::<usize>().ok()? + 2, len).into_bytes())
    };
    let words: Vec<Vec<u8>> = fields.split(|&b| b == b' ').map(|w| on(w).unwrap_or_else(|| w.to_vec())).collect();
    words.join(&b' ')
}

/// A flight date of zeros, the fifth word of a declaration, as none.
fn without_flight(fields: &[u8]) -> Option<Vec<u8>> {
    let mut words: Vec<&[u8]> = fields.split(|&b| b == b' ').collect();
    if words.first() != Some(&&b"C"[..]) || words.get(4) != Some(&&b"0/0/0"[..]) {
        return None;
    }
    words[4] = b"-";
    Some(words.join(&b' '))
}

impl Settled {
    pub fn add(&mut self, other: Settled) {
        self.same += other.same;
        self.letters += other.letters;
        self.flights += other.flights;
        self.unknown += other.unknown;
        self.late += other.late;
        self.shown.extend(other.shown);
    }

    /// Compares what was shown of a log with what was shown of its printed lines.
    pub fn compare(&mut self, job: &Job, first: &[u8], second: &[u8]) {
        let rows = |text| -> Vec<&[u8]> { <[u8]>::split(text, |&b| b == b'\n').collect() };
        let (first, second) = (rows(first), rows(second));
        if first.len() != second.len() {
            self.late(job, b"(the number of lines)", b"", b"");
            return;
        }
        for ((line, first), second) in lines(&job.log).into_iter().zip(first).zip(second) {
            self.row(job, line, first, second);
        }
    }

    fn row(&mut self, job: &Job, line: &[u8], first: &[u8], second: &[u8]) {
        let Some((fields, text)) = printed(line, first) else { return };
        if first == second {
            self.same += 1;
            return;
        }
        let then = printed(text, second).filter(|(_, again)| *again == text).map(|(fields, _)| fields);
        // Behind its letter, which may be a blank, stands the triple, `-` for none.
        if in_letter_form(line) && fields.get(5..8) == Some(b" - ") {
            self.unknown += 1;
        } else if in_letter_form(line) && then == Some(&moved(fields)) {
            self.letters += 1;
        } else if then.is_some() && then == without_flight(fields).as_deref() {
            self.flights += 1;
        } else {
            self.late(job, line, first, second);
        }
    }

    fn late(&mut self, job: &Job, line: &[u8], first: &[u8], second: &[u8]) {
        self.late += 1;
        if self.shown.len() < 10 {
            let (line, first, second) = (line.escape_ascii(), first.escape_ascii(), second.escape_ascii());
            self.shown.push(format!("{}: {}\n  shown first: {}\n  and then:    {}", job.part.1, line, first, second));
        }
    }
}
