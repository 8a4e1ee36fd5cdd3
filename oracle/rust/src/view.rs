//! What the Rust makes of each line of a log, in the words of `fields`.
//!
//! Glue, and not the Rust's: cutting lines, the tables in force, lookup by name (the first definition of that name), by
//! the book, lookups on an empty rest of a K line.

use crate::compare::Class;
use igc::records::{DataSource, Extendable, Extension, FixValid, KRecord, Record};
use igc::util::{Compass, Date, ParseError, RawCoord, RawPosition, Time};
use self::Kind::{I16, I8, U16, U8};
use std::collections::BTreeSet;
use std::io::Write;
use std::panic::{catch_unwind, RefUnwindSafe};

pub type Name = [u8; 3];

/// What else is to be known of an answer, for the classes of differences.
#[derive(Clone, Copy, PartialEq, Eq, Debug)]
pub enum How {
    Plain,
    /// A SyntaxError that came from an unreadable number; the row says 3.
    Number,
    /// A K line of seven bytes, which the Rust refuses; the row is that of the line with one more, and then without it.
    SevenBytes,
    /// A D, F or L line that the Rust reads otherwise than the paper, in this class; the row says what the paper says.
    Otherwise(Class),
    /// Not UTF-8; the row is that of the line with `~` in place of each byte from 128 up.
    NotUtf8,
}

pub struct Lookup<'l> {
    /// How many columns of the line are fixed.
    pub base: usize,
    pub name: Name,
    pub definition: Option<Extension<'l>>,
    pub answer: Vec<u8>,
}

pub struct Row<'l> {
    pub line: &'l [u8],
    pub how: How,
    /// Up to the lookups: number, letter, answer, fields.
    pub head: Vec<u8>,
    pub lookups: Vec<Lookup<'l>>,
    /// By the book, and the record as printed.
    pub tail: Vec<u8>,
}

impl Row<'_> {
    pub fn text(&self) -> Vec<u8> {
        let mut text = self.head.clone();
        for lookup in &self.lookups {
            text.push(b' ');
            text.extend(lookup.name);
            text.push(b'=');
            text.extend(&lookup.answer);
        }
        text.extend(&self.tail);
        text
    }
}

/// A line ends at LF, and one CR directly before it is dropped. What stands after the last LF is a line if it is not empty.
pub fn lines(log: &[u8]) -> Vec<&[u8]> {
    let mut lines: Vec<&[u8]> = log.split(|&b| b == b'\n').collect();
    let last = lines.pop().unwrap_or(b"");
    for line in &mut lines {
        *line = line.strip_suffix(b"\r").unwrap_or(line);
    }
    if !last.is_empty() {
        lines.push(last);
    }
    lines
}

pub fn rows<'l>(log: &'l [u8], names: &[Name]) -> Vec<Row<'l>> {
    let mut tables = Tables::default();
    lines(log).into_iter().zip(1..).map(|(line, number)| row(number, line, &mut tables, names)).collect()
}

/// What the lines of one letter leave: nothing so far, the mark of one that was refused, or the definitions of the last.
#[derive(Default)]
enum Table<'l> {
    #[default]
    Never,
    Spoiled,
    Set(Vec<Extension<'l>>),
}

impl<'l> Table<'l> {
    fn defined(&self) -> &[Extension<'l>] {
        match self {
            Table::Set(definitions) => definitions,
            _ => &[],
        }
    }

    /// The answer to a name that is not defined.
    fn undefined(&self) -> &'static [u8] {
        match self {
            Table::Never => b"13",
            Table::Spoiled => b"14",
            Table::Set(_) => b"15",
        }
    }
}

/// The I lines' table, for B lines, and the J lines', for K lines.
#[derive(Default)]
struct Tables<'l> {
    i: Table<'l>,
    j: Table<'l>,
}

fn row<'l>(number: usize, line: &'l [u8], tables: &mut Tables<'l>, names: &[Name]) -> Row<'l> {
    let first = line.first().copied().unwrap_or(0);
    let letter = if first.is_ascii_uppercase() { first } else { b'-' };
    let mut row = Row { line, how: How::Plain, head: Vec::new(), lookups: Vec::new(), tail: Vec::new() };
    write!(row.head, "{} {} ", number, letter as char).unwrap();
    match first {
        b'I' => tables.i = Table::Spoiled,
        b'J' => tables.j = Table::Spoiled,
        _ => {}
    }
    match std::str::from_utf8(line) {
        Ok(text) if first == b'K' && line.len() == KRecord::BASE_LENGTH => seven(text, &mut row, &tables.j, names),
        Ok(text) => match read(text, &mut row) {
            Some(Record::B(fix)) => row.lookups = lookups(&fix, text, &tables.i, names),
            Some(Record::K(data)) => row.lookups = lookups(&data, text, &tables.j, names),
            Some(Record::I(record)) => tables.i = Table::Set(record.0.extensions),
            Some(Record::J(record)) => tables.j = Table::Set(record.0.extensions),
            _ => {}
        },
        Err(_) => {
            if fails_ascii(line) {
                row.head.extend(b"2");
            } else {
                read(std::str::from_utf8(&low(line)).unwrap(), &mut row);
            }
            row.how = How::NotUtf8;
        }
    }
    row
}

/// With `~` in place of each byte from 128 up.
pub fn low(bytes: &[u8]) -> Vec<u8> {
    bytes.iter().map(|&b| if b.is_ascii() { b } else { b'~' }).collect()
}

/// Whether a line meets the ASCII test of its kind and fails it, which the Rust can't be asked of bytes that are not UTF-8. On
/// lines that are, the Rust has to agree (`read`).
fn fails_ascii(line: &[u8]) -> bool {
    let len = line.len();
    let high = |from: usize, to: usize| !line[from..to].is_ascii();
    let digits = |from: usize, to: usize| line[from..to].iter().all(u8::is_ascii_digit);
    match line.first() {
        Some(b'A') if len >= 7 => {
            if digits(2, 7) {
                high(1, 2)
            } else if len >= 9 && digits(4, 9) {
                high(0, 4)
            } else {
                high(0, 7)
            }
        }
        Some(b'B') => len >= 35 && high(0, len),
        Some(b'C') if len >= 9 => {
            let columns = if matches!(line[8], b'N' | b'S') { 18 } else { 25 };
            len >= columns && high(0, columns)
        }
        // The Rust has no such test of D and L lines, and makes that of F lines before it looks at the list's length: see
        // `otherwise`.
        Some(b'D') => len == 6 && high(0, len),
        Some(b'E') => len >= 10 && high(0, 10),
        Some(b'F') => len >= 7 && !odd_list(line) && high(0, len),
        Some(b'H') => len >= 6 && high(0, 5),
        Some(b'I' | b'J') => len >= 3 && high(0, len),
        // The Rust refuses one of seven bytes before its test; of such it is asked with one more (`seven`).
        Some(b'K') => len >= 7 && high(0, len),
        Some(b'L') => len >= 4 && high(0, 4),
        _ => false,
    }
}

/// The list of an F line that is long enough for its time has an odd length.
fn odd_list(line: &[u8]) -> bool {
    line.len() >= 7 && line[7..].len() % 2 == 1
}

/// What the paper says of a D, F or L line that the Rust reads otherwise: the class, the answer, and whether the Rust did
/// there what docs/DIFFERENCES.md has of it.
fn otherwise(text: &str, asked: &Result<Record, ParseError>) -> Option<(Class, String, bool)> {
    let line = text.as_bytes();
    let said = asked.as_ref().map_or_else(|error| refusal(error, text), |_| "0");
    let no_digit = || line[7..].iter().position(|b| !b.is_ascii_digit());
    match line.first()? {
        b'D' if line.len() == 6 && !line.is_ascii() => Some((Class::Station, "2".into(), matches!(said, "0" | "1"))),
        b'F' if odd_list(line) && said != "1" => Some((Class::OddList, "1".into(), matches!(said, "2" | "3" | "4"))),
        b'F' if said == "0" => no_digit().map(|n| (Class::NoDigit, format!("3@{}", 7 + n), true)),
        b'L' if line.len() < 4 => Some((Class::Source, "1".into(), said == "0")),
        b'L' if !line[..4].is_ascii() => Some((Class::Source, "2".into(), said == "0")),
        _ => None,
    }
}

/// A K line of seven bytes. The Rust has to refuse it, and in its place is asked for the line with a `0` behind. That
/// byte is then taken off what it says: the rest is empty, so no value is there, and the text ends before it.
fn seven<'l>(text: &str, row: &mut Row<'l>, table: &Table<'l>, names: &[Name]) {
    if Record::parse_line(text).map_or_else(|error| refusal(&error, text), |_| "0") != "1" {
        row.head.extend(b"glue:seven ");
    }
    let longer = format!("{}0", text);
    if let Some(Record::K(data)) = read(&longer, row) {
        let (head, tail) = (row.head.strip_suffix(b" 7+1"), row.tail.strip_suffix(b"0"));
        (row.head, row.tail) = ([head.unwrap(), b" 7+0"].concat(), tail.unwrap().to_vec());
        row.lookups = lookups(&data, &longer, table, names);
        for lookup in &mut row.lookups {
            if let Some(definition) = &lookup.definition {
                let fixed = definition.start_byte as usize <= lookup.base;
                lookup.answer = if fixed { b"5".to_vec() } else { b"6".to_vec() };
            }
        }
    }
    row.how = How::SevenBytes;
}

/// Asks the Rust for one line: the answer and the fields go to the head, by the book and the printed text to the tail.
fn read<'t>(text: &'t str, row: &mut Row) -> Option<Record<'t>> {
    let asked = match catch_unwind(|| Record::parse_line(text)) {
        Ok(asked) => asked,
        Err(_) => {
            row.head.extend(b"panic");
            return None;
        }
    };
    if let Some((class, answer, listed)) = otherwise(text, &asked) {
        row.how = How::Otherwise(class);
        row.head.extend(if listed { answer.as_bytes() } else { b"glue:otherwise" });
        return None;
    }
    if fails_ascii(text.as_bytes()) != matches!(asked, Err(ParseError::NonASCIICharacters)) {
        row.head.extend(b"glue:fails_ascii ");
    }
    match asked {
        Ok(record) => {
            accepted(text, &record, row);
            Some(record)
        }
        Err(error) => {
            let answer = refusal(&error, text);
            row.head.extend(answer.as_bytes());
            if answer == "3" {
                row.how = How::Number;
                write!(row.head, "@{}", place(text.as_bytes())).unwrap();
            }
            None
        }
    }
}

fn refusal(error: &ParseError, text: &str) -> &'static str {
    match error {
        ParseError::SyntaxError => match numbers::records::Record::parse_line(text) {
            Err(numbers::util::ParseError::SyntaxError) => "1",
            Err(numbers::util::ParseError::UnreadableNumber) => "3",
            _ => "glue:numbers",
        },
        ParseError::NonASCIICharacters => "2",
        ParseError::NumberOutOfRange => "4",
        ParseError::BadExtension => "5",
        ParseError::MissingExtension => "6",
        ParseError::IOError(_) | ParseError::Utf8Error(_) => "glue:error",
    }
}

/// The types of the numbers in a line.
#[derive(Clone, Copy)]
enum Kind {
    U8,
    U16,
    I8,
    I16,
}

/// Where a line that is refused with 3 is to be looked at, which the Rust does not tell: the first of its numbers that
/// `str::parse` refuses; in it the first byte that is no digit behind a sign that the type allows, else its own first.
fn place(line: &[u8]) -> usize {
    let numbers: &[(usize, usize, Kind)] = match line[0] {
        b'B' => &[(1, 2, U8), (3, 2, U8), (5, 2, U8), (7, 2, U8), (9, 5, U16), (15, 3, U8), (18, 5, U16), (25, 5, I16), (30, 5, I16)],
        b'C' if matches!(line[8], b'N' | b'S') => &[(1, 2, U8), (3, 5, U16), (9, 3, U8), (12, 5, U16)],
        b'C' => &[
            (1, 2, U8), (3, 2, U8), (5, 2, U8), (7, 2, U8), (9, 2, U8), (11, 2, U8),
            (13, 2, U8), (15, 2, U8), (17, 2, U8), (19, 4, U16), (23, 2, I8),
        ],
        b'E' | b'F' | b'K' => &[(1, 2, U8), (3, 2, U8), (5, 2, U8)],
        _ => return table_place(line),
    };
    numbers.iter().find_map(|&(at, width, kind)| refused(line, at, width, kind)).expect("an unreadable number")
}

/// The count of a table, and then the two columns of each definition.
fn table_place(line: &[u8]) -> usize {
    let definitions = (3..line.len()).step_by(7).flat_map(|at| [at, at + 2]);
    std::iter::once(1).chain(definitions).find_map(|at| refused(line, at, 2, U8)).expect("an unreadable number")
}

fn refused(line: &[u8], at: usize, width: usize, kind: Kind) -> Option<usize> {
    let text = std::str::from_utf8(&line[at..at + width]).unwrap();
    let read = match kind {
        U8 => text.parse::<u8>().is_ok(),
        U16 => text.parse::<u16>().is_ok(),
        I8 => text.parse::<i8>().is_ok(),
        I16 => text.parse::<i16>().is_ok(),
    };
    let signed = matches!(kind, I8 | I16) && text.starts_with('-');
    let behind = usize::from(signed || text.starts_with('+'));
    let other = text.bytes().skip(behind).position(|b| !b.is_ascii_digit()).map(|n| behind + n);
    (!read).then(|| at + other.unwrap_or(0))
}

fn accepted(line: &str, record: &Record, row: &mut Row) {
    let head = &mut row.head;
    let part = |text: &str| format!("{}+{}", text.as_ptr() as usize - line.as_ptr() as usize, text.len());
    let maybe = |text: &Option<&str>| text.map_or("-".to_string(), part);
    if let Record::Unrecognised(_) = record {
        write!(head, "12").unwrap();
        write!(row.tail, " ={}", record).unwrap();
        return;
    }
    let mut book = true;
    write!(head, "0 ").unwrap();
    match record {
        Record::A(a) => {
            let letter = a.manufacturer.to_single_char().map_or('-', char::from);
            let triple = a.manufacturer.to_triple_char().unwrap_or("-");
            write!(head, "{} {} {} {}", letter, triple, part(a.unique_id), maybe(&a.id_extension))
        }
        Record::B(b) => {
            book = time_book(&b.timestamp) && position_book(&b.pos);
            let valid = match b.fix_valid {
                FixValid::Valid => 'A',
                FixValid::NavWarning => 'V',
            };
            let rest = part(b.extension_string());
            write!(head, "{} {} {} {} {} {}", time(&b.timestamp), position(&b.pos), valid, b.pressure_alt, b.gps_alt, rest)
        }
        Record::CDeclaration(c) => {
            book = date_book(&c.date) && time_book(&c.time) && c.flight_date.as_ref().map_or(true, date_book);
            let flight = c.flight_date.as_ref().map_or("-".to_string(), date);
            let name = maybe(&c.task_name);
            write!(head, "{} {} {} {} {} {}", date(&c.date), time(&c.time), flight, c.task_id, c.turnpoint_count, name)
        }
        Record::CTurnpoint(c) => {
            book = position_book(&c.position);
            write!(head, "{} {}", position(&c.position), maybe(&c.turnpoint_name))
        }
        Record::D(d) => {
            // The type of the qualifier has no name outside of the Rust's crate.
            let qualifier = if format!("{:?}", d.qualifier) == "Gps" { '1' } else { '2' };
            write!(head, "{} {}", qualifier, part(d.station_id))
        }
        Record::E(e) => {
            book = time_book(&e.time);
            write!(head, "{} {} {}", time(&e.time), part(e.mnemonic), maybe(&e.text))
        }
        Record::F(f) => {
            book = time_book(&f.time);
            let different: BTreeSet<&str> = f.satellites.iter().collect();
            write!(head, "{} {} 7+{}", time(&f.time), different.len(), line.len() - 7)
        }
        Record::G(g) => write!(head, "{}", part(g.data)),
        Record::H(h) => {
            let source = match h.data_source {
                DataSource::FVU => b'F',
                DataSource::OfficialObserver => b'O',
                DataSource::Pilot => b'P',
                DataSource::Unrecognized(byte) => byte,
            };
            write!(head, "{} {} {} {}", source as char, part(h.mnemonic), maybe(&h.friendly_name), part(h.data))
        }
        Record::I(i) => definitions(i.0.num_extensions, &i.0.extensions, head),
        Record::J(j) => definitions(j.0.num_extensions, &j.0.extensions, head),
        Record::K(k) => {
            book = time_book(&k.time);
            write!(head, "{} {}", time(&k.time), part(k.extension_string()))
        }
        Record::L(l) => {
            // One text in the Rust.
            let text = Some(&l.log_string[3..]).filter(|text| !text.is_empty());
            write!(head, "{} {}", part(&l.log_string[..3]), maybe(&text))
        }
        Record::Unrecognised(_) => write!(head, "glue:kind"),
    }
    .unwrap();
    write!(row.tail, " {} ={}", if book { 'y' } else { 'n' }, record).unwrap();
}

fn definitions(count: u8, definitions: &[Extension], head: &mut Vec<u8>) -> std::io::Result<()> {
    write!(head, "{}", count)?;
    for d in definitions {
        write!(head, " {}-{}{}", d.start_byte, d.end_byte, d.mnemonic)?;
    }
    Ok(())
}

fn time(t: &Time) -> String {
    format!("{}:{}:{}", t.hours, t.minutes, t.seconds)
}

fn date(d: &Date) -> String {
    format!("{}/{}/{}", d.day, d.month, d.year)
}

fn coord(c: &RawCoord) -> String {
    let letter = match c.sign {
        Compass::North => 'N',
        Compass::South => 'S',
        Compass::East => 'E',
        Compass::West => 'W',
    };
    format!("{} {} {}", c.degrees, c.minute_thousandths, letter)
}

fn position(p: &RawPosition) -> String {
    format!("{} {}", coord(&p.lat.0), coord(&p.lon.0))
}

fn time_book(t: &Time) -> bool {
    t.hours <= 23 && t.minutes <= 59 && t.seconds <= 59
}

/// A day of the years 1980 to 2079, by the full Gregorian rule.
fn date_book(d: &Date) -> bool {
    let year = u32::from(d.year) + if d.year < 80 { 2000 } else { 1900 };
    let leap = year % 4 == 0 && (year % 100 != 0 || year % 400 == 0);
    let days = match d.month {
        4 | 6 | 9 | 11 => 30,
        2 if leap => 29,
        2 => 28,
        1..=12 => 31,
        _ => 0,
    };
    (1..=days).contains(&d.day)
}

/// An angle that is written by whole minutes and is not past the limit.
fn coord_book(c: &RawCoord, limit: u32) -> bool {
    let thousandths = u32::from(c.minute_thousandths);
    thousandths < 60000 && u32::from(c.degrees) * 60000 + thousandths <= limit * 60000
}

fn position_book(p: &RawPosition) -> bool {
    coord_book(&p.lat.0, 90) && coord_book(&p.lon.0, 180)
}

/// With no names asked for, every name of the table in its order.
fn lookups<'l, R>(record: &R, line: &str, table: &Table<'l>, names: &[Name]) -> Vec<Lookup<'l>>
where
    R: Extendable + RefUnwindSafe,
{
    let defined = table.defined();
    let name_of = |d: &Extension| -> Name { d.mnemonic.as_bytes().try_into().unwrap() };
    let look = |name: Name| {
        let definition = defined.iter().find(|d| name_of(d) == name).cloned();
        let answer = definition.as_ref().map_or(table.undefined().to_vec(), |d| value(record, line, d));
        Lookup { base: R::BASE_LENGTH, name, definition, answer }
    };
    if names.is_empty() {
        defined.iter().map(name_of).map(look).collect()
    } else {
        names.iter().copied().map(look).collect()
    }
}

fn value(record: &(impl Extendable + RefUnwindSafe), line: &str, definition: &Extension) -> Vec<u8> {
    match catch_unwind(|| record.get_extension(definition)) {
        Ok(Ok(value)) => format!("0@{}+{}", value.as_ptr() as usize - line.as_ptr() as usize, value.len()).into_bytes(),
        Ok(Err(error)) => refusal(&error, line).as_bytes().to_vec(),
        Err(_) => b"panic".to_vec(),
    }
}

/// The same lookup by the build whose arithmetic wraps; only what it refuses by is told.
pub fn wrapped(line: &str, d: &Extension) -> &'static str {
    use numbers::records::{Extendable, Extension, Record};
    fn told(record: &(impl Extendable + RefUnwindSafe), d: &Extension) -> &'static str {
        match catch_unwind(|| record.get_extension(d).map(str::len)) {
            Ok(Ok(_)) => "0",
            Ok(Err(numbers::util::ParseError::BadExtension)) => "5",
            Ok(Err(numbers::util::ParseError::MissingExtension)) => "6",
            Ok(Err(_)) => "glue:wrapped",
            Err(_) => "panic",
        }
    }
    let d = Extension { start_byte: d.start_byte, end_byte: d.end_byte, mnemonic: d.mnemonic };
    match Record::parse_line(line) {
        Ok(Record::B(fix)) => told(&fix, &d),
        Ok(Record::K(data)) => told(&data, &d),
        _ => "glue:wrapped",
    }
}
