//! What no line reaches: fields by themselves, and records built by hand. The Rust alone is asked, so that the rows of
//! docs/DIFFERENCES.md on them stay true; what this reader does there is proved.

use igc::records::{ARecord, BRecord, CRecordDeclaration, CRecordTurnpoint, DRecord, ERecord, FRecord, GRecord, HRecord};
use igc::records::{Extendable, Extension, IRecord, JRecord, KRecord, LRecord, Record};
use igc::util::{Compass::*, Date, RawLatitude, RawLongitude, RawPosition, Time};
use std::fmt::Debug;
use std::panic::{catch_unwind, UnwindSafe};

/// Good but for their first byte.
const FIX: &str = "Z1015304712345N01102500EA0152301561";
const DECLARATION: &str = "Z230718092044000000000204";
const TURNPOINT: &str = "Z5156040N00038120W";

/// What is asked, what is listed, and what the Rust says.
type Asked = (&'static str, &'static str, String);

pub fn asked() -> Vec<Asked> {
    vec![
        ("ARecord::parse of ZCAM123", "panics", said(|| ARecord::parse("ZCAM123"))),
        ("BRecord::parse of a fix with Z", "\"read\"", said(|| BRecord::parse(FIX).map_or("refused", |_| "read"))),
        ("CRecordDeclaration::parse of one with Z", "panics", said(|| CRecordDeclaration::parse(DECLARATION))),
        ("CRecordTurnpoint::parse of one with Z", "panics", said(|| CRecordTurnpoint::parse(TURNPOINT))),
        ("DRecord::parse of Z1ABCD", "panics", said(|| DRecord::parse("Z1ABCD"))),
        ("ERecord::parse of Z101530PEV", "panics", said(|| ERecord::parse("Z101530PEV"))),
        ("FRecord::parse of Z101530", "\"read\"", said(|| FRecord::parse("Z101530").map_or("refused", |_| "read"))),
        ("GRecord::parse of Z", "panics", said(|| GRecord::parse("Z"))),
        ("GRecord::parse of nothing", "panics", said(|| GRecord::parse(""))),
        ("LRecord::parse of ZPLT", "panics", said(|| LRecord::parse("ZPLT"))),
        ("LRecord::parse of nothing", "panics", said(|| LRecord::parse(""))),
        ("HRecord::parse of ZFDTE230718", "panics", said(|| HRecord::parse("ZFDTE230718"))),
        ("IRecord::parse of Z00", "panics", said(|| IRecord::parse("Z00"))),
        ("JRecord::parse of Z00", "panics", said(|| JRecord::parse("Z00"))),
        ("KRecord::parse of Z1015300", "panics", said(|| KRecord::parse("Z1015300"))),
        ("Time from 10153", "panics", said(|| "10153".parse::<Time>())),
        ("Date from 23071", "panics", said(|| "23071".parse::<Date>())),
        ("RawLatitude from 4712345", "panics", said(|| "4712345".parse::<RawLatitude>())),
        ("RawLongitude from 01102500", "panics", said(|| "01102500".parse::<RawLongitude>())),
        ("RawPosition from 4712345N01102500", "panics", said(|| "4712345N01102500".parse::<RawPosition>())),
        ("Time::from_hms(25, 0, 0)", "panics", said(|| Time::from_hms(25, 0, 0))),
        ("Time::from_hms(0, 61, 0)", "panics", said(|| Time::from_hms(0, 61, 0))),
        ("Time::from_hms(0, 0, 61)", "panics", said(|| Time::from_hms(0, 0, 61))),
        ("Date::from_dmy(0, 1, 0)", "panics", said(|| Date::from_dmy(0, 1, 0))),
        ("Date::from_dmy(32, 1, 0)", "panics", said(|| Date::from_dmy(32, 1, 0))),
        ("Date::from_dmy(1, 0, 0)", "panics", said(|| Date::from_dmy(1, 0, 0))),
        ("Date::from_dmy(1, 13, 0)", "panics", said(|| Date::from_dmy(1, 13, 0))),
        ("Date::from_dmy(1, 1, 100)", "panics", said(|| Date::from_dmy(1, 1, 100))),
        ("RawLatitude::new(91, 0, North)", "panics", said(|| RawLatitude::new(91, 0, North))),
        ("RawLatitude::new(0, 60000, North)", "panics", said(|| RawLatitude::new(0, 60000, North))),
        ("RawLatitude::new(0, 0, East)", "panics", said(|| RawLatitude::new(0, 0, East))),
        ("RawLongitude::new(181, 0, East)", "panics", said(|| RawLongitude::new(181, 0, East))),
        ("RawLongitude::new(0, 60000, East)", "panics", said(|| RawLongitude::new(0, 60000, East))),
        ("RawLongitude::new(0, 0, North)", "panics", said(|| RawLongitude::new(0, 0, North))),
        ("Extension::new(FXA, 2, 3)", "panics", said(|| Extension::new("FXA", 2, 3))),
        ("Extension::new(FXA, 3, 3)", "panics", said(|| Extension::new("FXA", 3, 3))),
        ("Extension from 363éXA", "panics", said(|| Extension::parse("363éXA"))),
        ("rest 035, 39 to 38", "MissingExtension", value(39, 38)),
        ("rest 035, 37 to 36", "\"\"", value(37, 36)),
        ("rest 035, 38 to 36", "panics", value(38, 36)),
        ("I00 with its count set to 100", "\"I100\"", said(count_of_100)),
    ]
}

fn said<T: Debug>(ask: impl FnOnce() -> T + UnwindSafe) -> String {
    catch_unwind(|| format!("{:?}", ask())).unwrap_or_else(|_| "panics".to_string())
}

fn value(start_byte: u8, end_byte: u8) -> String {
    let fix = match Record::parse_line("B1015304712345N01102500EA0152301561035") {
        Ok(Record::B(fix)) => fix,
        _ => return String::new(),
    };
    let asked = || fix.get_extension(&Extension { start_byte, end_byte, mnemonic: "FXA" });
    catch_unwind(|| asked().map_or_else(|e| format!("{:?}", e), |v| format!("{:?}", v))).unwrap_or_else(|_| "panics".to_string())
}

fn count_of_100() -> String {
    match Record::parse_line("I00") {
        Ok(Record::I(mut table)) => {
            table.0.num_extensions = 100;
            table.to_string()
        }
        _ => String::new(),
    }
}
