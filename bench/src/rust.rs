//! The same work by igc-rs: the sums are those of crates/bench_loops, so that neither side can leave a reading out.
use igc::parse::parse_records;
use igc::records::{BRecord, Extendable, FixValid, IRecord, Record};
use std::fmt::Write;
use std::hint::black_box;

fn above(height: i16) -> u64 {
    height.max(0) as u64
}

fn of_fix(fix: &BRecord) -> u64 {
    let time = fix.timestamp.seconds_since_midnight() as u64;
    let minutes = fix.pos.lat.0.minute_thousandths as u64 + fix.pos.lon.0.minute_thousandths as u64;
    time + minutes + above(fix.pressure_alt) + above(fix.gps_alt)
}

pub fn read(log: &str) -> u64 {
    let mut sum = 0u64;
    for read in parse_records(log) {
        sum = sum.wrapping_add(match read {
            Ok(Record::B(fix)) => of_fix(&fix),
            Ok(_) => 1,
            Err(_) => 0,
        });
    }
    sum
}

/// What a report's figures sum up to, worked out from all records at once; it is not timed.
pub fn report(log: &str) -> u64 {
    let fix = |read| if let Ok(Record::B(fix)) = read { Some(fix) } else { None };
    let fixes: Vec<_> = parse_records(log).filter_map(fix).collect();
    let marked: Vec<_> = fixes.iter().filter(|f| f.fix_valid == FixValid::Valid).collect();
    let ends = |of: &dyn Fn(&BRecord) -> i16| {
        let heights: Vec<i16> = marked.iter().map(|f| of(f)).collect();
        heights.iter().max().map_or(0, |&high| above(high)) + heights.iter().min().map_or(0, |&low| above(low))
    };
    let seconds: Vec<u64> = fixes.iter().map(|f| f.timestamp.seconds_since_midnight() as u64).collect();
    let times = seconds.iter().max().unwrap_or(&0) + seconds.iter().min().unwrap_or(&0);
    log.lines().count() as u64 + fixes.len() as u64 + ends(&|f| f.pressure_alt) + ends(&|f| f.gps_alt) + times
}

fn of_value(table: &Option<IRecord>, fix: &BRecord, name: &str) -> u64 {
    let Some(table) = table else { return 0 };
    let Some(found) = table.0.extensions.iter().find(|e| e.mnemonic == name) else { return 0 };
    match fix.get_extension(found) {
        Ok(value) => value.len() as u64 + value.as_bytes().first().map_or(0, |b| *b as u64),
        Err(_) => 0,
    }
}

pub fn look_up(log: &str) -> u64 {
    let name = black_box("ENL");
    let mut table = None;
    let mut sum = 0u64;
    for read in parse_records(log) {
        sum = sum.wrapping_add(match read {
            Ok(Record::B(fix)) => of_fix(&fix) + of_value(&table, &fix, name),
            Ok(Record::I(i)) => {
                table = Some(i);
                1
            }
            Ok(_) => 1,
            Err(_) => 0,
        });
    }
    sum
}

pub fn print(log: &str) -> u64 {
    let mut text = String::with_capacity(1024);
    let mut sum = 0u64;
    for read in parse_records(log) {
        if let Ok(record) = read {
            text.clear();
            write!(text, "{record}").unwrap();
            sum = sum.wrapping_add(black_box(&text).len() as u64);
        }
    }
    sum
}
