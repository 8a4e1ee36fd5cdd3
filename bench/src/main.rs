//! Times this reader beside igc-rs on the same logs in one process. usage: bench
mod logs;
mod ours;
mod rust;

use logs::Log;
use std::hint::black_box;
use std::time::Instant;

type Work = fn(&str) -> u64;

/// What both sides do with a log: this reader, the Rust, and what this reader's sum is held to, which is not timed. A walk to its
/// end keeps a report, which the Rust has not, so it is timed beside the Rust's reading alone.
const WORKS: [(&str, Work, Work, Work); 5] = [
    ("read", ours::read, rust::read, rust::read),
    ("step", ours::step, rust::read, rust::read),
    ("walk", ours::walk, rust::read, rust::report),
    ("look up", ours::look_up, rust::look_up, rust::look_up),
    ("print", ours::print, rust::print, rust::print),
];

fn timed(log: &str, work: Work) -> f64 {
    let start = Instant::now();
    black_box(work(black_box(log)));
    start.elapsed().as_nanos() as f64
}

/// The best of some rounds of each, in ns a line. The two take turns, so that a slow moment of the machine meets both. Both are
/// held to one sum, by which neither can have left a line out.
fn best(log: &Log, rounds: usize, ours: Work, rust: Work, held_to: Work) -> (f64, f64) {
    assert_eq!(ours(&log.text), held_to(&log.text), "{}: the sums differ", log.name);
    let mut least = (f64::MAX, f64::MAX);
    for _ in 0..rounds {
        least.0 = least.0.min(timed(&log.text, ours));
        least.1 = least.1.min(timed(&log.text, rust));
    }
    let lines = log.text.lines().count() as f64;
    (least.0 / lines, least.1 / lines)
}

fn beside_the_rust() {
    println!("1 MB, best of 100 rounds, ns a line");
    println!("{:<8} {:<8} {:>7} {:>7} {:>6}", "log", "work", "ours", "rust", "ratio");
    for make in [logs::fixes, logs::mixed, logs::damaged, logs::recorders] {
        let log = make(1 << 20);
        for (name, ours, rust, held_to) in WORKS {
            let (x, y) = best(&log, 100, ours, rust, held_to);
            println!("{:<8} {name:<8} {x:>7.1} {y:>7.1} {:>6.2}", log.name, x / y);
        }
    }
}

/// Every size takes its turn in every round, so that a slow moment of the machine meets all of them. Each is run once untimed before, since
/// a small log would else pay for what the large one before it left in the processor.
fn growth() {
    println!();
    println!("this reader, best of 40 rounds, ns a line by the log's size, and the largest over the least");
    println!("{:<8} {:<8} {:>7} {:>7} {:>7} {:>7} {:>7}", "log", "work", "64 KB", "512 KB", "4 MB", "16 MB", "spread");
    for make in [logs::fixes, logs::mixed, logs::damaged, logs::recorders] {
        let sizes = [1 << 16, 1 << 19, 1 << 22, 1 << 24].map(make);
        for (name, ours, ..) in WORKS {
            let mut took = [f64::MAX; 4];
            for _ in 0..40 {
                for (least, log) in took.iter_mut().zip(&sizes) {
                    ours(&log.text);
                    *least = least.min(timed(&log.text, ours) / log.text.lines().count() as f64);
                }
            }
            let spread = took.iter().fold(0f64, |a, &t| a.max(t)) / took.iter().fold(f64::MAX, |a, &t| a.min(t));
            print!("{:<8} {name:<8}", sizes[0].name);
            took.iter().for_each(|t| print!(" {t:>7.1}"));
            println!(" {spread:>7.2}");
        }
    }
}

/// The best of some rounds of each, in ns, by turns.
fn least<const N: usize>(rounds: usize, works: [&dyn Fn() -> u64; N]) -> [f64; N] {
    let mut took = [f64::MAX; N];
    for _ in 0..rounds {
        for (least, work) in took.iter_mut().zip(&works) {
            let start = Instant::now();
            black_box(work());
            *least = least.min(start.elapsed().as_nanos() as f64);
        }
    }
    took
}

/// A question for each minute of an hour, by the log's own index and by a walk from the start, which have one sum; and
/// the making of the index beside reading alone. Hours early, in the middle and late in the log, and one in which no
/// fix is.
fn moments() {
    let log = logs::fixes(2_000_000).text;
    let lines = log.lines().count() as f64;
    let [read, index] = least(60, [&|| ours::read(&log), &|| ours::index(&log, 12)]);
    println!();
    println!("2 MB of B lines, ns a line: read {:.1}, index {:.1}, {:.2}", read / lines, index / lines, index / read);
    println!("{:<6} {:>12} {:>12} {:>8}", "hour", "us by index", "us by walk", "ratio");
    for hours in [8, 12, 17, 20] {
        assert_eq!(ours::moments(&log, hours), ours::walks(&log, hours), "the answers differ");
        let [with, walks] = least(20, [&|| ours::moments(&log, hours), &|| ours::walks(&log, hours)]);
        let (x, y) = ((with - index).max(0.0) / 60e3, walks / 60e3);
        println!("{hours:<6} {x:>12.2} {y:>12.2} {:>8.3}", x / y);
    }
}

fn main() {
    beside_the_rust();
    growth();
    moments();
}
