//! Runs the Rust beside this reader's `fields` (../run), and makes the sample that crates/fields is held to (../vectors).

mod compare;
mod every;
mod hand;
mod lines;
mod logs;
mod random;
mod settle;
mod vectors;
mod view;

use compare::{Class, Tally};
use logs::{Job, Logs};
use settle::Settled;
use std::ffi::OsStr;
use std::io::{Read, Write};
use std::os::unix::ffi::OsStrExt;
use std::process::{exit, Command, Stdio};
use std::sync::mpsc::sync_channel;
use std::sync::Mutex;

const WORKERS: usize = 2;
const RANDOM_LINES: usize = 3_000_000;

fn main() {
    // Panics of the Rust are answers here, caught and counted; only those of the glue are told.
    std::panic::set_hook(Box::new(|panic| {
        if !panic.location().map_or(false, |place| place.file().contains("docs/src/src/")) {
            eprintln!("oracle: {}", panic);
        }
    }));
    let words: Vec<String> = std::env::args().skip(1).collect();
    let words: Vec<&str> = words.iter().map(String::as_str).collect();
    match words.as_slice() {
        ["run", seed, command @ ..] if seed.parse::<u64>().is_ok() && !command.is_empty() => run(seed.parse().unwrap(), command),
        ["vectors", folder] => vectors::write(folder),
        ["view"] => {
            let mut log = Vec::new();
            std::io::stdin().read_to_end(&mut log).unwrap();
            for row in view::rows(&log, &[]) {
                std::io::stdout().write_all(&[&row.text(), &b"\n"[..]].concat()).unwrap();
            }
        }
        _ => {
            eprintln!("usage: oracle run SEED COMMAND.. | vectors FOLDER | view <LOG");
            exit(2);
        }
    }
}

/// What `fields` writes for a log. It writes before it has read all of a long one, so the log is handed on beside.
fn fields(command: &[&str], job: &Job) -> std::io::Result<Vec<u8>> {
    let mut child = Command::new(command[0])
        .args(&command[1..])
        .args(job.names.iter().map(|name| OsStr::from_bytes(name)))
        .stdin(Stdio::piped())
        .stdout(Stdio::piped())
        .spawn()?;
    let (stdin, stdout) = (child.stdin.take(), child.stdout.take());
    let mut text = Vec::new();
    std::thread::scope(|scope| {
        let written = scope.spawn(|| stdin.unwrap().write_all(&job.log));
        stdout.unwrap().read_to_end(&mut text)?;
        written.join().unwrap()
    })?;
    child.wait()?;
    Ok(text)
}

fn run(seed: u64, command: &[&str]) {
    let (send, receive) = sync_channel::<Job>(8);
    let receive = Mutex::new(receive);
    let (mut all, mut twice) = (Tally::default(), Settled::default());
    std::thread::scope(|scope| {
        let work = || {
            let (mut tally, mut settled) = (Tally::default(), Settled::default());
            loop {
                let job = receive.lock().unwrap().recv();
                let job = match job {
                    Ok(job) => job,
                    Err(_) => return (tally, settled),
                };
                let ask = |job: &Job| {
                    fields(command, job).unwrap_or_else(|error| {
                        eprintln!("oracle: {}: {}", command[0], error);
                        exit(2);
                    })
                };
                let text = ask(&job);
                tally.compare(&job, &text);
                settled.compare(&job, &text, &ask(&settle::again(&job, &text)));
            }
        };
        let workers: Vec<_> = (0..WORKERS).map(|_| scope.spawn(work)).collect();
        let mut hand_on = |job| send.send(job).unwrap();
        let mut logs = Logs::new(&mut hand_on);
        every::every(&mut logs);
        random::random(&mut logs, seed, RANDOM_LINES);
        drop(send);
        for worker in workers {
            let (tally, settled) = worker.join().unwrap();
            all.add(tally);
            twice.add(settled);
        }
    });
    report(seed, &all);
    report_twice(&twice);
    let asked = hand::asked();
    let others: Vec<_> = asked.iter().filter(|(_, listed, said)| listed != said).collect();
    println!("{:>10}  of {} that no line reaches, asked of the Rust by hand, other than listed", others.len(), asked.len());
    for (what, listed, said) in &others {
        println!("\n{}\n  listed:   {}\n  the Rust: {}", what, listed, said);
    }
    if all.unlisted > 0 || twice.late > 0 || !others.is_empty() {
        exit(1);
    }
}

/// What the second printing of each accepted line came to.
fn report_twice(twice: &Settled) {
    println!("\n   settled  at once: the printed text read and printed again");
    println!("{:>10}  with every field, text and place as before", twice.same);
    println!("{:>10}  with an A line's texts two columns on", twice.letters);
    println!("{:>10}  with a flight date of zeros with a plus, which is none then", twice.flights);
    println!("{:>10}  A lines in letter form with an unknown maker, not held to it", twice.unknown);
    println!("{:>10}  late", twice.late);
    for shown in &twice.shown {
        println!("\n{}", shown);
    }
    println!();
}

fn report(seed: u64, all: &Tally) {
    println!("     lines  compared");
    for ((_, part), lines) in &all.lines {
        println!("{:>10}  {}", lines, part);
    }
    println!("{:>10}  in {} logs, the random ones from seed {}", all.lines.values().sum::<u64>(), all.logs, seed);
    print!("\n    answer  of this reader, by the kind of line: how often");
    let mut of = "";
    for ((kind, answer), n) in &all.answers {
        print!("{}{}: {}", if of == *kind { ", ".to_string() } else { format!("\n{:>10}  ", kind) }, answer, n);
        of = kind;
    }
    println!("\n\n{:>10}  panics of the Rust, caught", all.panics);
    println!("\n    differ  by class, with the smallest input");
    for class in Class::ALL {
        if let Some((n, (_, smallest))) = all.classes.get(&class) {
            println!("{:>10}  {}: `{}`", n, class.title(), smallest);
        }
    }
    println!("{:>10}  in no class", all.unlisted);
    for shown in &all.shown {
        println!("\n{}", shown);
    }
}
