//! Logs on their way to be compared.

use crate::view::Name;

/// Lines are packed into logs of at most this size.
pub const LOG_SIZE: usize = 65536;

/// What a line was made for; parts are listed in their order.
pub type Part = (usize, &'static str);

pub struct Job {
    pub part: Part,
    pub names: Vec<Name>,
    pub log: Vec<u8>,
}

/// Packs lines into logs, and hands those on.
pub struct Logs<'s> {
    send: &'s mut dyn FnMut(Job),
    part: Part,
    log: Vec<u8>,
}

impl<'s> Logs<'s> {
    pub fn new(send: &'s mut dyn FnMut(Job)) -> Self {
        Logs { send, part: (0, ""), log: Vec::new() }
    }

    pub fn part(&mut self, title: &'static str) {
        self.close();
        self.part = (self.part.0 + 1, title);
    }

    pub fn line(&mut self, line: &[u8]) {
        self.room(line.len() + 1);
        self.log.extend(line);
        self.log.push(b'\n');
    }

    pub fn lines(&mut self, lines: &[&[u8]]) {
        for line in lines {
            self.line(line);
        }
    }

    /// Lines that have to stand in one log.
    pub fn together(&mut self, lines: &[u8]) {
        self.room(lines.len());
        self.log.extend(lines);
    }

    /// A log by itself.
    pub fn alone(&mut self, log: Vec<u8>) {
        self.asked(log, Vec::new());
    }

    /// A log by itself, whose B and K lines are asked for these names.
    pub fn asked(&mut self, log: Vec<u8>, names: Vec<Name>) {
        (self.send)(Job { part: self.part, names, log });
    }

    pub fn close(&mut self) {
        if !self.log.is_empty() {
            let log = std::mem::take(&mut self.log);
            self.alone(log);
        }
    }

    fn room(&mut self, len: usize) {
        if self.log.len() + len > LOG_SIZE {
            self.close();
        }
    }
}
