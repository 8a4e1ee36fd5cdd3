//! The reader of this repository, as crates/bench_loops exports it: a slice arrives as a pointer and a length.
extern "C" {
    fn timed_read(log: *const u8, len: usize) -> u64;
    fn timed_step(log: *const u8, len: usize) -> u64;
    fn timed_walk(log: *const u8, len: usize) -> u64;
    fn timed_lookup(log: *const u8, len: usize, a: u8, b: u8, c: u8) -> u64;
    fn timed_print(log: *const u8, len: usize, buf: *mut u8, room: usize) -> u64;
    fn timed_index(log: *const u8, len: usize, hours: u8) -> u64;
    fn timed_moments(log: *const u8, len: usize, hours: u8, seconds: u8) -> u64;
    fn timed_walks(log: *const u8, len: usize, hours: u8, seconds: u8) -> u64;
}

pub fn read(log: &str) -> u64 {
    unsafe { timed_read(log.as_ptr(), log.len()) }
}

pub fn step(log: &str) -> u64 {
    unsafe { timed_step(log.as_ptr(), log.len()) }
}

pub fn walk(log: &str) -> u64 {
    unsafe { timed_walk(log.as_ptr(), log.len()) }
}

pub fn look_up(log: &str) -> u64 {
    unsafe { timed_lookup(log.as_ptr(), log.len(), b'E', b'N', b'L') }
}

pub fn print(log: &str) -> u64 {
    let mut buf = [0u8; 1024];
    unsafe { timed_print(log.as_ptr(), log.len(), buf.as_mut_ptr(), buf.len()) }
}

pub fn index(log: &str, hours: u8) -> u64 {
    unsafe { timed_index(log.as_ptr(), log.len(), hours) }
}

/// The index made, and a question for each minute of the hour.
pub fn moments(log: &str, hours: u8) -> u64 {
    unsafe { timed_moments(log.as_ptr(), log.len(), hours, 30) }
}

/// The same questions by a walk from the start.
pub fn walks(log: &str, hours: u8) -> u64 {
    unsafe { timed_walks(log.as_ptr(), log.len(), hours, 30) }
}
