// The Rust's files once more, but with an error type of ours in place of its own, which answers SyntaxError for bad syntax and
// for an unreadable number alike. Where the Rust answers that, this crate tells which of the two it was. It is also built with
// arithmetic that wraps, as a release has it.
#![allow(warnings)]

mod error {
    #[derive(Debug)]
    pub enum ParseError {
        SyntaxError,
        UnreadableNumber,
        NonASCIICharacters,
        NumberOutOfRange,
        BadExtension,
        MissingExtension,
    }

    impl From<std::num::ParseIntError> for ParseError {
        fn from(_: std::num::ParseIntError) -> Self {
            ParseError::UnreadableNumber
        }
    }
}
#[path = "../../../../shared/docs/src/src/records/mod.rs"]
pub mod records;
#[path = "../util.rs"]
pub mod util;
