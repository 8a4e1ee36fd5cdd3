// The crate's lib.rs is not in the team's copy. This stands for it; every file that it names is compiled as it stands there.
#![allow(warnings)]

#[path = "../../../../shared/docs/src/src/util/parse_error.rs"]
mod error;
#[path = "../../../../shared/docs/src/src/parse.rs"]
pub mod parse;
#[path = "../../../../shared/docs/src/src/records/mod.rs"]
pub mod records;
#[path = "../util.rs"]
pub mod util;
