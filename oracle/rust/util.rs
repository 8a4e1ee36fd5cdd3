// The crate's util/mod.rs is not in the team's copy. This stands for it. The error type is the including crate's.
#[path = "../../../shared/docs/src/src/util/coord.rs"]
mod coord;
#[path = "../../../shared/docs/src/src/util/datetime.rs"]
mod datetime;
#[path = "../../../shared/docs/src/src/util/display_option.rs"]
mod display_option;
#[path = "../../../shared/docs/src/src/util/manufacturer.rs"]
mod manufacturer;

pub use self::coord::{Compass, RawCoord, RawLatitude, RawLongitude, RawPosition};
pub use self::datetime::{Date, Time};
pub use self::display_option::DisplayOption;
pub use self::manufacturer::Manufacturer;
pub(crate) use crate::error as parse_error;
pub use crate::error::ParseError;
