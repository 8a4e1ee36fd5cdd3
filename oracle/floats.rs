// The Rust's own conversions, unchanged, over every degree 0 to 180 and thousandth 0 to 60000: two running sums of the bits.
// The proved program crates/gate_degrees works out the same sums.
mod util {
    // coord.rs names this type of the crate's; its readers are not called here.
    pub enum ParseError {
        SyntaxError,
        NonASCIICharacters,
        NumberOutOfRange,
    }

    impl From<std::num::ParseIntError> for ParseError {
        fn from(_: std::num::ParseIntError) -> Self {
            ParseError::SyntaxError
        }
    }
}

#[path = "../../shared/docs/src/src/util/coord.rs"]
mod coord;

use coord::{Compass, RawCoord, RawLatitude, RawLongitude};

fn sums(bits: impl Fn(u8, u16) -> u64) -> (u64, u64) {
    let (mut a, mut b) = (0u64, 0u64);
    for degrees in 0..=180 {
        for thousandths in 0..=60000 {
            a = a.wrapping_add(bits(degrees, thousandths));
            b = b.wrapping_add(a);
        }
    }
    (a, b)
}

fn raw(degrees: u8, minute_thousandths: u16, sign: Compass) -> RawCoord {
    RawCoord { degrees, minute_thousandths, sign }
}

fn main() {
    use Compass::*;
    let rows = [
        ("f32 N", sums(|d, t| u64::from(f32::from(RawLatitude(raw(d, t, North))).to_bits()))),
        ("f32 S", sums(|d, t| u64::from(f32::from(RawLatitude(raw(d, t, South))).to_bits()))),
        ("f32 E", sums(|d, t| u64::from(f32::from(RawLongitude(raw(d, t, East))).to_bits()))),
        ("f32 W", sums(|d, t| u64::from(f32::from(raw(d, t, West)).to_bits()))),
        ("f64 N", sums(|d, t| f64::from(RawLatitude(raw(d, t, North))).to_bits())),
        ("f64 S", sums(|d, t| f64::from(RawLatitude(raw(d, t, South))).to_bits())),
        ("f64 E", sums(|d, t| f64::from(RawLongitude(raw(d, t, East))).to_bits())),
        ("f64 W", sums(|d, t| f64::from(raw(d, t, West)).to_bits())),
    ];
    for (name, (a, b)) in rows {
        println!("{name} {a} {b}");
    }
}
