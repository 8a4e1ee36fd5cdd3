// The sums that crates/gate_numbers works out, by the standard library's own parsing. A text that is not UTF-8 counts as refused.
fn code(read: Option<i64>) -> u64 {
    let text = match read {
        Some(v) => format!("{:06}", v).into_bytes(),
        None => return 0,
    };
    (0..6).rev().fold(0, |sum, i| sum * 256 + text[i] as u64)
}

fn sums(row: u8, width: usize, end: u64) -> (u64, u64) {
    let (mut a, mut b) = (0u64, 0u64);
    for n in 0..end {
        let bytes = [n as u8, (n >> 8) as u8, (n >> 16) as u8];
        let read = std::str::from_utf8(&bytes[..width]).ok().and_then(|text| match row {
            0 => text.parse::<u8>().ok().map(i64::from),
            1 => text.parse::<u16>().ok().map(i64::from),
            2 => text.parse::<i8>().ok().map(i64::from),
            _ => text.parse::<i16>().ok().map(i64::from),
        });
        a = a.wrapping_add(code(read));
        b = b.wrapping_add(a);
    }
    (a, b)
}

fn main() {
    for (row, name) in ["u8", "u16", "i8", "i16"].iter().enumerate() {
        for (width, end) in [(0, 1), (1, 256), (2, 65536), (3, 16777216)] {
            let (a, b) = sums(row as u8, width, end);
            println!("{} {} {} {}", name, width, a, b);
        }
    }
}
