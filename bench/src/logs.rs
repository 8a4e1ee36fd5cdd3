//! The logs that are timed. Each grows to a size in bytes and is the same in every run.

pub struct Log {
    pub name: &'static str,
    pub text: String,
}

fn grown(name: &'static str, head: &str, size: usize, line: impl Fn(usize) -> String) -> Log {
    let mut text = String::from(head);
    let mut i = 0;
    while text.len() < size {
        text.push_str(&line(i));
        text.push_str("\r\n");
        i += 1;
    }
    Log { name, text }
}

/// A fix every second, climbing and sinking, with three extensions.
fn fix(i: usize) -> String {
    let (h, m, s) = (8 + i / 3600 % 10, i / 60 % 60, i % 60);
    let (lat, lon) = (i * 7 % 60000, i * 13 % 60000);
    let height = (i * 31) % 4000;
    format!("B{h:02}{m:02}{s:02}47{lat:05}N011{lon:05}EA{height:05}{:05}{:03}{:02}{:03}", height + 57, i % 100, i % 13, i % 1000)
}

const HEAD: &str = "AXXXABCFLIGHT:1\r\nHFDTE150826\r\nI033638FXA3940SIU4143ENL\r\n";

pub fn fixes(size: usize) -> Log {
    grown("B lines", HEAD, size, fix)
}

/// Every kind of line that both readers take, in turn.
pub fn mixed(size: usize) -> Log {
    grown("mixed", HEAD, size, |i| match i % 10 {
        0 => "AXXXABCFLIGHT:1".into(),
        1 => "HFPLTPILOTINCHARGE:Bloggs Bill D".into(),
        2 => "HFGTYGLIDERTYPE:LS3a".into(),
        3 => "I033638FXA3940SIU4143ENL".into(),
        4 => "J010812HDT".into(),
        5 => "C150826101530160701000102500K Tri".into(),
        6 => "C5111359N00101899WLasham Clubhouse".into(),
        _ => fix(i),
    })
}

/// Lines that are refused, each for its own reason, up to the last column.
pub fn damaged(size: usize) -> Log {
    grown("damaged", HEAD, size, |i| match i % 10 {
        0 => fix(i)[..34].into(),
        1 => fix(i).replacen('N', "X", 1),
        2 => fix(i).replacen("EA", "EX", 1),
        3 => format!("{}é", fix(i)),
        4 => fix(i).replacen("B0", "B9", 1).replacen("B1", "B9", 1),
        5 => format!("{}-x123", &fix(i)[..30]),
        6 => "I033638FXA3940SIU4x43ENL".into(),
        7 => "C150826101530160799000102500K Tr".replace("82610", "8x610"),
        8 => "C5111359X00101899WLasham Clubhouse".into(),
        _ => "HF".into(),
    })
}

/// The letters of all makers, and three that none has.
const LETTERS: &[u8] = b"ICDEFGAMLVNKPRHSTZXBY";

/// The triples of all makers, and three that none has.
const TRIPLES: [&str; 26] = [
    "ACT", "CAM", "CNI", "DSX", "EWA", "FIL", "FLA", "FLY", "GCS", "IMI", "LGS", "LXN", "LXV", "NAV", "NTE", "NKL",
    "PES", "PFE", "PRT", "SCH", "SDI", "TRI", "ZAN", "XXX", "XCS", "LXX",
];

/// A lines of the three forms, half of them with a text behind the id. The makers come in no order that a processor
/// could learn.
pub fn recorders(size: usize) -> Log {
    grown("A lines", "", size, |i| {
        let n = (i as u64).wrapping_mul(0x9e37_79b9_7f4a_7c15) as usize >> 20;
        let (letter, triple) = (LETTERS[n % LETTERS.len()] as char, TRIPLES[n % TRIPLES.len()]);
        let rest = ["", "FLIGHT:1"][n / 64 % 2];
        match n / 128 % 3 {
            0 => format!("A{letter}{:05}{rest}", n % 100000),
            1 => format!("A{triple}{:05}{rest}", n % 100000),
            _ => format!("A{triple}{}{rest}", ["ABC", "X7Q"][n / 512 % 2]),
        }
    })
}
