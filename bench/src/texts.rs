//! Firmware texts for a region of 262,144 bytes. They are the same in every run.

use std::fmt::Write;

pub const SIZE: usize = 262_144;
pub const LONGEST: usize = 1_048_576;

/// A text, and what the reader must answer.
pub struct Text {
    pub name: &'static str,
    pub bytes: Vec<u8>,
    pub refused: Option<(u8, usize)>,
}

impl Text {
    pub fn of(name: &'static str, bytes: Vec<u8>) -> Text {
        assert!(bytes.len() <= LONGEST, "a text is too long");
        Text {
            name,
            bytes,
            refused: None,
        }
    }
}

/// A byte that looks random.
pub fn value_at(address: u32) -> u8 {
    let x = (address + 1).wrapping_mul(2_654_435_761);
    ((x ^ x >> 15).wrapping_mul(2_246_822_519) >> 24) as u8
}

/// The bytes of a whole region, of which there are many.
pub fn image(number: u32) -> Vec<u8> {
    let first = number * SIZE as u32;
    (first..first + SIZE as u32).map(value_at).collect()
}

/// Every byte of the region, 16 in a line.
pub fn whole(name: &'static str, image: &[u8], end: &str) -> Text {
    let mut text = format!("@0{end}");
    for line in image.chunks(16) {
        let pairs: Vec<String> = line.iter().map(|byte| format!("{byte:02X}")).collect();
        text += &pairs.join(" ");
        text += end;
    }
    text += "q";
    text += end;
    Text::of(name, text.into_bytes())
}

pub fn full() -> Text {
    whole("full region", &image(0), "\n")
}

pub fn with_carriage_returns() -> Text {
    whole("CR LF", &image(0), "\r\n")
}

fn add_segment(text: &mut String, address: u32) {
    writeln!(text, "@{address:X}\n{:02X}", value_at(address)).expect("a string takes it");
}

/// One-byte segments in as many bytes as the full region's text has; the odd factor takes each address once, in scattered
/// order.
pub fn scattered() -> Text {
    let length = full().bytes.len();
    let mut text = String::new();
    for i in 0..SIZE as u64 {
        if text.len() + 12 > length {
            break;
        }
        add_segment(&mut text, (i * 158_429 % SIZE as u64) as u32);
    }
    text += "q\n";
    Text::of("one-byte segments", text.into_bytes())
}

/// The shortest one-byte segments, as many as the longest text holds.
pub fn longest() -> Text {
    let mut text = String::new();
    let mut next = String::new();
    for address in 0.. {
        next.clear();
        add_segment(&mut next, address);
        if text.len() + next.len() + 1 > LONGEST {
            break;
        }
        text += &next;
    }
    text += "q";
    Text::of("most one-byte segments", text.into_bytes())
}

/// The full region's text with another letter for its q.
pub fn malformed() -> Text {
    let mut text = full();
    let place = text.bytes.len() - 2;
    text.name = "malformed at the end";
    text.bytes[place] = b'x';
    text.refused = Some((3, place));
    text
}
