//! Document 01, "Scripts, planner, checker": the planner.

use crate::packet::{self, push_packet};
use crate::refusal::{is_region_size, require, Refused, PASSWORD};
use crate::script::HEAD;
use crate::text::{self, Segment};

/// The data bytes of a full write.
pub const BLOCK: usize = 256;

/// Writes the script over the front of the output and answers its length.
pub fn plan(
    text: &[u8],
    password: &[u8],
    entry: u32,
    size: usize,
    out: &mut [u8],
) -> Result<usize, Refused> {
    require(is_region_size(size), 1)?;
    require(password.len() == PASSWORD, 2)?;
    require((entry as usize) < size, 14)?;
    let segments = text::image(text, size)?;
    let script = script(&segments, password, entry, BLOCK);
    require(script.len() <= out.len(), 13)?;
    out[..script.len()].copy_from_slice(&script);
    Ok(script.len())
}

/// Password, erase, each segment in text order as blocks from its start, start.
pub fn script(segments: &[Segment], password: &[u8], entry: u32, block: usize) -> Vec<u8> {
    let mut script = HEAD.to_vec();
    push_packet(&mut script, &[&[packet::PASSWORD], password]);
    push_packet(&mut script, &[&[packet::ERASE]]);
    for segment in segments {
        let addresses = (segment.address as u32..).step_by(block);
        // The blocks come first: an empty segment at the last address has no address to step to.
        for (data, address) in segment.bytes.chunks(block).zip(addresses) {
            push_packet(
                &mut script,
                &[&[packet::WRITE], &address.to_le_bytes(), data],
            );
        }
    }
    push_packet(&mut script, &[&[packet::START], &entry.to_le_bytes()]);
    script
}

#[cfg(test)]
mod tests {
    use super::*;
    use crate::script::frames;

    const FF: [u8; 256] = [0xFF; 256];

    /// A text with one segment of `length` bytes at this address.
    fn text(address: usize, length: usize) -> Vec<u8> {
        format!("@{address:x}\n{}q\n", "5a\n".repeat(length)).into_bytes()
    }

    #[test]
    fn blocks_of_256_and_the_rest() {
        let mut out = vec![7; 2_000];
        let length = plan(&text(0x203, 513), &FF, 0x201, 4_096, &mut out).unwrap();
        let frames = frames(&out[..length]).unwrap();
        let expected = [
            packet::password(&FF),
            packet::erase(),
            packet::write(0x203, &[0x5A; 256]),
            packet::write(0x303, &[0x5A; 256]),
            packet::write(0x403, &[0x5A]),
            packet::start(0x201),
        ];
        assert_eq!(frames, expected);
        assert!(out[length..].iter().all(|&byte| byte == 7));
    }

    #[test]
    fn empty_segments_have_no_packet() {
        let mut out = vec![7; 2_000];
        let length = plan(b"@0\n@ffffffff\nq", &FF, 0, 4_096, &mut out).unwrap();
        assert_eq!(length, 5 + 262 + 6 + 10);
        assert_eq!(frames(&out[..length]).unwrap().len(), 3);
    }

    #[test]
    fn refusals_in_order() {
        let long = vec![b'q'; 1_048_577];
        let twice = b"@0\n00\n@0\n00\nq".as_slice();
        let refused = |text: &[u8], password: &[u8], entry, size, room| {
            let mut out = vec![0; room];
            plan(text, password, entry, size, &mut out).map_err(|refused| refused.number)
        };
        assert_eq!(refused(&long, &FF[1..], 4_096, 4_095, 0), Err(1));
        assert_eq!(refused(&long, &FF[1..], 4_096, 4_096, 0), Err(2));
        assert_eq!(refused(&long, &FF, 4_096, 4_096, 0), Err(14));
        assert_eq!(refused(&long, &FF, 4_095, 4_096, 0), Err(18));
        assert_eq!(refused(&long[1..], &FF, 4_095, 4_096, 0), Err(3));
        assert_eq!(refused(&text(4_096, 1), &FF, 4_095, 4_096, 0), Err(4));
        assert_eq!(refused(twice, &FF, 4_095, 4_096, 0), Err(5));
        assert_eq!(refused(b"q", &FF, 4_095, 4_096, 282), Err(13));
        assert_eq!(refused(b"q", &FF, 4_095, 4_096, 283), Ok(283));
    }
}
