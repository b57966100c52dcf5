//! Document 02, T-04: what staff compare with a card's replies to range checksums. A range is at
//! most 65,535 bytes, so a longer segment is asked for in several stretches.

use crate::checksum::{checksum, START};
use crate::loader::Outcome;
use crate::packet;
use crate::refusal::{is_region_size, require, Refused};
use crate::text::{self, Segment};

/// The greatest length that the two length bytes of a range checksum can name.
pub const LONGEST_STRETCH: usize = u16::MAX as usize;

/// Bytes of a segment that one range checksum covers.
#[derive(Clone, Debug, PartialEq, Eq)]
pub struct Stretch {
    pub address: u64,
    pub length: usize,
    pub sum: u16,
    /// The packet that asks a card for this stretch.
    pub asked: Vec<u8>,
    /// All that an unlocked loader answers if its region holds the image.
    pub reply: Vec<u8>,
}

/// A segment of a firmware text, with its stretches in order.
#[derive(Clone, Debug, PartialEq, Eq)]
pub struct SegmentSums {
    pub address: u64,
    pub length: usize,
    /// Taken over all bytes at once, so that the stretches can be measured by it.
    pub sum: u16,
    pub stretches: Vec<Stretch>,
}

/// The checksums of a sound text's segments, in text order, by refusals 1, 18, 3, 4 and 5.
pub fn sums(text: &[u8], size: usize) -> Result<Vec<SegmentSums>, Refused> {
    require(is_region_size(size), 1)?;
    let segments = text::image(text, size)?;
    Ok(segments.iter().map(segment_sums).collect())
}

/// An empty segment has no stretch. A card could be asked for no bytes, but an empty segment may
/// stand outside its region.
fn segment_sums(segment: &Segment) -> SegmentSums {
    let addresses = (segment.address..).step_by(LONGEST_STRETCH);
    let parts = segment.bytes.chunks(LONGEST_STRETCH).zip(addresses);
    SegmentSums {
        address: segment.address,
        length: segment.bytes.len(),
        sum: checksum(START, &segment.bytes),
        stretches: parts
            .map(|(bytes, address)| stretch(address, bytes))
            .collect(),
    }
}

/// These bytes lie inside a region, so their address fits the packet.
fn stretch(address: u64, bytes: &[u8]) -> Stretch {
    let sum = checksum(START, bytes);
    Stretch {
        address,
        length: bytes.len(),
        sum,
        asked: packet::range_checksum(address as u32, bytes.len() as u16),
        reply: Outcome::Sum(sum).reply(),
    }
}

#[cfg(test)]
mod tests {
    use super::*;
    use crate::card::Mode;
    use crate::checksum::{checksum_bit_by_bit, joined};
    use crate::loader::Loader;

    /// Bytes in which no two stretches are alike.
    fn bytes(length: usize) -> Vec<u8> {
        (0..length).map(|i| (i * i / 7 + i / 251) as u8).collect()
    }

    fn text(segments: &[(u64, Vec<u8>)]) -> Vec<u8> {
        let mut text = String::new();
        for (address, bytes) in segments {
            text.push_str(&format!("@{address:x}\n"));
            for line in bytes.chunks(16) {
                let pairs: Vec<String> = line.iter().map(|byte| format!("{byte:02x}")).collect();
                text.push_str(&format!("{}\n", pairs.join(" ")));
            }
        }
        text.push('q');
        text.into_bytes()
    }

    /// The sums of these segments, once all is seen to hold that holds of every sound text.
    fn summed(size: usize, segments: &[(u64, Vec<u8>)]) -> Vec<SegmentSums> {
        let text = text(segments);
        let sums = sums(&text, size).unwrap();
        assert_eq!(sums.len(), segments.len());
        let mut region = vec![0; size];
        text::read(&text, size, &mut region).unwrap();
        for (sums, (address, bytes)) in sums.iter().zip(segments) {
            assert_eq!((sums.address, sums.length), (*address, bytes.len()));
            assert_eq!(sums.sum, checksum_bit_by_bit(START, bytes));
            assert_stretches(sums, bytes);
            assert_replies(sums, &mut region);
        }
        sums
    }

    /// The stretches make up the segment, and their sums its sum, continued and joined.
    fn assert_stretches(sums: &SegmentSums, bytes: &[u8]) {
        let mut address = sums.address;
        let mut rest = bytes;
        let (mut continued, mut joined_up) = (START, START);
        for stretch in &sums.stretches {
            assert_eq!(stretch.address, address);
            assert_eq!(stretch.length, rest.len().min(65_535));
            let (part, after) = rest.split_at(stretch.length);
            assert!(!part.is_empty());
            assert_eq!(stretch.sum, checksum_bit_by_bit(START, part));
            continued = checksum(continued, part);
            joined_up = joined(joined_up, stretch.sum, stretch.length as u16);
            assert_eq!(continued, joined_up);
            address += stretch.length as u64;
            rest = after;
        }
        assert!(rest.is_empty());
        assert_eq!((continued, joined_up), (sums.sum, sums.sum));
    }

    /// An unlocked loader over the picture answers what each stretch says, and staff who have only
    /// its replies come to the segment's sum.
    fn assert_replies(sums: &SegmentSums, region: &mut [u8]) {
        let mut from_replies = START;
        for stretch in &sums.stretches {
            let reply = answered(region, &stretch.asked);
            assert_eq!(reply, stretch.reply);
            let sum = u16::from_le_bytes([reply[5], reply[6]]);
            from_replies = joined(from_replies, sum, stretch.length as u16);
        }
        assert_eq!(from_replies, sums.sum);
    }

    fn answered(region: &mut [u8], message: &[u8]) -> Vec<u8> {
        let loader = Loader {
            mode: Mode::Unlocked,
            expected: 0,
            password: &[0xFF; 256],
            region,
        };
        let outcome = loader.judge(message);
        assert!(outcome.is_success());
        outcome.reply()
    }

    fn lengths(sums: &SegmentSums) -> Vec<usize> {
        sums.stretches
            .iter()
            .map(|stretch| stretch.length)
            .collect()
    }

    #[test]
    fn no_segment() {
        assert_eq!(summed(4_096, &[]), []);
        assert_eq!(sums(b"q\r\n", 4_096), Ok(vec![]));
    }

    /// An empty segment may stand at any address, the region's end and the last one included.
    #[test]
    fn empty_segments() {
        let addresses = [0, 4_095, 4_096, 0xFFFF_FFFF, 0];
        let sums = summed(4_096, &addresses.map(|address| (address, vec![])));
        for (sums, address) in sums.into_iter().zip(addresses) {
            let empty = SegmentSums {
                address,
                length: 0,
                sum: 0xFFFF,
                stretches: vec![],
            };
            assert_eq!(sums, empty);
        }
    }

    /// One byte 0x15, whose checksum is document 01's for the erase core.
    #[test]
    fn one_byte() {
        for address in [0, 1, 0x0FFF] {
            let sums = summed(4_096, &[(address, vec![0x15])]);
            assert_eq!((sums.len(), sums[0].sum), (1, 0xA364));
            assert_eq!(lengths(&sums[0]), [1]);
            assert_eq!(sums[0].stretches[0].sum, 0xA364);
        }
    }

    /// Source document 001 asks for 1,024 bytes at 0x4400, and the card answers 0x55 and 0xAA. The
    /// bytes aren't printed; here are some with that checksum.
    #[test]
    fn printed_packet_and_reply() {
        let mut bytes = bytes(1_022);
        let register = checksum(START, &bytes);
        let mut all = (0..=u16::MAX).map(u16::to_be_bytes);
        bytes.extend(all.find(|last| checksum(register, last) == 0xAA55).unwrap());
        let sums = summed(0x5000, &[(0x4400, bytes)]);
        let expected = Stretch {
            address: 0x4400,
            length: 1_024,
            sum: 0xAA55,
            asked: vec![0x80, 7, 0, 0x26, 0x00, 0x44, 0, 0, 0x00, 0x04, 0xF7, 0xE6],
            reply: vec![0x00, 0x80, 3, 0, 0x3A, 0x55, 0xAA, 0x12, 0x2B],
        };
        assert_eq!(sums[0].stretches, [expected]);
        assert_eq!(sums[0].sum, 0xAA55);
    }

    #[test]
    fn stretches_of_65535_and_the_rest() {
        let cases: [(usize, &[usize]); 8] = [
            (65_534, &[65_534]),
            (65_535, &[65_535]),
            (65_536, &[65_535, 1]),
            (131_069, &[65_535, 65_534]),
            (131_070, &[65_535, 65_535]),
            (131_071, &[65_535, 65_535, 1]),
            (196_605, &[65_535, 65_535, 65_535]),
            (262_144, &[65_535, 65_535, 65_535, 65_535, 4]),
        ];
        for (length, expected) in cases {
            // The first and the last address at which the segment fits.
            for address in [0, 262_144 - length as u64] {
                let sums = summed(262_144, &[(address, bytes(length))]);
                assert_eq!(lengths(&sums[0]), expected, "{length}");
            }
        }
    }

    /// The segments of source document 001's sample file, the one at 0 last, and an empty one. That
    /// at 0 ends where the first begins, and stays a segment of its own.
    #[test]
    fn segments_in_text_order() {
        let segments = [
            (0x200, bytes(0x1_F580)),
            (0x1_F780, bytes(0x16D8)),
            (0x2_0E58, bytes(100)),
            (0x3_FFFF, vec![]),
            (0, bytes(0x200)),
        ];
        let sums = summed(262_144, &segments);
        let lengths: Vec<Vec<usize>> = sums.iter().map(lengths).collect();
        let expected = [
            vec![65_535, 62_849],
            vec![0x16D8],
            vec![100],
            vec![],
            vec![512],
        ];
        assert_eq!(lengths, expected);
    }

    /// One bit changed in the flash shows in the reply for its own stretch and in no other.
    #[test]
    fn another_byte_in_the_flash_shows() {
        let sums = summed(69_632, &[(1, bytes(65_536))]);
        let mut region = vec![0xFF; 69_632];
        region[1..65_537].copy_from_slice(&bytes(65_536));
        for (place, differing) in [
            (0, None),
            (1, Some(0)),
            (65_535, Some(0)),
            (65_536, Some(1)),
        ] {
            region[place] ^= 0x10;
            for (number, stretch) in sums[0].stretches.iter().enumerate() {
                let is_other = answered(&mut region, &stretch.asked) != stretch.reply;
                assert_eq!(is_other, differing == Some(number), "{place}");
            }
            region[place] ^= 0x10;
        }
    }

    fn refused(text: &[u8], size: usize) -> (u8, usize) {
        let refused = sums(text, size).unwrap_err();
        let mut region = vec![0; size];
        assert_eq!(text::read(text, size, &mut region), Err(refused));
        (refused.number, refused.place)
    }

    /// Each text would meet the later refusals too, and `text::read` refuses it alike.
    #[test]
    fn refusals_in_order() {
        let mut long = b"@0\n00\n@0\n00\n@1000\n00\nQ".to_vec();
        let malformed = long.clone();
        long.resize(1_048_577, b' ');
        for size in [0, 1, 4_095, 4_097, 6_000, 262_143, 266_240] {
            assert_eq!(refused(&long, size), (1, 0));
            assert_eq!(refused(b"q", size), (1, 0));
        }
        assert_eq!(refused(&long, 4_096), (18, 0));
        assert_eq!(refused(&long[..1_048_576], 4_096), (3, 21));
        assert_eq!(refused(&malformed, 4_096), (3, 21));
        assert_eq!(refused(b"", 4_096), (3, 0));
        assert_eq!(refused(b"@2", 4_096), (3, 2));
        assert_eq!(refused(b"@0\n00\n@0\n00\n@1000\n00\nq", 4_096), (4, 18));
        assert_eq!(refused(b"@ffffffff\n00 01\nq", 262_144), (4, 10));
        assert_eq!(refused(b"@10\n01 02\n@11\n03\nq", 4_096), (5, 14));
    }

    #[test]
    fn the_longest_text() {
        let text = format!("{}q", "@7\n".repeat(349_525)).into_bytes();
        assert_eq!(text.len(), 1_048_576);
        assert_eq!(sums(&text, 4_096).unwrap().len(), 349_525);
    }
}
