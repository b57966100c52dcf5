//! Document 01, "Checksum and packet", and document 02, T-04: CRC16-CCITT, high bit of each byte
//! first, continued from any register.

use crate::bit_loops::eight_steps;

/// The checksum from this start by its bit rule.
pub use crate::bit_loops::by_branch as checksum_bit_by_bit;

/// The register that every checksum of document 01 starts from.
pub const START: u16 = 0xFFFF;
const TABLE: [u16; 256] = table();

/// What eight steps of the bit rule make of a register with this high byte and no low one.
const fn table() -> [u16; 256] {
    let mut table = [0; 256];
    let mut byte = 0;
    while byte < 256 {
        table[byte] = eight_steps((byte as u16) << 8);
        byte += 1;
    }
    table
}

/// The checksum from this start, a table look-up for each byte.
pub fn checksum(start: u16, bytes: &[u8]) -> u16 {
    bytes.iter().fold(start, |register, &byte| {
        (register << 8) ^ TABLE[usize::from((register >> 8) as u8 ^ byte)]
    })
}

/// The checksum of joined bytes from a card's replies to two range checksums: `first` for the bytes
/// in front, however many, and `second` for the `length` bytes behind.
///
/// The card ran over the bytes behind from START. Over the joined bytes the register runs over them
/// from `first`. T-04's linearity, with the bytes behind as both of its strings, says how far these
/// two registers are apart: their exclusive or is the register from `first` xor START over the
/// bytes behind xor themselves. Those are zeros, so it is enough to know how many there are.
pub fn joined(first: u16, second: u16, length: u16) -> u16 {
    let zeros = vec![0x00; usize::from(length)];
    second ^ checksum(first ^ START, &zeros)
}

#[cfg(test)]
pub(crate) mod tests {
    use super::*;
    use std::iter::successors;

    const FORMS: [fn(u16, &[u8]) -> u16; 2] = [checksum, checksum_bit_by_bit];

    /// Numbers that look random and are the same in each run of the tests (Knuth's generator; those
    /// of xorshift are linear themselves, and would try linearity less).
    pub fn numbers(seed: u64) -> impl Iterator<Item = u16> {
        let next = |&number: &u64| {
            let number = number.wrapping_mul(6_364_136_223_846_793_005);
            Some(number.wrapping_add(1_442_695_040_888_963_407))
        };
        successors(next(&seed), next).map(|number| (number >> 48) as u16)
    }

    pub fn bytes(seed: u64, length: usize) -> Vec<u8> {
        let bytes = numbers(seed).map(|number| number as u8);
        bytes.take(length).collect()
    }

    fn starts() -> Vec<u16> {
        let mut starts = vec![
            0, 1, 0x00FF, 0x1021, 0x1D0F, 0x5A5A, 0x7FFF, 0x8000, 0xFF00, START,
        ];
        starts.extend(numbers(0x5EED_0004).take(10));
        starts
    }

    fn strings() -> Vec<Vec<u8>> {
        vec![
            vec![],
            vec![0x00],
            vec![0xFF],
            vec![0x80, 0x01],
            b"123456789".to_vec(),
            vec![0x00; 40],
            vec![0xFF; 40],
            bytes(1, 300),
        ]
    }

    /// The two bytes that take the register from one value to another.
    fn two_bytes(from: u16, to: u16) -> [u8; 2] {
        let mut all = (0..=u16::MAX).map(u16::to_be_bytes);
        let found = all.find(|bytes| checksum(from, bytes) == to);
        found.expect("two bytes take a register to any other")
    }

    /// What the checksums of the parts before and after the cut are joined to.
    fn joined_at(cut: usize, bytes: &[u8]) -> u16 {
        let (front, behind) = bytes.split_at(cut);
        let length = u16::try_from(behind.len()).unwrap();
        joined(checksum(START, front), checksum(START, behind), length)
    }

    /// The worked numbers of document 01 and the vectors printed in source document 001.
    #[test]
    fn worked_numbers() {
        let mut password = vec![0x21];
        password.extend([0xFF; 256]);
        let vectors: [(&[u8], u16); 9] = [
            (&[], 0xFFFF),
            (&[0x3B, 0x00], 0xC460),
            (&[0x15], 0xA364),
            (&[0x20, 0, 0, 1, 0, 0x10, 0x32, 0x54, 0x76], 0x9666),
            (&[0x26, 0x00, 0x44, 0x00, 0x00, 0x00, 0x04], 0xE6F7),
            (&[0x3A, 0x55, 0xAA], 0x2B12),
            (&password, 0x08AD),
            (&[0x27, 0x01, 0x02, 0x00, 0x00], 0x66B8),
            (b"123456789", 0x29B1),
        ];
        for (bytes, sum) in vectors {
            assert_eq!(checksum(START, bytes), sum, "{bytes:02X?}");
            assert_eq!(checksum_bit_by_bit(START, bytes), sum, "{bytes:02X?}");
        }
    }

    /// The check values that are published for other starts: CRC-16/XMODEM and
    /// CRC-16/SPI-FUJITSU. The start of the latter is what two zero bytes make of START.
    #[test]
    fn published_starts() {
        for form in FORMS {
            assert_eq!(form(0x0000, b"123456789"), 0x31C3);
            assert_eq!(form(0x1D0F, b"123456789"), 0xE5CC);
            assert_eq!(form(START, &[0, 0]), 0x1D0F);
            assert_eq!(form(START, b"\x00\x00123456789"), 0xE5CC);
        }
    }

    #[test]
    fn table_agrees_with_the_bit_rule() {
        let bytes: Vec<u8> = (0..500u32).map(|i| (i * i / 8) as u8).collect();
        for start in starts() {
            for end in 0..=bytes.len() {
                let bytes = &bytes[..end];
                assert_eq!(checksum(start, bytes), checksum_bit_by_bit(start, bytes));
            }
        }
    }

    /// Every step that either form can take; strings are made of such steps.
    #[test]
    fn forms_agree_on_every_register_and_byte() {
        for start in 0..=u16::MAX {
            for byte in 0..=u8::MAX {
                let (table, bits) = (
                    checksum(start, &[byte]),
                    checksum_bit_by_bit(start, &[byte]),
                );
                assert_eq!(table, bits, "{start:04X} {byte:02X}");
            }
        }
    }

    #[test]
    fn no_bytes_keep_every_start() {
        for start in 0..=u16::MAX {
            assert_eq!(FORMS.map(|form| form(start, &[])), [start; 2]);
        }
    }

    /// Every cut, so that a part is empty on either side too.
    #[test]
    fn one_part_and_then_another() {
        for start in starts() {
            for string in strings() {
                for cut in 0..=string.len() {
                    let (front, behind) = string.split_at(cut);
                    for form in FORMS {
                        let continued = form(form(start, front), behind);
                        assert_eq!(continued, form(start, &string), "{start:04X} {cut}");
                    }
                }
            }
        }
    }

    /// The names are those of T-04.
    #[test]
    fn linear_in_starts_and_bytes() {
        for length in [0, 1, 2, 3, 16, 17, 255, 256, 1_000] {
            let (x, y) = (bytes(2, length), bytes(3, length));
            let x_xor_y: Vec<u8> = x.iter().zip(&y).map(|(x, y)| x ^ y).collect();
            for a in starts() {
                for b in starts() {
                    for form in FORMS {
                        assert_eq!(form(a, &x) ^ form(b, &y), form(a ^ b, &x_xor_y));
                    }
                }
            }
        }
    }

    #[test]
    fn joined_at_every_cut() {
        for string in strings() {
            for cut in 0..=string.len() {
                assert_eq!(joined_at(cut, &string), checksum(START, &string), "{cut}");
            }
        }
    }

    /// As many bytes behind as a range checksum can name, and more than that in front.
    #[test]
    fn joined_with_many_bytes() {
        let bytes = bytes(4, 200_000);
        for front in [0, 1, 2, 65_534, 65_535, 65_536, 131_070, 134_465] {
            for behind in [0, 1, 255, 256, 257, 32_767, 32_768, 65_534, 65_535] {
                let bytes = &bytes[..front + behind];
                let whole = checksum(START, bytes);
                assert_eq!(joined_at(front, bytes), whole, "{front} {behind}");
            }
        }
    }

    /// It makes no difference which two of three neighbours are joined first.
    #[test]
    fn three_parts_joined_from_either_end() {
        let bytes = bytes(5, 60);
        let whole = checksum(START, &bytes);
        for second in 0..=60 {
            for third in second..=60 {
                let parts = [&bytes[..second], &bytes[second..third], &bytes[third..]];
                let [a, b, c] = parts.map(|part| checksum(START, part));
                let [_, b_length, c_length] = parts.map(|part| part.len() as u16);
                let from_the_front = joined(joined(a, b, b_length), c, c_length);
                let from_the_back = joined(a, joined(b, c, c_length), b_length + c_length);
                assert_eq!((from_the_front, from_the_back), (whole, whole));
            }
        }
    }

    /// Two bytes or more can have any checksum, so here are bytes for any arguments.
    #[test]
    fn joined_for_any_two_replies() {
        let mut numbers = numbers(6);
        for length in [2, 3, 4, 100, 255, 256, 32_767, 32_769, 65_535] {
            for (first, second) in numbers.by_ref().zip(starts()) {
                let mut bytes = two_bytes(START, first).to_vec();
                bytes.resize(usize::from(length), 0x5A);
                let before_the_last = checksum(START, &bytes[2..]);
                bytes.extend(two_bytes(before_the_last, second));
                let sum = checksum(START, &bytes);
                assert_eq!(joined(first, second, length), sum, "{length}");
            }
        }
    }

    /// With nothing in front the second checksum stands, with nothing behind the first.
    #[test]
    fn nothing_on_one_side() {
        for sum in 0..=u16::MAX {
            assert_eq!(joined(sum, START, 0), sum);
            assert_eq!(joined(START, sum, 0), sum);
            assert_eq!(joined(START, sum, 9), sum);
        }
        for sum in starts() {
            assert_eq!(joined(START, sum, 65_535), sum);
        }
    }

    /// The bytes behind hide no change in front: another first checksum joins to another.
    #[test]
    fn each_first_checksum_joins_to_its_own() {
        for length in [0, 1, 2, 3, 16, 17, 100] {
            let mut seen = vec![false; 65_536];
            for first in 0..=u16::MAX {
                seen[usize::from(joined(first, 0x29B1, length))] = true;
            }
            assert!(!seen.contains(&false), "{length}");
        }
    }

    /// The polynomial is x + 1 times a primitive one of degree 15, so 32,767 zero bytes bring every
    /// register back. The least number that does divides it, and 32,767 is 7 * 31 * 151.
    #[test]
    fn lengths_come_round_after_32767() {
        for bit in 0..16 {
            let joined = |length| joined(START ^ 1 << bit, 0x29B1, length);
            assert_eq!([joined(32_767), joined(65_534)], [joined(0); 2]);
            for divisor in [1, 7, 31, 151, 217, 1_057, 4_681] {
                assert_ne!(joined(divisor), joined(0), "{bit} {divisor}");
            }
        }
    }
}
