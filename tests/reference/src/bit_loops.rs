//! Document 02, T-05: the checksum with no table, in the forms in which it may be written bit by
//! bit, for a benchmark to hold the table against.
//!
//! There are several because the optimiser treats them very unequally. LLVM 22 recognises
//! `by_branch` and `by_two_bytes`, and puts a look-up in a table of its own in place of their loops
//! over bits. What is measured of these two is then no loop over bits, and needs the others beside
//! it.

const POLYNOMIAL: u16 = 0x1021;

/// A form of the checksum: the register to start from, and the bytes to run over.
pub type Form = fn(u16, &[u8]) -> u16;

/// Each form under the name that a benchmark prints.
pub const FORMS: [(&str, Form); 7] = [
    ("an `if` on the top bit", by_branch),
    ("the polynomial under a mask", by_mask),
    ("an `if` in 32 bits", in_u32),
    ("each data bit on its own", by_data_bit),
    ("the mask in 32 bits", in_u32_by_mask),
    ("an `if`, two bytes at a time", by_two_bytes),
    ("eight steps at once, no bit loop", by_whole_byte),
];

/// Eight steps of the bit rule. The table is made of them too, while compiling, where `for` cannot
/// be used.
pub(crate) const fn eight_steps(mut register: u16) -> u16 {
    let mut bit = 0;
    while bit < 8 {
        let carry = register & 0x8000 != 0;
        register <<= 1;
        if carry {
            register ^= POLYNOMIAL;
        }
        bit += 1;
    }
    register
}

/// The plainest form: a byte goes into the top of the register, and eight steps follow.
pub fn by_branch(start: u16, bytes: &[u8]) -> u16 {
    bytes.iter().fold(start, |register, &byte| {
        eight_steps(register ^ (u16::from(byte) << 8))
    })
}

/// No branch: a top bit of one makes a mask of ones, and a top bit of zero one of zeros.
pub fn by_mask(start: u16, bytes: &[u8]) -> u16 {
    let mut register = start;
    for &byte in bytes {
        register ^= u16::from(byte) << 8;
        for _ in 0..8 {
            let mask = (register >> 15).wrapping_neg();
            register = (register << 1) ^ (POLYNOMIAL & mask);
        }
    }
    register
}

/// The bit that leaves the register is still there to be tested. It is a term of the polynomial,
/// x^16, so the exclusive or that it calls for clears it.
pub fn in_u32(start: u16, bytes: &[u8]) -> u16 {
    let mut register = u32::from(start);
    for &byte in bytes {
        register ^= u32::from(byte) << 8;
        for _ in 0..8 {
            register <<= 1;
            if register & 0x1_0000 != 0 {
                register ^= 0x1_1021;
            }
        }
    }
    register as u16
}

/// The byte stays outside the register: each of its bits is compared with the one that leaves.
pub fn by_data_bit(start: u16, bytes: &[u8]) -> u16 {
    let mut register = start;
    for &byte in bytes {
        for place in (0..8).rev() {
            let data_bit = (byte >> place) & 1 != 0;
            let top_bit = register & 0x8000 != 0;
            register <<= 1;
            if data_bit != top_bit {
                register ^= POLYNOMIAL;
            }
        }
    }
    register
}

/// No branch, and the bits that left stay above the register, where nothing looks at them: no step
/// has to cut the register to 16 bits.
pub fn in_u32_by_mask(start: u16, bytes: &[u8]) -> u16 {
    let mut register = u32::from(start);
    for &byte in bytes {
        register ^= u32::from(byte) << 8;
        for _ in 0..8 {
            let mask = ((register >> 15) & 1).wrapping_neg();
            register = (register << 1) ^ (u32::from(POLYNOMIAL) & mask);
        }
    }
    register as u16
}

/// Two bytes fill the register, and sixteen steps follow. A last byte alone has eight.
pub fn by_two_bytes(start: u16, bytes: &[u8]) -> u16 {
    let mut register = start;
    let mut pairs = bytes.chunks_exact(2);
    for pair in pairs.by_ref() {
        register ^= u16::from_be_bytes([pair[0], pair[1]]);
        for _ in 0..16 {
            let carry = register & 0x8000 != 0;
            register <<= 1;
            if carry {
                register ^= POLYNOMIAL;
            }
        }
    }
    by_branch(register, pairs.remainder())
}

/// Not bit by bit, but what the bit rule comes to without a table, so a benchmark shows it too.
///
/// A bit that leaves comes in again at x^12, x^5 and x^0. From x^12 it leaves once more, four steps
/// later: so the first four of the eight bits change the last four, and no others do. When all
/// eight are known they come in together.
pub fn by_whole_byte(start: u16, bytes: &[u8]) -> u16 {
    bytes.iter().fold(start, |register, &byte| {
        let top = (register >> 8) ^ u16::from(byte);
        let leaving = top ^ (top >> 4);
        (register << 8) ^ (leaving << 12) ^ (leaving << 5) ^ leaving
    })
}

#[cfg(test)]
mod tests {
    use super::*;
    use crate::checksum::tests::{bytes, numbers};
    use crate::checksum::{checksum, START};

    fn assert_all(start: u16, bytes: &[u8], sum: u16) {
        for (name, form) in FORMS {
            assert_eq!(form(start, bytes), sum, "{name}: {start:04X} {bytes:02X?}");
        }
    }

    fn assert_as_by_table(start: u16, bytes: &[u8]) {
        assert_all(start, bytes, checksum(start, bytes));
    }

    /// No bit, every bit and each bit alone, and numbers that look random.
    fn starts(random: usize) -> Vec<u16> {
        let mut starts = vec![0, START];
        starts.extend((0..16).map(|bit| 1 << bit));
        starts.extend(numbers(0x5EED_0005).take(random));
        starts
    }

    /// Those of document 01, and the check value that is published for this start.
    #[test]
    fn worked_numbers() {
        assert_all(START, &[], 0xFFFF);
        assert_all(START, &[0x3B, 0x00], 0xC460);
        assert_all(START, &[0x15], 0xA364);
        assert_all(START, &[0x20, 0, 0, 1, 0, 0x10, 0x32, 0x54, 0x76], 0x9666);
        assert_all(START, b"123456789", 0x29B1);
    }

    #[test]
    fn no_bytes_keep_every_start() {
        for start in 0..=u16::MAX {
            assert_all(start, &[], start);
        }
    }

    #[test]
    fn every_byte() {
        for start in starts(300) {
            for byte in 0..=u8::MAX {
                assert_as_by_table(start, &[byte]);
            }
        }
    }

    /// For the form that takes two at a time.
    #[test]
    fn every_two_bytes() {
        for start in [0, 1, START] {
            for pair in 0..=u16::MAX {
                assert_as_by_table(start, &pair.to_be_bytes());
            }
        }
    }

    #[test]
    fn every_length_up_to_600() {
        let bytes = bytes(5, 600);
        for start in starts(6) {
            for length in 0..=bytes.len() {
                assert_as_by_table(start, &bytes[..length]);
            }
        }
    }

    /// The region of T-05, which a benchmark runs over, and a last byte alone behind it.
    #[test]
    fn as_many_bytes_as_the_region() {
        let bytes = bytes(6, 262_145);
        for length in [262_143, 262_144, 262_145] {
            assert_as_by_table(START, &bytes[..length]);
        }
    }

    /// The lines that a benchmark prints are told apart by them.
    #[test]
    fn names_differ() {
        for (place, (name, _)) in FORMS.iter().enumerate() {
            assert!(FORMS[..place].iter().all(|(other, _)| other != name));
        }
    }
}
