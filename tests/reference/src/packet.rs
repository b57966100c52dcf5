//! Document 01, "Checksum and packet": packets built, framed and judged.

use crate::checksum::{self, checksum};

pub const HEADER: u8 = 0x80;
pub const LONGEST_CORE: usize = 261;
/// Header, two length bytes and two checksum bytes.
pub const AROUND_CORE: usize = 5;

pub const PASSWORD: u8 = 0x21;
pub const ERASE: u8 = 0x15;
pub const WRITE: u8 = 0x20;
pub const RANGE_CHECKSUM: u8 = 0x26;
pub const START: u8 = 0x27;
pub const DATA: u8 = 0x3A;
pub const MESSAGE: u8 = 0x3B;

/// The packet around a core of at most 65,535 bytes.
pub fn packet(core: &[u8]) -> Vec<u8> {
    let mut packet = Vec::with_capacity(core.len() + AROUND_CORE);
    push_packet(&mut packet, &[core]);
    packet
}

/// Appends the packet whose core is these parts together.
pub fn push_packet(out: &mut Vec<u8>, parts: &[&[u8]]) {
    let length: usize = parts.iter().map(|part| part.len()).sum();
    out.push(HEADER);
    out.extend((length as u16).to_le_bytes());
    let core = out.len();
    for part in parts {
        out.extend_from_slice(part);
    }
    let sum = checksum(checksum::START, &out[core..]);
    out.extend(sum.to_le_bytes());
}

pub fn password(password: &[u8]) -> Vec<u8> {
    packet(&[&[PASSWORD], password].concat())
}

pub fn erase() -> Vec<u8> {
    packet(&[ERASE])
}

pub fn write(address: u32, data: &[u8]) -> Vec<u8> {
    packet(&[&[WRITE], &address.to_le_bytes()[..], data].concat())
}

pub fn range_checksum(address: u32, length: u16) -> Vec<u8> {
    let (address, length) = (address.to_le_bytes(), length.to_le_bytes());
    packet(&[&[RANGE_CHECKSUM], &address[..], &length].concat())
}

pub fn start(entry: u32) -> Vec<u8> {
    packet(&[&[START], &entry.to_le_bytes()[..]].concat())
}

/// The core length that a message's second and third byte give.
pub fn core_length(message: &[u8]) -> Option<usize> {
    match message {
        [_, low, high, ..] => Some(usize::from(u16::from_le_bytes([*low, *high]))),
        _ => None,
    }
}

/// The checker's framing: how long the frame at the front is, if it is all there.
pub fn frame(bytes: &[u8]) -> Option<usize> {
    core_length(bytes)
        .map(|core| core + AROUND_CORE)
        .filter(|&length| length <= bytes.len())
}

/// The core of a message that is a sound packet, or the first fault's byte in the loader's order.
pub fn core(message: &[u8]) -> Result<&[u8], u8> {
    if message.first() != Some(&HEADER) {
        return Err(0x51);
    }
    let length = core_length(message).ok_or(0x55)?;
    if length == 0 {
        return Err(0x53);
    }
    if length > LONGEST_CORE {
        return Err(0x54);
    }
    if message.len() != length + AROUND_CORE {
        return Err(0x55);
    }
    let (core, sum) = message[3..].split_at(length);
    if sum != checksum(checksum::START, core).to_le_bytes() {
        return Err(0x52);
    }
    Ok(core)
}

#[cfg(test)]
mod tests {
    use super::*;

    #[test]
    fn printed_packets() {
        assert_eq!(erase(), [0x80, 0x01, 0x00, 0x15, 0x64, 0xA3]);
        assert_eq!(packet(&[0x3B, 0x00]), [0x80, 2, 0, 0x3B, 0, 0x60, 0xC4]);
        assert_eq!(
            packet(&[0x3A, 0x55, 0xAA]),
            [0x80, 3, 0, 0x3A, 0x55, 0xAA, 0x12, 0x2B]
        );
        assert_eq!(
            write(0x0001_0000, &[0x10, 0x32, 0x54, 0x76]),
            [0x80, 9, 0, 0x20, 0, 0, 1, 0, 0x10, 0x32, 0x54, 0x76, 0x66, 0x96]
        );
        assert_eq!(
            range_checksum(0x4400, 0x0400),
            [0x80, 7, 0, 0x26, 0, 0x44, 0, 0, 0, 4, 0xF7, 0xE6]
        );
        assert_eq!(start(0x201), [0x80, 5, 0, 0x27, 1, 2, 0, 0, 0xB8, 0x66]);
        let password = password(&[0xFF; 256]);
        assert_eq!(password[..4], [0x80, 0x01, 0x01, 0x21]);
        assert_eq!(password[260..], [0xAD, 0x08]);
        assert_eq!(write(0, &[0; 256])[1..3], [0x05, 0x01]);
    }

    /// The start packet as printed has a wrong checksum.
    #[test]
    fn printed_start_is_wrong() {
        let printed = [0x80, 5, 0, 0x27, 1, 2, 0, 0, 0x8E, 0xBC];
        assert_eq!(core(&printed), Err(0x52));
    }

    #[test]
    fn faults_in_order() {
        let cases: [(&[u8], u8); 9] = [
            (&[], 0x51),
            (&[0x31, 0x31], 0x51),
            (&[0x80], 0x55),
            (&[0x80, 0x01], 0x55),
            (&[0x80, 0x00, 0x00], 0x53),
            (&[0x80, 0x06, 0x01], 0x54),
            (&[0x80, 0x05, 0x01], 0x55),
            (&[0x80, 0x01, 0x00, 0x15, 0x64, 0xA3, 0x00], 0x55),
            (&[0x80, 0x01, 0x00, 0x15, 0xA3, 0x64], 0x52),
        ];
        for (message, fault) in cases {
            assert_eq!(core(message), Err(fault), "{message:02X?}");
        }
        assert_eq!(core(&erase()), Ok(&[0x15][..]));
    }

    #[test]
    fn framing() {
        assert_eq!(frame(&[0x80, 1]), None);
        assert_eq!(frame(&[7, 0, 0, 1]), None);
        assert_eq!(frame(&[7, 0, 0, 1, 2, 3]), Some(5));
        assert_eq!(frame(&erase()), Some(6));
        assert_eq!(frame(&erase()[..5]), None);
    }
}
