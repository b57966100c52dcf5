//! Wrong checksums and powers.

use super::Wrong;
use crate::implementation::{Implementation, REFERENCE};
use crate::run::Function;
use reference::START;

/// The register from a start over bytes, bit by bit.
fn from(start: u16, bytes: &[u8]) -> u16 {
    bytes.iter().fold(start, |register, &byte| {
        (0..8).fold(register ^ (u16::from(byte) << 8), |register, _| {
            (register << 1) ^ if register & 0x8000 == 0 { 0 } else { 0x1021 }
        })
    })
}

pub fn checksums() -> Vec<Wrong> {
    vec![
        wrong!("checksum always from 0", Checksum, checksum: |_, bytes| from(0, bytes)),
        wrong!("checksum changed at the end", Checksum, checksum: |start, bytes| {
            !from(start, bytes)
        }),
        wrong!("checksum low bit first", Checksum, checksum: |start, bytes| {
            let mirrored: Vec<u8> = bytes.iter().map(|byte| byte.reverse_bits()).collect();
            from(start.reverse_bits(), &mirrored).reverse_bits()
        }),
        wrong!("checksum bytes swapped", Checksum, checksum: |start, bytes| {
            from(start, bytes).swap_bytes()
        }),
    ]
}

/// Checksums that go wrong with another start than 0xFFFF.
pub fn starts() -> Vec<Wrong> {
    vec![
        wrong!("start ignored", Checksum, checksum: |_, bytes| from(START, bytes)),
        wrong!("start mixed in at the end", Checksum, checksum: |start, bytes| {
            from(START, bytes) ^ start ^ START
        }),
        wrong!("start's bytes swapped", Checksum, checksum: |start, bytes| {
            from(start.swap_bytes(), bytes)
        }),
        wrong!("start put over the first bytes", Checksum, checksum: |start, bytes| {
            let first = bytes.iter().zip(start.to_le_bytes());
            let mixed: Vec<u8> = first.map(|(byte, start)| byte ^ start).collect();
            from(from(0, &mixed), &bytes[mixed.len()..])
        }),
        wrong!("start kept for bytes alone", Checksum, checksum: |start, bytes| {
            match bytes {
                [] => START,
                _ => from(start, bytes),
            }
        }),
    ]
}

/// Checksums by a table or by blocks of 256 bytes (T-05) that go wrong in one place.
pub fn blocks() -> Vec<Wrong> {
    /// The register over bytes of which each whole block is gone over in a way of its own.
    fn by_blocks(start: u16, bytes: &[u8], over: fn(u16, &[u8]) -> u16) -> u16 {
        let blocks = bytes.chunks_exact(256);
        let rest = blocks.remainder();
        from(blocks.fold(start, over), rest)
    }
    /// The register over a block in four parts, of which the first begins at the register met and the others at 0.
    fn in_parts(met: u16, parts: [&[u8]; 4], carry: fn(u16) -> u16) -> u16 {
        let behind = parts[1..].iter();
        behind.fold(from(met, parts[0]), |register, part| {
            carry(register) ^ from(0, part)
        })
    }
    fn carry(register: u16) -> u16 {
        from(register, &[0; 64])
    }
    fn part(block: &[u8], number: usize) -> &[u8] {
        &block[64 * number..64 * (number + 1)]
    }
    fn parts(block: &[u8]) -> [&[u8]; 4] {
        [0, 1, 2, 3].map(|number| part(block, number))
    }
    vec![
        wrong!("one entry of the table wrong", Checksum, checksum: |start, bytes| {
            bytes.iter().fold(start, |register, &byte| {
                let right = from(register, &[byte]);
                if (register >> 8) as u8 ^ byte == 0xB7 { right ^ 1 } else { right }
            })
        }),
        wrong!("one entry wrong for the first of two bytes", Checksum, checksum: |start, bytes| {
            by_blocks(start, bytes, |met, block| {
                block.chunks(2).fold(met, |register, pair| {
                    let right = from(register, pair);
                    if (register >> 8) as u8 ^ pair[0] == 0x48 { right ^ 0x8000 } else { right }
                })
            })
        }),
        wrong!("one carried entry wrong", Checksum, checksum: |start, bytes| {
            by_blocks(start, bytes, |met, block| {
                in_parts(met, parts(block), |register| carry(register) ^ (register >> 15))
            })
        }),
        wrong!("parts not carried", Checksum, checksum: |start, bytes| {
            by_blocks(start, bytes, |met, block| in_parts(met, parts(block), |register| register))
        }),
        wrong!("one part taken twice", Checksum, checksum: |start, bytes| {
            by_blocks(start, bytes, |met, block| {
                let [first, second, third, _] = parts(block);
                in_parts(met, [first, second, third, third], carry)
            })
        }),
        wrong!("two parts exchanged", Checksum, checksum: |start, bytes| {
            by_blocks(start, bytes, |met, block| {
                let [first, second, third, fourth] = parts(block);
                in_parts(met, [first, third, second, fourth], carry)
            })
        }),
        wrong!("bytes of a pair exchanged", Checksum, checksum: |start, bytes| {
            by_blocks(start, bytes, |met, block| {
                let pairs = block.chunks(2);
                pairs.fold(met, |register, pair| from(register, &[pair[1], pair[0]]))
            })
        }),
        wrong!("each block from the start", Checksum, checksum: |start, bytes| {
            let last = bytes.len() / 256 * 256;
            from(start, &bytes[last.saturating_sub(256)..])
        }),
        wrong!("bytes behind the last block left out", Checksum, checksum: |start, bytes| {
            match bytes.len() {
                0..256 => from(start, bytes),
                length => from(start, &bytes[..length / 256 * 256]),
            }
        }),
    ]
}

/// Checksums of joined bytes.
pub fn joins() -> Vec<Wrong> {
    fn carried(register: u16, zeros: usize) -> u16 {
        from(register, &vec![0; zeros])
    }
    vec![
        wrong!("joined without carrying", Joined, joined: |first, second, _| first ^ second ^ START),
        wrong!("joined with the start left in", Joined, joined: |first, second, count| {
            carried(first, count.into()) ^ second
        }),
        wrong!("joined the other way round", Joined, joined: |first, second, count| {
            carried(second ^ START, count.into()) ^ first
        }),
        wrong!("joined one zero short", Joined, joined: |first, second, count| {
            carried(first ^ START, usize::from(count).saturating_sub(1)) ^ second
        }),
        wrong!("joined with a count of a byte", Joined, joined: |first, second, count| {
            carried(first ^ START, usize::from(count as u8)) ^ second
        }),
        wrong!("joined over whole parts of 64 alone", Joined, joined: |first, second, count| {
            carried(first ^ START, usize::from(count / 64 * 64)) ^ second
        }),
        wrong!("joined over ones", Joined, joined: |first, second, count| {
            from(first ^ START, &vec![0xFF; count.into()]) ^ second
        }),
    ]
}

pub fn powers() -> Vec<Wrong> {
    fn product(volts: u16, amps: u16) -> u32 {
        u32::from(volts) * u32::from(amps)
    }
    vec![
        wrong!("power rounded", TotalPower, total_power: |volts, amps| {
            ((u64::from(product(volts, amps)) + 320_000) / 640_000) as u16
        }),
        wrong!("power units of 1 mV and 1 mA", TotalPower, total_power: |volts, amps| {
            (product(volts, amps) / 1_000_000) as u16
        }),
        wrong!("power with a signed product", TotalPower, total_power: |volts, amps| {
            (product(volts, amps) as i32 / 640_000) as u16
        }),
    ]
}
