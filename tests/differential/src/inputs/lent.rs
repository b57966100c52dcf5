//! Region sizes and lent memory, of right and wrong lengths, filled with random bytes.

use crate::random::Random;
use reference::refusal::{is_region_size, GREATEST_REGION, SECTOR};

/// A good region size, mostly small; the greatest are dear to check.
pub fn good_size(random: &mut Random) -> usize {
    match random.weighted(&[700, 160, 60, 70, 6, 4]) {
        0 => SECTOR,
        1 => 2 * SECTOR,
        2 => 3 * SECTOR,
        3 => 4 * SECTOR,
        4 => SECTOR * random.between(5, 64),
        _ => GREATEST_REGION,
    }
}

pub fn bad_size(random: &mut Random) -> usize {
    match random.below(4) {
        0 => random.pick(&[0, 1, 2_048, 4_095, 4_097, 8_191, 262_143, 262_145]),
        1 => random.pick(&[
            GREATEST_REGION + SECTOR,
            1 << 20,
            1 << 32,
            1 << 63,
            usize::MAX,
        ]),
        2 => (1 << 32) + SECTOR,
        _ => {
            let size = random.below(GREATEST_REGION);
            size + usize::from(is_region_size(size))
        }
    }
}

/// How often each thing given or lent is wrong, once in so many times: seldom mostly, so that the
/// rest is judged, and sometimes often, so that the order of refusals is.
pub fn odds(random: &mut Random) -> usize {
    if random.once_in(12) {
        3
    } else {
        150
    }
}

/// The size handed over where the rest was made for this good one.
pub fn size(random: &mut Random, good: usize, odds: usize) -> usize {
    if random.once_in(odds) {
        bad_size(random)
    } else if random.once_in(100) {
        good_size(random)
    } else {
        good
    }
}

/// A lent region for this size.
pub fn region(random: &mut Random, size: usize, odds: usize) -> Vec<u8> {
    memory(random, size, 1, odds)
}

/// The memory that the checker is lent: the region, and a bit for each of its bytes.
#[derive(Clone, Debug)]
pub struct Lent {
    pub region: Vec<u8>,
    pub known: Vec<u8>,
}

impl Lent {
    /// Memory for this size.
    pub fn any(random: &mut Random, size: usize, odds: usize) -> Lent {
        Lent {
            region: region(random, size, odds),
            known: memory(random, size, 8, odds),
        }
    }

    /// Memory of these lengths, in which no byte is as the checker fills it.
    pub fn of_lengths(region: usize, known: usize) -> Lent {
        Lent {
            region: vec![0x5A; region],
            known: vec![0xA5; known],
        }
    }
}

/// A byte for each so many of the region, if its size is one to lend.
fn memory(random: &mut Random, size: usize, each: usize, odds: usize) -> Vec<u8> {
    let right = size / each;
    let length = if size > GREATEST_REGION + SECTOR {
        SECTOR / each
    } else if random.once_in(odds) {
        let lengths = [
            0,
            1,
            right.saturating_sub(1),
            right + 1,
            right + SECTOR / each,
            right / 2,
        ];
        random.pick(&lengths)
    } else {
        right
    };
    random.bytes(length)
}

pub fn password(random: &mut Random, odds: usize) -> Vec<u8> {
    let length = if random.once_in(odds) {
        random.pick(&[0, 1, 56, 255, 257, 512])
    } else {
        256
    };
    if random.once_in(3) {
        vec![0xFF; length]
    } else {
        random.bytes(length)
    }
}
