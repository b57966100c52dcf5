//! What T-09 is tried on: scripts that leave bytes unknown in many ways, and lent memory of many
//! lengths.

use crate::inputs::lent::Lent;
use crate::inputs::scripts::{small, CheckInput, TEXT};
use crate::random::Random;
use reference::packet;
use reference::refusal::SECTOR;
use reference::script::HEAD;

/// How many scripts end early.
pub const EARLY: usize = 11;

/// Scripts that end before a packet that writes has succeeded, or behind a start.
pub fn early(index: usize) -> CheckInput {
    let password = packet::password(&[0xFF; 256]);
    let (erase, start) = (packet::erase(), packet::start(0));
    let empty_core = vec![packet::HEADER, 0, 0, packet::START, packet::START];
    let passing = [erase.clone(), packet::write(0x10, &[1, 2]), start.clone()];
    let locked = |packet: &[u8]| CheckInput {
        script: [&HEAD, packet].concat(),
        ..small(TEXT, &[])
    };
    match index {
        0 => locked(&[]),
        1 => locked(&erase),
        2 => locked(&start),
        3 => locked(&empty_core),
        4 => locked(&password[..260]),
        5 => locked(&packet::password(&[0xFE; 256])),
        6 => small(TEXT, &[empty_core]),
        7 => small(TEXT, &passing),
        8 => small(TEXT, &[&passing[..], &[erase]].concat()),
        9 => small(TEXT, &[&passing[..], &[vec![9]]].concat()),
        // The picture is all 0xFF, and an unknown byte stands as 0.
        _ => small(b"q", &[start]),
    }
}

/// How many inputs are refused before the run.
pub const BEFORE_THE_RUN: usize = 7;

/// A password, a text or a head that is refused. The head is wrong in all of them, so that the order
/// of the refusals shows.
pub fn before_the_run(index: usize) -> CheckInput {
    let headless = CheckInput {
        script: b"BSX\x00\x01".to_vec(),
        ..small(TEXT, &[])
    };
    let with_text = |text: &[u8]| CheckInput {
        text: text.to_vec(),
        ..headless.clone()
    };
    let with_password = |length| CheckInput {
        password: vec![0xFF; length],
        ..headless.clone()
    };
    match index {
        0 => with_password(255),
        1 => with_password(257),
        2 => with_text(b"@10\n01 02\nQ"),
        3 => with_text(b"@fff\n01 02\nq"),
        4 => with_text(b"@10\n01 02\n@11\n02\nq"),
        5 => headless,
        _ => CheckInput {
            script: vec![],
            ..headless
        },
    }
}

/// Around the borders of a byte of the known bits, of a word of them, and of the region.
const ADDRESSES: [usize; 36] = [
    0, 1, 2, 3, 4, 5, 6, 7, 8, 9, 15, 16, 55, 56, 57, 62, 63, 64, 65, 120, 127, 128, 2_047, 2_048,
    3_839, 3_840, 3_841, 4_031, 4_032, 4_033, 4_087, 4_088, 4_089, 4_094, 4_095, 4_096,
];
const LENGTHS: [usize; 16] = [1, 2, 3, 7, 8, 9, 16, 17, 56, 57, 63, 64, 65, 128, 255, 256];
/// What can stand around a write.
const SURROUNDINGS: usize = 7;
/// How many scripts there are of writes.
pub const AROUND_WRITES: usize = ADDRESSES.len() * LENGTHS.len() * SURROUNDINGS;

/// Where nothing is written: from these addresses on, so many bytes or as many as there are.
const HOLE_ADDRESSES: [usize; 10] = [0, 1, 7, 8, 63, 64, 2_048, 4_032, 4_088, 4_095];
const HOLE_LENGTHS: [usize; 6] = [0, 1, 2, 9, 64, SECTOR];
/// How the script of a hole can end.
const ENDINGS: usize = 13;
/// How many scripts there are of holes.
pub const AROUND_HOLES: usize = HOLE_ADDRESSES.len() * HOLE_LENGTHS.len() * ENDINGS;

/// A write of zeros without an erase before it, and what can stand around it.
pub fn around_a_write(index: usize) -> CheckInput {
    let (index, surroundings) = (index / SURROUNDINGS, index % SURROUNDINGS);
    let address = ADDRESSES[index / LENGTHS.len()];
    let length = LENGTHS[index % LENGTHS.len()];
    let write = zeros(address, length);
    let others = [zeros(0, 3), zeros(61, 5), zeros(4_090, 3)];
    let mut last_is_one = vec![0; length];
    last_is_one[length - 1] = 1;
    let refused = packet::write(address as u32, &last_is_one);
    let packets = match surroundings {
        0 => vec![write],
        1 => [&others[..], &[write]].concat(),
        2 => [&[write], &others[..]].concat(),
        3 => [&others[..], &[refused]].concat(),
        4 => vec![write, whole_checksum(), cut_start()],
        5 => vec![write, packet::start(0)],
        _ => vec![write.clone(), packet::erase(), write],
    };
    small(TEXT, &packets)
}

/// Zeros everywhere but in a hole. The region is the picture throughout, so that unknown bytes
/// alone keep a script from passing.
pub fn around_a_hole(index: usize) -> CheckInput {
    let (index, ending) = (index / ENDINGS, index % ENDINGS);
    let address = HOLE_ADDRESSES[index / HOLE_LENGTHS.len()];
    let length = HOLE_LENGTHS[index % HOLE_LENGTHS.len()].min(SECTOR - address);
    let start = || packet::start(0);
    let mut damaged = start();
    damaged[9] ^= 1;
    let filled = |length| [blocks(address, address + length), vec![start()]].concat();
    let ending_packets = match ending {
        0 => vec![],
        1 => vec![cut_start()],
        2 => vec![packet::write(address as u32, &[1])],
        3 => vec![packet::erase(), start()],
        4 => vec![start(), start()],
        // A loader refuses these three, and with bytes unknown it is 10 all the same.
        5 => vec![damaged],
        6 => vec![packet::start(SECTOR as u32)],
        7 => vec![packet::packet(&[packet::START])],
        8 => vec![whole_checksum(), start()],
        9 => filled(length),
        10 => filled(length.saturating_sub(1)),
        _ => vec![start()],
    };
    let around = [blocks(0, address), blocks(address + length, SECTOR)].concat();
    let text = format!("@0\n{}q", "00\n".repeat(SECTOR));
    let input = small(text.as_bytes(), &[around, ending_packets].concat());
    let expected = match ending {
        11 => !input.expected,
        _ => input.expected,
    };
    CheckInput { expected, ..input }
}

fn zeros(address: usize, length: usize) -> Vec<u8> {
    packet::write(address as u32, &vec![0; length])
}

/// Zeros from one address to before another, in full writes.
fn blocks(from: usize, to: usize) -> Vec<Vec<u8>> {
    let blocks = (from..to).step_by(256);
    blocks.map(|at| zeros(at, 256.min(to - at))).collect()
}

/// A range checksum over all bytes, known or not.
fn whole_checksum() -> Vec<u8> {
    packet::range_checksum(0, SECTOR as u16)
}

fn cut_start() -> Vec<u8> {
    packet::start(0)[..9].to_vec()
}

/// Good sizes, and bad ones.
const SIZES: [usize; 15] = [
    4_096, 8_192, 12_288, 262_144, 0, 1, 8, 512, 2_048, 4_088, 4_095, 4_097, 4_104, 262_152,
    266_240,
];
/// The lengths that a region is lent in, and as many for the known bits.
const LENT: usize = 8;
/// How many inputs have lent memory of a listed length.
pub const LENT_LENGTHS: usize = SIZES.len() * LENT * LENT;

/// A sound script over lent memory whose lengths are right, nearly, or those for another size.
pub fn lent_length(index: usize) -> CheckInput {
    let size = SIZES[index / LENT / LENT];
    let region = lengths(size, SECTOR, size / 8)[index / LENT % LENT];
    let known = lengths(size / 8, SECTOR / 8, size)[index % LENT];
    CheckInput {
        size,
        lent: Lent::of_lengths(region, known),
        ..small(b"q", &[packet::erase(), packet::start(0)])
    }
}

/// The right length first, and the other one's last.
fn lengths(right: usize, step: usize, other: usize) -> [usize; LENT] {
    [
        right,
        0,
        1,
        right.saturating_sub(1),
        right + 1,
        right.saturating_sub(step),
        right + step,
        other,
    ]
}

/// Writes of zeros here and there.
pub fn some_zeros(random: &mut Random, size: usize) -> Vec<Vec<u8>> {
    let write = |random: &mut Random| {
        let address = border(random, size);
        let length = random.pick(&LENGTHS);
        // Seldom further than the region goes.
        let longest = if random.once_in(30) {
            length
        } else {
            size - address
        };
        zeros(address, length.min(longest))
    };
    (0..random.between(1, 10)).map(|_| write(random)).collect()
}

/// Zeros everywhere but in a small hole, or in none.
pub fn zeros_around_a_hole(random: &mut Random, size: usize) -> Vec<Vec<u8>> {
    let length = random.pick(&[0, 1, 1, 1, 2, 7, 8, 9, 64, 300]);
    let address = border(random, size).min(size - length);
    let mut packets = [blocks(0, address), blocks(address + length, size)].concat();
    random.shuffle(&mut packets);
    packets
}

/// An address at a border of a byte of the known bits, of a word of them or of the region, or near
/// one.
fn border(random: &mut Random, size: usize) -> usize {
    let border = match random.below(4) {
        0 => 0,
        1 => 8 * random.below(size / 8),
        2 => 64 * random.below(size / 64),
        _ => size,
    };
    (border + random.below(5)).saturating_sub(2).min(size - 1)
}
