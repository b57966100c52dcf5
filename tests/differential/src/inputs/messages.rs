//! Messages for the card, chosen by its mode so that runs of calls get on.

use crate::inputs::{lent, records, texts};
use crate::random::Random;
use reference::packet;
use reference::{checksum, Card, Mode, START};

/// A card with its lent memory, before a call.
#[derive(Clone, Debug)]
pub struct World {
    pub card: Card,
    pub size: usize,
    pub region: Vec<u8>,
    pub password: Vec<u8>,
}

/// A card of any history.
pub fn world(random: &mut Random) -> World {
    let size = lent::good_size(random);
    let mut region = random.bytes(size);
    match random.below(4) {
        0 => region.fill(0xFF),
        1 => region.fill(0x00),
        2 => region[..size / 2].fill(0xFF),
        _ => {}
    }
    let mode = random.pick(&[Mode::Application, Mode::Locked, Mode::Unlocked]);
    World {
        card: Card {
            mode,
            expected: random.number() as u16,
            version: [random.byte(), random.byte(), random.byte()],
            record: records::any(random),
        },
        size,
        region,
        password: lent::password(random, usize::MAX),
    }
}

/// What may happen to the card between two calls of a run.
pub fn change(random: &mut Random, world: &mut World) {
    if random.once_in(4) {
        world.card.expected = checksum(START, &world.region);
    }
    if random.once_in(8) {
        world.card.record = records::any(random);
    }
    if random.once_in(12) {
        world.card.mode = random.pick(&[Mode::Application, Mode::Locked, Mode::Unlocked]);
    }
}

/// The same world with something wrong in what is lent.
pub fn badly_lent(random: &mut Random, world: &World) -> World {
    let mut world = world.clone();
    let faults = random.between(1, 3);
    if faults & 1 == 1 {
        if random.coin() {
            world.size = lent::bad_size(random);
        } else {
            let length = random.pick(&[0, 1, world.size - 1, world.size + 1, world.size / 2]);
            world.region.resize(length, 0xA5);
        }
    }
    if faults & 2 == 2 {
        let length = random.pick(&[0, 1, 56, 255, 257, 512]);
        world.password.resize(length, 0xA5);
    }
    world
}

/// A lent reply buffer, few of them too short.
pub fn reply_buffer(random: &mut Random, mode: Mode) -> Vec<u8> {
    let needed = match mode {
        Mode::Application => 64,
        Mode::Locked | Mode::Unlocked => 9,
    };
    let length = match random.below(16) {
        0 => needed - 1,
        1 => random.pick(&[0, 7, 8, 9]),
        2 => 64,
        3 => needed + random.between(1, 150),
        _ => needed,
    };
    random.bytes(length)
}

/// A message for a card in this state.
pub fn message(random: &mut Random, world: &World) -> Vec<u8> {
    match world.card.mode {
        Mode::Application => request(random, world),
        Mode::Locked if random.percent(35) => packet::password(&world.password),
        Mode::Locked | Mode::Unlocked => to_loader(random, world),
    }
}

/// A request in application mode.
fn request(random: &mut Random, world: &World) -> Vec<u8> {
    const KNOWN: [u8; 10] = [0x01, 0x02, 0x03, 0x04, 0x05, 0x06, 0x0F, 0x20, 0x31, 0x32];
    match random.weighted(&[55, 12, 10, 6, 3, 6, 8]) {
        0 => vec![random.pick(&KNOWN)],
        1 => vec![0x0F, random.pick(&[0, 1, 1, 2, 2, 3, 0xFF])],
        2 => {
            let length = random.between(1, 3);
            [vec![random.pick(&KNOWN)], random.bytes(length)].concat()
        }
        3 => vec![random.byte()],
        4 => Vec::new(),
        5 => {
            let length = random.below(20);
            random.bytes(length)
        }
        _ => to_loader(random, world),
    }
}

/// A message in a loader mode.
fn to_loader(random: &mut Random, world: &World) -> Vec<u8> {
    match random.weighted(&[60, 22, 4, 3, 5, 6]) {
        0 => sound_packet(random, world),
        1 => {
            let mut message = sound_packet(random, world);
            damage(random, &mut message);
            message
        }
        2 => vec![0x31],
        3 => random
            .pick(&[&[][..], &[0x80], &[0x31, 0x31], &[0x32], &[0x80, 0, 0]])
            .to_vec(),
        4 => {
            let length = random.below(20);
            random.bytes(length)
        }
        _ => short_packet(random),
    }
}

/// A sound packet, of a known command mostly.
pub fn sound_packet(random: &mut Random, world: &World) -> Vec<u8> {
    match random.weighted(&[36, 16, 6, 16, 6, 6, 8, 6]) {
        0 => write(random, world),
        1 => range_checksum(random, world.size),
        2 => packet::erase(),
        3 => packet::start(address(random, world.size, 1)),
        4 => packet::password(&world.password),
        5 => packet::password(&wrong_password(random, &world.password)),
        6 => wrong_core_length(random),
        _ => {
            let length = random.between(1, 12);
            packet::packet(&random.bytes(length))
        }
    }
}

/// A sound packet that needs no region, to stand behind a script.
pub fn sound_packet_for_tail(random: &mut Random) -> Vec<u8> {
    match random.below(3) {
        0 => packet::erase(),
        1 => packet::range_checksum(0, 0),
        _ => packet::start(0),
    }
}

/// A write whose data may or may not be written over what is there.
pub fn write(random: &mut Random, world: &World) -> Vec<u8> {
    let length = random.pick(&[1, 1, 2, 4, 16, 100, 255, 256]);
    let address = address(random, world.size, length);
    let mut data = random.bytes(length);
    let old = |place: usize| world.region.get(address as usize + place).copied();
    for (place, new) in data.iter_mut().enumerate() {
        *new &= old(place).unwrap_or(0xFF);
    }
    match random.weighted(&[70, 15, 8, 7]) {
        0 => {}
        1 => {
            let place = random.pick(&[0, length - 1, length / 2]);
            data[place] |= 1 << random.below(8);
        }
        2 => data.fill(0),
        _ => random.fill(&mut data),
    }
    packet::write(address, &data)
}

fn range_checksum(random: &mut Random, size: usize) -> Vec<u8> {
    let length = match random.below(4) {
        0 => 0,
        1 => random.between(1, 300),
        2 => random.pick(&[size.min(65_535), 65_535, (size + 1).min(65_535)]),
        _ => random.below(65_536),
    };
    packet::range_checksum(address(random, size, length), length as u16)
}

/// An address for this many bytes: inside, at the limits, or far off.
fn address(random: &mut Random, size: usize, length: usize) -> u32 {
    let last = size.saturating_sub(length);
    let address = match random.weighted(&[60, 10, 10, 5, 5, 10]) {
        0 => random.below(last + 1),
        1 => last,
        2 => last + 1,
        3 => 0,
        4 => random.pick(&[size - 1, size, size + 1]),
        _ => random.pick(&[
            u32::MAX as usize,
            (1 << 32) - length.clamp(1, size),
            1 << 31,
            1 << 24,
            size + (1 << 16),
        ]),
    };
    address as u32
}

/// Wrong in one bit, or altogether.
pub fn wrong_password(random: &mut Random, password: &[u8]) -> Vec<u8> {
    let mut wrong = password.to_vec();
    match random.below(4) {
        0 => wrong[0] ^= 1,
        1 => wrong[255] ^= 0x80,
        2 => wrong[random.below(256)] ^= 1 << random.below(8),
        _ => random.fill(&mut wrong),
    }
    wrong
}

/// A known command with a core length that is not its own.
fn wrong_core_length(random: &mut Random) -> Vec<u8> {
    let (command, length) = random.pick(&[
        (packet::PASSWORD, 256),
        (packet::PASSWORD, 258),
        (packet::PASSWORD, 57),
        (packet::ERASE, 2),
        (packet::WRITE, 5),
        (packet::WRITE, 1),
        (packet::RANGE_CHECKSUM, 6),
        (packet::RANGE_CHECKSUM, 8),
        (packet::START, 4),
        (packet::START, 6),
        (packet::START, 1),
    ]);
    let mut core = vec![0; length];
    core[0] = command;
    packet::packet(&core)
}

/// A packet of any core length, its message as long or not.
fn short_packet(random: &mut Random) -> Vec<u8> {
    let core = random.pick(&[0, 1, 2, 260, 261, 262, 263, 512, 65_535]);
    let length = match random.below(4) {
        0 => core + 5,
        1 => core + 4,
        2 => random.between(3, 8),
        _ => core.min(300) + 6,
    };
    let mut message = random.bytes(length);
    message[0] = 0x80;
    message[1..3].copy_from_slice(&(core as u16).to_le_bytes());
    message
}

/// Damages a packet in one way.
pub fn damage(random: &mut Random, message: &mut Vec<u8>) {
    let length = message.len();
    match random.below(9) {
        0 => message[0] = random.byte(),
        1 => message[1] = message[1].wrapping_add(random.pick(&[1, 0xFF])),
        2 => message[2] ^= 1 << random.below(8),
        3 => message[length - random.between(1, 2)] ^= 1 << random.below(8),
        4 => message.swap(length - 1, length - 2),
        5 => message[random.between(3, length - 1)] ^= 1 << random.below(8),
        6 => message.truncate(random.below(length)),
        7 => message.push(random.byte()),
        _ => texts::mutate(random, message),
    }
}
