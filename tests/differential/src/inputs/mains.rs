//! Messages to be cut, places at which they are, and cards to be restarted.

use crate::inputs::messages::{self, World};
use crate::random::Random;
use reference::{checksum, packet, work, Mode, START};

/// The card before a cut: mostly unlocked, since no message has work in another mode.
pub fn unlock(random: &mut Random, world: &mut World) {
    if random.percent(60) {
        world.card.mode = Mode::Unlocked;
    }
}

/// A message to be cut: any that a conversation has, and more writes and erases, which have work.
pub fn message(random: &mut Random, world: &World) -> Vec<u8> {
    match random.weighted(&[50, 15, 35]) {
        0 => messages::write(random, world),
        1 => packet::erase(),
        _ => messages::message(random, world),
    }
}

/// A place at which to cut a message: before it, inside its work, at its end, one beyond, and far.
pub fn place(random: &mut Random, world: &World, message: &[u8]) -> usize {
    let whole = work(&world.card, &world.region, &world.password, message);
    match random.weighted(&[15, 40, 20, 10, 9, 6]) {
        0 => 0,
        1 => random.between(0, whole),
        2 => whole,
        3 => whole + 1,
        4 => random.between(1, 300),
        _ => random.pick(&[
            message.len(),
            world.size,
            world.size + 1,
            (1 << 32) + whole,
            1 << 52,
            1 << 63,
            usize::MAX - whole,
            usize::MAX,
        ]),
    }
}

/// The checksum that the card expects before a restart: the region's, nearly, or any.
pub fn expect(random: &mut Random, world: &mut World) {
    let sum = checksum(START, &world.region);
    world.card.expected = match random.weighted(&[50, 15, 10, 25]) {
        0 => sum,
        1 => sum ^ (1 << random.below(16)),
        2 => sum.swap_bytes(),
        _ => world.card.expected,
    };
}
