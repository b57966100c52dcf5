//! Document 02, T-09: scripts in great number, each run as the other tests run theirs.

use super::{accepted, answered, picture, slices, unlocked_for, FF, TEXT};
use crate::checksum::{checksum, START};
use crate::packet;

/// The checksums of the picture, of zeros, and of 0xFF.
fn checksums() -> [u16; 3] {
    [picture(TEXT), vec![0; 4_096], vec![0xFF; 4_096]].map(|region| checksum(START, &region))
}

#[test]
fn every_list_of_four_packets() {
    let packets = [
        packet::erase(),
        packet::write(0x10, &[0, 0]),
        packet::write(0x10, &[1, 2]),
        packet::write(0x11, &[2, 0]),
        packet::write(0x0F, &[0xFF, 0]),
        packet::range_checksum(0x0F, 4),
        packet::start(0x10),
    ];
    let mut seen = [0; 13];
    for sum in checksums() {
        for list in 0..7 * 7 * 7 * 7 {
            let list = [343, 49, 7, 1].map(|place| &packets[list / place % 7][..]);
            let (number, _) = unlocked_for(TEXT, sum, &list);
            seen[usize::from(number)] += 1;
        }
    }
    // Each number that whole packets can bring, and no other.
    for (number, &lists) in seen.iter().enumerate() {
        assert_eq!(lists > 0, [0, 8, 10, 11, 12].contains(&number), "{number}");
    }
}

/// Numbers that look random and are the same in each run of the tests (xorshift).
struct Dice(u64);

impl Dice {
    fn below(&mut self, bound: usize) -> usize {
        self.0 ^= self.0 << 13;
        self.0 ^= self.0 >> 7;
        self.0 ^= self.0 << 17;
        (self.0 >> 32) as usize % bound
    }

    fn one_of<T: Copy>(&mut self, values: &[T]) -> T {
        values[self.below(values.len())]
    }

    /// Most often a packet that succeeds over a region whose bytes can become these. The
    /// addresses are few, so that packets meet.
    fn packet(&mut self, bytes: &[u8]) -> Vec<u8> {
        let at = self.one_of(&[0x0E, 0x0F, 0x10, 0x11, 0x12, 4_092, 4_094]);
        let length = 1 + self.below(4);
        let end = bytes.len().min(at + length);
        let address = at as u32;
        match self.below(32) {
            0..=19 => packet::write(address, &bytes[at..end]),
            20..=21 => packet::write(address, &vec![0; length]),
            22 => packet::write(address, &vec![self.one_of(&[1, 2, 3, 0xFF]); length]),
            23..=27 => packet::range_checksum(address, length as u16),
            28 => packet::erase(),
            29 => packet::start(address),
            30 => packet::password(self.one_of(&[&FF, &[0; 256]])),
            _ => {
                let mut damaged = packet::erase();
                damaged[self.one_of(&[0, 3, 4, 5])] ^= 1 << self.below(8);
                damaged
            }
        }
    }

    /// Most often the password, zeros over untouched bytes, an erase, pieces of the picture
    /// and a start. Any of these can be missing, and the last packet can be cut.
    fn packets(&mut self, picture: &[u8]) -> Vec<Vec<u8>> {
        let mut packets = Vec::new();
        if self.below(16) > 0 {
            packets.push(packet::password(&FF));
        }
        for _ in 0..self.below(5) {
            packets.push(self.packet(&[0; 4_096]));
        }
        if self.below(4) > 0 {
            packets.push(packet::erase());
        }
        for _ in 0..self.below(6) {
            packets.push(self.packet(picture));
        }
        if self.below(4) > 0 {
            packets.push(packet::start(0x10));
        }
        if self.below(8) == 0 {
            let mut last = self.packet(picture);
            last.truncate(self.below(last.len()) + 1);
            packets.push(last);
        }
        packets
    }
}

#[test]
fn many_lists_of_packets() {
    let mut dice = Dice(0x5EED_0008);
    let (picture, checksums) = (picture(TEXT), checksums());
    let mut seen = [0; 13];
    let (mut writes, mut starts) = (0, 0);
    for _ in 0..3_000 {
        let packets = dice.packets(&picture);
        let packets = slices(&packets);
        let sum = dice.one_of(&checksums);
        let (number, _, count) = answered(&packets, TEXT, sum);
        seen[usize::from(number)] += 1;
        if number == 8 || number == 10 {
            match accepted(&packets[..=count], sum) {
                (true, false) => starts += 1,
                (false, true) if number == 8 => writes += 1,
                _ => {}
            }
        }
    }
    for (number, &lists) in seen.iter().enumerate() {
        let is_used = [0, 7, 8, 10, 11, 12].contains(&number);
        assert_eq!(lists > 0, is_used, "{number}");
    }
    // Some lists end where the two loaders part.
    assert!(writes > 0 && starts > 0);
}
