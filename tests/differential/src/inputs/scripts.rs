//! Scripts: planned, composed by hand, damaged in every structured way, and random.

use crate::implementation::Implementation;
use crate::inputs::lent::{self, Lent};
use crate::inputs::{messages, regions, texts};
use crate::random::Random;
use reference::packet;
use reference::refusal::SECTOR;
use reference::script::{frames, HEAD};
use reference::text::{draw, parse, Segment, TI_TXT};
use reference::{checksum, planner, Checked, START};

/// Everything the checker is given and lent.
#[derive(Clone, Debug)]
pub struct CheckInput {
    pub script: Vec<u8>,
    pub text: Vec<u8>,
    pub password: Vec<u8>,
    pub expected: u16,
    pub size: usize,
    pub lent: Lent,
}

impl CheckInput {
    /// What a side's checker answers, and what it leaves in the memory.
    pub fn checked_by(&self, side: &Implementation) -> (Checked, Lent) {
        let mut lent = self.lent.clone();
        let checked = (side.check)(
            &self.script,
            &self.text,
            &self.password,
            self.expected,
            self.size,
            &mut lent.region,
            &mut lent.known,
        );
        (checked, lent)
    }
}

/// A script in its parts, so that it can be damaged in a structured way.
struct Parts {
    head: Vec<u8>,
    packets: Vec<Vec<u8>>,
    tail: Vec<u8>,
}

impl Parts {
    fn of(packets: Vec<Vec<u8>>) -> Parts {
        Parts {
            head: HEAD.to_vec(),
            packets,
            tail: Vec::new(),
        }
    }

    fn bytes(&self) -> Vec<u8> {
        [&self.head[..], &self.packets.concat(), &self.tail].concat()
    }

    /// The index of a packet, if there is one.
    fn any(&self, random: &mut Random) -> Option<usize> {
        (!self.packets.is_empty()).then(|| random.below(self.packets.len()))
    }

    fn insert(&mut self, random: &mut Random, packet: Vec<u8>) {
        let place = random.below(self.packets.len() + 1);
        self.packets.insert(place, packet);
    }
}

/// What the script is meant to leave.
struct Goal {
    size: usize,
    segments: Vec<Segment>,
    picture: Vec<u8>,
    password: Vec<u8>,
}

impl Goal {
    fn is_zero(&self) -> bool {
        self.picture.iter().all(|&byte| byte == 0)
    }
}

/// Any input of the checker.
pub fn check_input(random: &mut Random) -> CheckInput {
    let odds = lent::odds(random);
    let good = lent::good_size(random);
    let text = match random.below(12) {
        0 => zeros_all_over(random, good),
        _ => texts::sound(random, good),
    };
    let password = lent::password(random, odds);
    let goal = goal(&text, good, &password);
    let script = script(random, &goal);
    let size = lent::size(random, good, odds);
    CheckInput {
        script,
        text: other_text(random, text, good, odds.min(40)),
        password,
        expected: match random.once_in(30) {
            true => random.number() as u16,
            false => checksum(START, &goal.picture),
        },
        size,
        lent: Lent::any(random, size, odds),
    }
}

/// The text that the script was made for, or seldom another one.
fn other_text(random: &mut Random, text: Vec<u8>, size: usize, odds: usize) -> Vec<u8> {
    if !random.once_in(odds) {
        return text;
    }
    match random.below(4) {
        0 => texts::sound(random, size),
        1 => texts::unsound(random, size),
        _ => texts::any(random, size),
    }
}

/// A text that gives every byte of the region the value 0.
fn zeros_all_over(random: &mut Random, size: usize) -> Vec<u8> {
    let segment = Segment {
        address: 0,
        bytes: vec![0; size],
    };
    texts::render(random, &[segment])
}

fn goal(text: &[u8], size: usize, password: &[u8]) -> Goal {
    let segments = parse(text, size, TI_TXT)
        .expect("the text is well-formed")
        .segments;
    let mut picture = vec![0; size];
    draw(&segments, &mut picture);
    let mut password = password.to_vec();
    password.resize(256, 0x5A);
    Goal {
        size,
        segments,
        picture,
        password,
    }
}

fn script(random: &mut Random, goal: &Goal) -> Vec<u8> {
    let mut parts = match random.weighted(&[36, 40, 8, 12, 4]) {
        0 => planned(random, goal),
        1 => composed(random, goal),
        2 => any_packets(random, goal),
        3 => partly_known(random, goal),
        _ => {
            let length = random.below(400);
            let mut bytes = random.bytes(length);
            if random.percent(80) {
                bytes.splice(0..0, HEAD);
            }
            return bytes;
        }
    };
    let damages = random.pick(&[0, 0, 0, 1, 1, 1, 1, 2, 3]);
    for _ in 0..damages {
        damage(random, goal, &mut parts);
    }
    let mut bytes = parts.bytes();
    if random.once_in(15) {
        let length = random.below(bytes.len() + 1);
        bytes.truncate(length);
    }
    bytes
}

/// The planner's script.
fn planned(random: &mut Random, goal: &Goal) -> Parts {
    let entry = random.below(goal.size) as u32;
    let script = planner::script(&goal.segments, &goal.password, entry, planner::BLOCK);
    let packets = frames(&script).expect("a planned script is one");
    Parts::of(packets.into_iter().map(<[u8]>::to_vec).collect())
}

/// A script of another cut that mostly leaves the picture too.
fn composed(random: &mut Random, goal: &Goal) -> Parts {
    let mut packets = vec![packet::password(&goal.password)];
    if !goal.is_zero() || random.once_in(3) {
        packets.push(packet::erase());
    }
    let mut writes: Vec<Vec<u8>> = Vec::new();
    for segment in &goal.segments {
        cut(random, segment, &mut writes);
    }
    if random.percent(30) {
        random.shuffle(&mut writes);
    }
    packets.append(&mut writes);
    for _ in 0..random.pick(&[0, 0, 1, 3]) {
        let place = random.between(1, packets.len());
        packets.insert(place, harmless(random, goal));
    }
    packets.push(packet::start(random.below(goal.size) as u32));
    Parts::of(packets)
}

/// Writes of a segment in blocks of any length, some in two steps of falling bits.
fn cut(random: &mut Random, segment: &Segment, writes: &mut Vec<Vec<u8>>) {
    let two_steps = random.once_in(6);
    let whole = random.coin();
    let mut at = 0;
    while at < segment.bytes.len() {
        let longest = if whole { 256 } else { random.between(1, 256) };
        let end = (at + longest).min(segment.bytes.len());
        let data = &segment.bytes[at..end];
        let address = (segment.address as usize + at) as u32;
        if two_steps {
            let first: Vec<u8> = data.iter().map(|byte| byte | random.byte()).collect();
            writes.push(packet::write(address, &first));
        }
        writes.push(packet::write(address, data));
        at = end;
    }
}

/// A packet that, sent after the erase, keeps a good script good.
fn harmless(random: &mut Random, goal: &Goal) -> Vec<u8> {
    match random.below(3) {
        0 => packet::password(&goal.password),
        1 => inside_checksum(random, goal.size),
        _ => {
            // Bytes of the picture once more.
            let length = random.between(1, 256);
            let first = random.below(goal.size - length + 1);
            packet::write(first as u32, &goal.picture[first..first + length])
        }
    }
}

/// A range checksum inside the region.
fn inside_checksum(random: &mut Random, size: usize) -> Vec<u8> {
    let length = random.pick(&[0, 1, 64, 1_024, 4_096]);
    let first = random.between(0, size - length);
    packet::range_checksum(first as u32, length as u16)
}

/// Packets as the card gets them, after the password.
fn any_packets(random: &mut Random, goal: &Goal) -> Parts {
    let mut world = messages::world(random);
    world.size = goal.size;
    world.region = goal.picture.clone();
    world.password = goal.password.clone();
    let mut packets = vec![packet::password(&goal.password)];
    if random.percent(70) {
        packets.push(packet::erase());
    }
    for _ in 0..random.below(8) {
        packets.push(messages::sound_packet(random, &world));
    }
    Parts::of(packets)
}

/// Zeros over parts of a region that is seldom erased; where the picture is all zeros, mostly over
/// everything but a hole.
fn partly_known(random: &mut Random, goal: &Goal) -> Parts {
    let mut packets = vec![packet::password(&goal.password)];
    packets.extend(if goal.is_zero() && random.percent(70) {
        regions::zeros_around_a_hole(random, goal.size)
    } else {
        regions::some_zeros(random, goal.size)
    });
    for _ in 0..random.pick(&[0, 0, 1, 2]) {
        let place = random.between(1, packets.len());
        packets.insert(place, harmless(random, goal));
    }
    if random.once_in(5) {
        let place = random.between(1, packets.len());
        packets.insert(place, packet::erase());
    }
    if random.percent(60) {
        packets.push(packet::start(random.below(goal.size) as u32));
    }
    Parts::of(packets)
}

/// One damage to a script.
fn damage(random: &mut Random, goal: &Goal, parts: &mut Parts) {
    let Some(index) = parts.any(random) else {
        return;
    };
    let last = parts.packets.len() - 1;
    match random.below(26) {
        0 => {
            parts.packets.remove(index);
        }
        1 => parts.packets.insert(index, parts.packets[index].clone()),
        2 => {
            let other = random.below(parts.packets.len());
            parts.packets.swap(index, other);
        }
        3 => {
            let length = random.between(1, parts.packets[index].len());
            parts.packets[index].truncate(length);
        }
        4 => {
            let place = random.below(parts.packets[index].len());
            parts.packets[index][place] ^= 1 << random.below(8);
        }
        5 => flip_and_repair(random, &mut parts.packets[index]),
        6 => flip_and_repair(random, &mut parts.packets[last]),
        7 | 8 => {
            let packet = inside_checksum(random, goal.size);
            parts.insert(random, packet);
        }
        9 => {
            let first = (goal.size - random.below(8)) as u32;
            let length = random.below(16) as u16;
            parts.insert(random, packet::range_checksum(first, length));
        }
        10 => parts.packets.retain(|packet| *packet != packet::erase()),
        11 => {
            let length = random.between(1, 12);
            parts.tail = random.bytes(length);
        }
        12 => parts.packets.push(parts.packets[last].clone()),
        13 => {
            let packet = messages::sound_packet_for_tail(random);
            parts.packets.push(packet);
        }
        14 => {
            let wrong = messages::wrong_password(random, &goal.password);
            parts.packets[0] = packet::password(&wrong);
        }
        15 => spoil_head(random, &mut parts.head),
        16 => odd_core_length(random, parts, index),
        17 => {
            let packet = start_of_a_kind(random, goal.size);
            parts.insert(random, packet);
        }
        18 => parts.packets[last] = start_of_a_kind(random, goal.size),
        19 => parts.packets[index][0] = random.byte(),
        20 => parts.insert(random, packet::erase()),
        21 => parts.insert(random, packet::password(&goal.password)),
        22 => {
            let length = random.between(1, 3);
            let first = random.below(goal.size) as u32;
            let data = random.bytes(length);
            let place = last.max(1);
            parts.packets.insert(place, packet::write(first, &data));
        }
        23 => {
            let packet = harmless(random, goal);
            parts.insert(random, packet);
        }
        24 => parts.packets.truncate(last),
        _ => {
            let length = random.between(1, 6);
            let packet = packet::packet(&random.bytes(length));
            parts.insert(random, packet);
        }
    }
}

/// Changes a bit of the core and makes the checksum right again.
fn flip_and_repair(random: &mut Random, packet: &mut [u8]) {
    if packet.len() < 6 {
        return;
    }
    let end = packet.len() - 2;
    packet[random.between(3, end - 1)] ^= 1 << random.below(8);
    let sum = checksum(START, &packet[3..end]);
    packet[end..].copy_from_slice(&sum.to_le_bytes());
}

fn spoil_head(random: &mut Random, head: &mut Vec<u8>) {
    match random.below(3) {
        0 => head.truncate(random.below(5)),
        1 => *head = b"BSX\x00\x01".to_vec(),
        _ => {
            let place = random.below(head.len().max(1));
            if let Some(byte) = head.get_mut(place) {
                *byte ^= 1 << random.below(8);
            }
        }
    }
}

/// A core length of 0, 1, 261, 262 or 65,535, with as many bytes or not.
fn odd_core_length(random: &mut Random, parts: &mut Parts, index: usize) {
    let core = random.pick(&[0, 1, 261, 262, 300, 65_535]);
    let mut frame = parts.packets[index].clone();
    frame.resize(frame.len().max(5), 0);
    frame[1..3].copy_from_slice(&(core as u16).to_le_bytes());
    if random.percent(70) {
        frame.resize(core + 5, 0x27);
    }
    parts.packets.insert(index, frame);
}

/// A frame whose core begins with 0x27: sound, or wrong in some way.
fn start_of_a_kind(random: &mut Random, size: usize) -> Vec<u8> {
    let entry = random.pick(&[0, 1, size - 1, size, size + 1, 0xFFFF_FFFF]) as u32;
    match random.below(6) {
        0 | 1 => packet::start(entry),
        2 => {
            let mut frame = packet::start(entry);
            frame[0] = 0x81;
            frame
        }
        3 => {
            let mut frame = packet::start(entry);
            frame[9] ^= 1;
            frame
        }
        4 => packet::packet(&[0x27]),
        _ => vec![0x80, 0, 0, 0x27, 0x27],
    }
}

/// An input written by the page's own rules: a planned script with range checksums inside the
/// region before the start.
pub fn by_the_page(random: &mut Random) -> CheckInput {
    let size = lent::good_size(random);
    let segments = texts::segments(random, size);
    let text = texts::render_short(random, &segments);
    let password = random.bytes(256);
    let goal = goal(&text, size, &password);
    let mut parts = planned(random, &goal);
    for _ in 0..random.below(4) {
        let start = parts.packets.len() - 1;
        parts.packets.insert(start, inside_checksum(random, size));
    }
    CheckInput {
        script: parts.bytes(),
        text,
        password,
        expected: checksum(START, &goal.picture),
        size,
        lent: Lent::any(random, size, usize::MAX),
    }
}

/// How many kinds of packets the short scripts are made of.
const KINDS: usize = 7;
/// The lists of at most three of them.
const LISTS: usize = 1 + KINDS + KINDS * KINDS + KINDS * KINDS * KINDS;
/// Each list with three expected checksums: the image's, that of zeros and that of 0xFF.
pub const SHORT_SCRIPTS: usize = 3 * LISTS;

/// The short script of this index: the password, and at most three packets of all kinds, writes
/// that meet known and untouched bytes among them.
pub fn short_script(index: usize) -> CheckInput {
    let kinds: [Vec<u8>; KINDS] = [
        packet::erase(),
        packet::write(0x10, &[0, 0]),
        packet::write(0x10, &[1, 2]),
        packet::write(0x11, &[2, 0]),
        packet::write(0x0F, &[0xFF, 0]),
        packet::range_checksum(0x0F, 4),
        packet::start(0x10),
    ];
    let (mut list, mut length) = (index / 3, 0);
    while list >= KINDS.pow(length) {
        list -= KINDS.pow(length);
        length += 1;
    }
    let packets = (0..length).map(|place| kinds[list / KINDS.pow(place) % KINDS].clone());
    let input = small(TEXT, &packets.collect::<Vec<_>>());
    let expected = match index % 3 {
        0 => input.expected,
        1 => checksum(START, &vec![0x00; input.size]),
        _ => checksum(START, &vec![0xFF; input.size]),
    };
    CheckInput { expected, ..input }
}

/// A text for the smallest region.
pub const TEXT: &[u8] = b"@10\n01 02\nq";

/// The password and these packets, for the smallest region.
pub fn small(text: &[u8], packets: &[Vec<u8>]) -> CheckInput {
    let size = SECTOR;
    let password = vec![0xFF; 256];
    let sent = [&[packet::password(&password)], packets].concat();
    CheckInput {
        script: Parts::of(sent).bytes(),
        text: text.to_vec(),
        expected: checksum(START, &goal(text, size, &password).picture),
        password,
        size,
        lent: Lent::of_lengths(size, size / 8),
    }
}

/// How a script of a given length ends.
#[derive(Clone, Copy, Debug)]
pub enum Ending {
    Passing,
    Cut,
    Longer,
}

/// A checker input whose script has this length, filled up with range checksums and writes.
pub fn long_script(random: &mut Random, length: usize, ending: Ending) -> CheckInput {
    let size = 4_096;
    let text = b"@10\n00 01\nq".to_vec();
    let password = vec![0xFF; 256];
    let goal = goal(&text, size, &password);
    let start = packet::start(0);
    let mut script = [&HEAD, packet::password(&password).as_slice()].concat();
    script.extend(packet::erase());
    script.extend(packet::write(0x10, &[0x00, 0x01]));
    let mut missing = length - script.len() - start.len();
    while missing > 0 {
        // Range checksums have 12 bytes and writes 11 to 266; never leave 1 to 10.
        let filler = match missing {
            11..=266 => packet::write(0, &goal.picture[..missing - 10]),
            267..=288 => packet::write(0, &goal.picture[..100]),
            _ => packet::range_checksum(0, 0),
        };
        missing -= filler.len();
        script.extend(filler);
    }
    script.extend(start);
    match ending {
        Ending::Passing => {}
        Ending::Cut => script[length - 9] = 6,
        Ending::Longer => script.push(0),
    }
    CheckInput {
        script,
        text,
        password,
        expected: checksum(START, &goal.picture),
        size,
        lent: Lent::any(random, size, usize::MAX),
    }
}

#[cfg(test)]
mod tests {
    use super::*;

    #[test]
    fn long_scripts_have_their_length() {
        for more in 0..600 {
            let input = long_script(&mut Random::new(1), 400 + more, Ending::Passing);
            assert_eq!(input.script.len(), 400 + more);
            assert!(frames(&input.script).is_some());
        }
    }
}
