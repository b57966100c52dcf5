//! Wrong calls: the reference's answer altered after it, or its input before.

use super::{address, Wrong};
use crate::implementation::{Implementation, REFERENCE};
use crate::run::Function;
use reference::{packet, record};
use reference::{Card, Mode, Refused, Replied};

/// A call that the reference answered, to be altered.
struct Called<'a> {
    before: Card,
    old_region: Vec<u8>,
    card: &'a mut Card,
    region: &'a mut [u8],
    password: &'a [u8],
    message: &'a [u8],
    reply: &'a mut [u8],
    answer: Replied,
}

impl Called<'_> {
    /// The loader's message, if it answered one.
    fn number(&self) -> Option<u8> {
        let loader = self.before.mode != Mode::Application;
        (loader && self.answer.count == 8).then(|| self.reply[5])
    }

    /// The one byte that the loader answered.
    fn byte(&self) -> Option<u8> {
        let loader = self.before.mode != Mode::Application;
        (loader && self.answer.count == 1).then(|| self.reply[0])
    }

    /// The core, if it is this command's with its right length, in a loader mode.
    fn core(&self, command: u8) -> Option<&[u8]> {
        let core = packet::core(self.message).ok()?;
        let known = self.before.mode != Mode::Application && self.number() != Some(7);
        (known && core[0] == command).then_some(core)
    }

    fn answer_bytes(&mut self, bytes: &[u8]) {
        self.reply[..bytes.len()].copy_from_slice(bytes);
        self.answer.count = bytes.len();
    }

    fn answer_message(&mut self, number: u8) {
        let packet = packet::packet(&[packet::MESSAGE, number]);
        self.answer_bytes(&[&[0], &packet[..]].concat());
        self.answer.success = number == 0;
    }

    /// As if the packet had been refused with this message.
    fn refuse(&mut self, number: u8) {
        *self.card = self.before;
        self.region.copy_from_slice(&self.old_region);
        self.answer_message(number);
    }

    fn is_request(&self, code: u8) -> bool {
        self.before.mode == Mode::Application && self.message == [code]
    }
}

/// The reference's call, altered where it is not refused.
macro_rules! wrong_call {
    ($name:literal, $alter:expr) => {
        wrong!($name, Call, call: |card, size, region, password, message, reply| {
            let alter: fn(&mut Called) = $alter;
            let (before, old_region) = (*card, region.to_vec());
            let answer = reference::call(card, size, region, password, message, reply)?;
            let mut called =
                Called { before, old_region, card, region, password, message, reply, answer };
            alter(&mut called);
            Ok(called.answer)
        })
    };
}

pub fn packets() -> Vec<Wrong> {
    vec![
        wrong!("packet checksum high byte first", Call,
            call: |card, size, region, password, message, reply| {
            let mut swapped = message.to_vec();
            if card.mode != Mode::Application && message.len() >= 6 {
                swapped.swap(message.len() - 1, message.len() - 2);
            }
            reference::call(card, size, region, password, &swapped, reply)
        }),
        wrong_call!("0x53 after 0x55", |called| {
            if called.byte() == Some(0x53) && called.message.len() != 5 {
                called.reply[0] = 0x55;
            }
        }),
        wrong_call!("0x54 after 0x55", |called| {
            let length = packet::core_length(called.message).map(|core| core + 5);
            if called.byte() == Some(0x54) && length != Some(called.message.len()) {
                called.reply[0] = 0x55;
            }
        }),
        wrong_call!("core length 262 taken", |called| {
            let longer = packet::core_length(called.message) == Some(262);
            if called.byte() == Some(0x54) && longer && called.message.len() != 267 {
                called.reply[0] = 0x55;
            }
        }),
        wrong_call!("checksum of a cut packet first", |called| {
            if called.byte() == Some(0x55) && called.message.len() > 8 {
                called.reply[0] = 0x52;
            }
        }),
        wrong_call!("two status bytes from the loader", |called| {
            if called.before.mode != Mode::Application && called.message == [0x31] {
                called.answer_bytes(&[0x01, 0x00]);
            }
        }),
        wrong_call!("status is a success", |called| {
            called.answer.success |= called.message == [0x31];
        }),
        wrong_call!("reply bytes beyond the answer cleared", |called| {
            called.reply[called.answer.count..].fill(0);
        }),
    ]
}

pub fn loaders() -> Vec<Wrong> {
    vec![
        wrong_call!("0x07 after 0x04", |called| {
            if called.number() == Some(7) && called.before.mode == Mode::Locked {
                called.answer_message(4);
            }
        }),
        wrong_call!("wrong password locks", |called| {
            if called.number() == Some(5) {
                called.card.mode = Mode::Locked;
            }
        }),
        wrong_call!("56 bytes of the password compared", |called| {
            let given = called.core(packet::PASSWORD).map(|core| &core[1..57]);
            if given == Some(&called.password[..56]) {
                called.card.mode = Mode::Unlocked;
                called.answer_message(0);
            }
        }),
        wrong_call!("write without the AND rule", |called| {
            if let Some(core) = called.core(packet::WRITE) {
                let (first, data) = (address(core), core[5..].to_vec());
                let inside = first + data.len() <= called.region.len();
                if called.before.mode == Mode::Unlocked && inside {
                    called.region[first..first + data.len()].copy_from_slice(&data);
                    called.answer_message(0);
                }
            }
        }),
        wrong_call!("refused write writes what it may", |called| {
            if let Some(core) = called.core(packet::WRITE) {
                let (first, data) = (address(core), core[5..].to_vec());
                let inside = first + data.len() <= called.region.len();
                if called.number() == Some(1) && inside {
                    for (old, new) in called.region[first..].iter_mut().zip(&data) {
                        *old &= new;
                    }
                }
            }
        }),
        wrong_call!("write changes nothing", |called| {
            if called.core(packet::WRITE).is_some() {
                called.region.copy_from_slice(&called.old_region);
            }
        }),
        wrong_call!("last byte of the region not written", |called| {
            let ends = called
                .core(packet::WRITE)
                .map(|core| address(core) + core.len() - 5);
            if called.answer.success && ends == Some(called.region.len()) {
                called.refuse(1);
            }
        }),
        wrong_call!("erase to 0x00", |called| {
            if called.core(packet::ERASE).is_some() && called.number() == Some(0) {
                called.region.fill(0);
            }
        }),
        wrong_call!("erase keeps the last byte", |called| {
            if called.core(packet::ERASE).is_some() && called.number() == Some(0) {
                let last = called.region.len() - 1;
                called.region[last] = called.old_region[last];
            }
        }),
        wrong_call!("empty range at N refused", |called| {
            let first = called.core(packet::RANGE_CHECKSUM).map(address);
            if called.answer.success && first == Some(called.region.len()) {
                called.refuse(1);
            }
        }),
        wrong_call!("range checksum high byte first", |called| {
            if called.core(packet::RANGE_CHECKSUM).is_some() && called.answer.count == 9 {
                let packet = packet::packet(&[packet::DATA, called.reply[6], called.reply[5]]);
                called.answer_bytes(&[&[0], &packet[..]].concat());
            }
        }),
        wrong_call!("start without the checksum", |called| {
            let entry = called.core(packet::START).map(address);
            let inside = entry.is_some_and(|entry| entry < called.region.len());
            if called.before.mode == Mode::Unlocked && inside {
                called.card.mode = Mode::Application;
                called.answer = Replied {
                    count: 0,
                    success: true,
                };
            }
        }),
        wrong_call!("start answers 0x00", |called| {
            if called.core(packet::START).is_some() && called.answer.success {
                called.answer_bytes(&[0]);
            }
        }),
        wrong_call!("entry address not judged", |called| {
            let matches =
                reference::checksum(reference::START, called.region) == called.before.expected;
            let start = called.core(packet::START).is_some();
            if called.number() == Some(1) && start && matches {
                called.card.mode = Mode::Application;
                called.answer = Replied {
                    count: 0,
                    success: true,
                };
            }
        }),
        wrong_call!("failed start locks", |called| {
            if called.core(packet::START).is_some() && called.number() == Some(1) {
                called.card.mode = Mode::Locked;
            }
        }),
    ]
}

pub fn applications() -> Vec<Wrong> {
    vec![
        wrong_call!("temperatures unsigned", |called| {
            let sensors = called.before.record.sensors;
            if called.is_request(0x02) {
                called.reply[0] = (sensors.inlet as u8).max(sensors.outlet as u8);
            }
        }),
        wrong_call!("lesser of the FPGA temperatures", |called| {
            let record = called.before.record;
            let (first, second) = (record.device1, record.device2);
            if called.is_request(0x05) {
                called.reply[0] = first.fpga_temperature.min(second.fpga_temperature) as u8;
            }
        }),
        wrong_call!("total power high byte first", |called| {
            if called.is_request(0x03) {
                called.reply.swap(0, 1);
            }
        }),
        wrong_call!("total power from the readings", |called| {
            let input = called.before.record.sensors.input_12v;
            if called.is_request(0x03) {
                let power = reference::total_power(input.voltage, input.current);
                called.answer_bytes(&power.to_le_bytes());
            }
        }),
        wrong_call!("version by the byte list", |called| {
            let [xx, yy, zz] = called.before.version;
            if called.is_request(0x04) {
                called.answer_bytes(&[xx, yy, zz, 0]);
            }
        }),
        wrong_call!("reset answers 0x03", |called| {
            if called.before.mode == Mode::Application && called.message[0] == 0x0F {
                called.reply[0] += u8::from(called.reply[0] == 2);
            }
        }),
        wrong_call!("warm reset fails", |called| {
            if called.before.mode == Mode::Application && called.message == [0x0F, 2] {
                called.reply[0] = 2;
            }
        }),
        wrong_call!("0x32 enters an unlocked loader", |called| {
            if called.is_request(0x32) {
                called.card.mode = Mode::Unlocked;
            }
        }),
        wrong_call!("0x32 forgets the expected checksum", |called| {
            if called.is_request(0x32) {
                called.card.expected = 0;
            }
        }),
    ]
}

pub fn refusals() -> Vec<Wrong> {
    vec![
        wrong!("reply buffer of 8 enough for a message", Call,
            call: |card, size, region, password, message, reply| {
            let mut room = [0; 9];
            if card.mode == Mode::Application || reply.len() != 8 {
                return reference::call(card, size, region, password, message, reply);
            }
            let replied = reference::call(card, size, region, password, message, &mut room)?;
            reply.copy_from_slice(&room[..8]);
            Ok(replied)
        }),
        wrong!("13 before 2", Call, call: |card, size, region, password, message, reply| {
            let answer = reference::call(card, size, region, password, message, reply);
            match answer {
                Err(Refused { number: 2, .. }) if reply.len() < 9 => Err(Refused::plain(13)),
                _ => answer,
            }
        }),
        wrong!("0x06 unknown", Call, call: |card, size, region, password, message, reply| {
            let answer = reference::call(card, size, region, password, message, reply);
            match answer {
                Err(Refused { number: 16, .. }) if message == [6] => Err(Refused::plain(15)),
                _ => answer,
            }
        }),
        wrong!("0x04 judges the record", Call,
            call: |card, size, region, password, message, reply| {
            let broken = !record::is_sound(&card.record);
            if card.mode == Mode::Application && message == [4] && broken {
                let reply = &mut reply.to_vec();
                reference::call(card, size, region, password, message, reply)?;
                return Err(Refused::plain(17));
            }
            reference::call(card, size, region, password, message, reply)
        }),
        wrong!("requests longer than their code taken", Call,
            call: |card, size, region, password, message, reply| {
            let cut = card.mode == Mode::Application && message.first() == Some(&0x31);
            let message = if cut { &message[..1] } else { message };
            reference::call(card, size, region, password, message, reply)
        }),
    ]
}
