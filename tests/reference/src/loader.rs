//! Document 01, "The loader": one message judged in a loader mode.

use crate::card::Mode;
use crate::checksum::{checksum, START};
use crate::packet::{self, push_packet};

/// A loader in one of its two modes, with what it is lent.
pub struct Loader<'a> {
    pub mode: Mode,
    pub expected: u16,
    pub password: &'a [u8],
    pub region: &'a mut [u8],
}

/// What a message comes to.
#[derive(Clone, Copy, Debug, PartialEq, Eq)]
pub enum Outcome<'m> {
    /// One byte is answered: the status, or the fault of a message that is no sound packet.
    Byte(u8),
    /// A sound packet, refused with this message.
    Refused(u8),
    Unlock,
    Erase,
    Write {
        address: usize,
        data: &'m [u8],
    },
    Sum(u16),
    Start,
}

/// A core taken apart by its command and length.
pub enum Command<'m> {
    Password(&'m [u8]),
    Erase,
    Write { address: usize, data: &'m [u8] },
    RangeChecksum { address: usize, length: usize },
    Start { entry: usize },
}

impl<'m> Command<'m> {
    /// Nothing for an unknown command or a wrong core length.
    pub fn of(core: &'m [u8]) -> Option<Command<'m>> {
        let (&code, rest) = core.split_first()?;
        match (code, rest.len()) {
            (packet::PASSWORD, 256) => Some(Command::Password(rest)),
            (packet::ERASE, 0) => Some(Command::Erase),
            (packet::WRITE, 5..=260) => Some(Command::Write {
                address: number(&rest[..4]),
                data: &rest[4..],
            }),
            (packet::RANGE_CHECKSUM, 6) => Some(Command::RangeChecksum {
                address: number(&rest[..4]),
                length: number(&rest[4..]),
            }),
            (packet::START, 4) => Some(Command::Start {
                entry: number(rest),
            }),
            _ => None,
        }
    }

    /// Whether the bytes it names lie inside a region of this size.
    pub fn is_inside(&self, size: usize) -> bool {
        match *self {
            Command::Password(_) | Command::Erase => true,
            Command::Write { address, data } => address + data.len() <= size,
            Command::RangeChecksum { address, length } => address + length <= size,
            Command::Start { entry } => entry < size,
        }
    }
}

/// A whole number, low byte first.
fn number(bytes: &[u8]) -> usize {
    bytes
        .iter()
        .rev()
        .fold(0, |number, &byte| (number << 8) | usize::from(byte))
}

impl Loader<'_> {
    /// What the message comes to; nothing is changed yet.
    pub fn judge<'m>(&self, message: &'m [u8]) -> Outcome<'m> {
        if message == [0x31] {
            return Outcome::Byte(0x01);
        }
        match packet::core(message) {
            Ok(core) => self.judge_core(core),
            Err(fault) => Outcome::Byte(fault),
        }
    }

    fn judge_core<'m>(&self, core: &'m [u8]) -> Outcome<'m> {
        let Some(command) = Command::of(core) else {
            return Outcome::Refused(0x07);
        };
        if self.mode == Mode::Locked && !matches!(command, Command::Password(_)) {
            return Outcome::Refused(0x04);
        }
        if !command.is_inside(self.region.len()) {
            return Outcome::Refused(0x01);
        }
        match command {
            Command::Password(given) if given == self.password => Outcome::Unlock,
            Command::Password(_) => Outcome::Refused(0x05),
            Command::Erase => Outcome::Erase,
            Command::Write { address, data } => self.judge_write(address, data),
            Command::RangeChecksum { address, length } => {
                Outcome::Sum(checksum(START, &self.region[address..address + length]))
            }
            Command::Start { .. } if checksum(START, self.region) == self.expected => {
                Outcome::Start
            }
            Command::Start { .. } => Outcome::Refused(0x01),
        }
    }

    /// A write may only clear bits.
    fn judge_write<'m>(&self, address: usize, data: &'m [u8]) -> Outcome<'m> {
        let old = &self.region[address..address + data.len()];
        if old.iter().zip(data).all(|(old, new)| old & new == *new) {
            Outcome::Write { address, data }
        } else {
            Outcome::Refused(0x01)
        }
    }

    /// Carries an outcome out.
    pub fn apply(&mut self, outcome: Outcome) {
        match outcome {
            Outcome::Byte(_) | Outcome::Refused(_) | Outcome::Sum(_) => {}
            Outcome::Unlock => self.mode = Mode::Unlocked,
            Outcome::Erase => self.region.fill(0xFF),
            Outcome::Write { address, data } => {
                self.region[address..address + data.len()].copy_from_slice(data);
            }
            Outcome::Start => self.mode = Mode::Application,
        }
    }
}

impl Outcome<'_> {
    /// Success means message 0, a data reply, or a start that ends in application.
    pub fn is_success(&self) -> bool {
        !matches!(self, Outcome::Byte(_) | Outcome::Refused(_))
    }

    /// The bytes answered.
    pub fn reply(&self) -> Vec<u8> {
        match *self {
            Outcome::Byte(byte) => vec![byte],
            Outcome::Refused(message) => acknowledged(&[packet::MESSAGE, message]),
            Outcome::Unlock | Outcome::Erase | Outcome::Write { .. } => {
                acknowledged(&[packet::MESSAGE, 0])
            }
            Outcome::Sum(sum) => {
                let [low, high] = sum.to_le_bytes();
                acknowledged(&[packet::DATA, low, high])
            }
            Outcome::Start => Vec::new(),
        }
    }
}

/// 0x00 and then the packet with this core.
fn acknowledged(core: &[u8]) -> Vec<u8> {
    let mut reply = vec![0x00];
    push_packet(&mut reply, &[core]);
    reply
}

#[cfg(test)]
mod tests {
    use super::*;

    const PASSWORD: [u8; 256] = [0x5A; 256];

    fn judged(mode: Mode, region: &mut [u8], message: &[u8]) -> Vec<u8> {
        let expected = 0x1234;
        let mut loader = Loader {
            mode,
            expected,
            password: &PASSWORD,
            region,
        };
        let outcome = loader.judge(message);
        loader.apply(outcome);
        outcome.reply()
    }

    fn message(number: u8) -> Vec<u8> {
        acknowledged(&[0x3B, number])
    }

    #[test]
    fn replies() {
        let mut region = vec![0; 4_096];
        let locked = Mode::Locked;
        let open = Mode::Unlocked;
        assert_eq!(judged(locked, &mut region, &[0x31]), [0x01]);
        assert_eq!(judged(locked, &mut region, &packet::erase()), message(4));
        assert_eq!(
            judged(locked, &mut region, &packet::packet(&[0x99])),
            message(7)
        );
        let good = packet::password(&PASSWORD);
        assert_eq!(
            judged(locked, &mut region, &good),
            [0, 0x80, 2, 0, 0x3B, 0, 0x60, 0xC4]
        );
        let bad = packet::password(&[0x5B; 256]);
        assert_eq!(judged(locked, &mut region, &bad), message(5));
        assert_eq!(judged(open, &mut region, &packet::erase()), message(0));
        assert!(region.iter().all(|&byte| byte == 0xFF));
    }

    #[test]
    fn writes() {
        let mut region = vec![0xFF; 4_096];
        let open = Mode::Unlocked;
        let mut send = |bytes: Vec<u8>| judged(open, &mut region, &bytes);
        assert_eq!(send(packet::write(4_095, &[1])), message(0));
        assert_eq!(send(packet::write(4_095, &[1, 2])), message(1));
        assert_eq!(send(packet::write(4_095, &[3])), message(1));
        assert_eq!(send(packet::write(u32::MAX, &[1])), message(1));
        assert_eq!(send(packet::packet(&[0x20, 0, 0, 0, 0])), message(7));
        assert_eq!(region[4_095], 1);
    }

    #[test]
    fn range_checksums() {
        let mut region = vec![0xFF; 4_096];
        let open = Mode::Unlocked;
        let mut send = |bytes: Vec<u8>| judged(open, &mut region, &bytes);
        let empty = acknowledged(&[0x3A, 0xFF, 0xFF]);
        assert_eq!(send(packet::range_checksum(4_096, 0)), empty);
        assert_eq!(send(packet::range_checksum(4_097, 0)), message(1));
        assert_eq!(send(packet::range_checksum(4_095, 2)), message(1));
    }
}
