//! Document 02, T-09: the checker again, written straight over one region and its known bits. It
//! answers what `check` answers and needs no second buffer.

use crate::card::Mode;
use crate::checker::{is_start, require_lent, Checked};
use crate::checksum::{checksum, START};
use crate::loader::Command;
use crate::packet;
use crate::refusal::{require, Refused, LONGEST_SCRIPT, LONGEST_TEXT, PASSWORD};
use crate::script::HEAD;
use crate::text;

/// Checks the script, keeping track of which bytes of the region are known.
pub fn check_directly(
    script: &[u8],
    text: &[u8],
    password: &[u8],
    expected: u16,
    size: usize,
    region: &mut [u8],
    known: &mut [u8],
) -> Checked {
    let picture =
        require_lent(size, region, known).and_then(|()| picture_for(script, text, password, size));
    let picture = match picture {
        Ok(picture) => picture,
        Err(refused) => return Checked::before_the_run(refused),
    };
    region.fill(0x00);
    known.fill(0x00);
    let mut run = Run {
        mode: Mode::Locked,
        expected,
        password,
        picture: &picture,
        region,
        known,
        packets: 0,
    };
    let answer = run.whole(script);
    Checked {
        answer,
        packets: run.packets,
        unknown: unknown(run.known),
    }
}

/// The picture, unless one of refusals 2, 18 and 3 to 6 comes before the run.
fn picture_for(
    script: &[u8],
    text: &[u8],
    password: &[u8],
    size: usize,
) -> Result<Vec<u8>, Refused> {
    require(password.len() == PASSWORD, 2)?;
    let lengths_are_right = text.len() <= LONGEST_TEXT && script.len() <= LONGEST_SCRIPT;
    require(lengths_are_right, 18)?;
    let picture = text::picture(text, size)?;
    require(script.starts_with(&HEAD), 6)?;
    Ok(picture)
}

/// A loader over a region whose bytes are partly unknown. An unknown byte stands as 0 in the
/// region, so the rule of writes lets it become 0 and nothing else.
struct Run<'a> {
    mode: Mode,
    expected: u16,
    password: &'a [u8],
    picture: &'a [u8],
    region: &'a mut [u8],
    known: &'a mut [u8],
    packets: usize,
}

impl Run<'_> {
    /// Refusals 7 to 12, packet by packet as reached.
    fn whole(&mut self, script: &[u8]) -> Result<(), Refused> {
        let mut at = HEAD.len();
        while at < script.len() {
            if self.mode == Mode::Application {
                return Err(Refused::at(11, at));
            }
            let rest = &script[at..];
            let length = packet::frame(rest).ok_or(Refused::at(7, at))?;
            self.step(&rest[..length])
                .map_err(|number| Refused::at(number, at))?;
            self.packets += 1;
            at += length;
        }
        match self.mode {
            Mode::Application => Ok(()),
            Mode::Locked | Mode::Unlocked => Err(Refused::at(12, script.len())),
        }
    }

    fn step(&mut self, packet: &[u8]) -> Result<(), u8> {
        if is_start(packet) && !self.holds_the_picture() {
            return Err(10);
        }
        let command = packet::core(packet).ok().and_then(Command::of).ok_or(8)?;
        if self.carry_out(command) {
            Ok(())
        } else {
            Err(8)
        }
    }

    fn holds_the_picture(&self) -> bool {
        unknown(self.known) == 0 && *self.region == *self.picture
    }

    /// Whether the loader accepts the command; a refused one changes nothing. The checksum of a
    /// range isn't computed, since no answer of the checker depends on it.
    fn carry_out(&mut self, command: Command) -> bool {
        let is_locked = self.mode == Mode::Locked;
        if is_locked && !matches!(command, Command::Password(_))
            || !command.is_inside(self.region.len())
        {
            return false;
        }
        match command {
            Command::Password(given) if given == self.password => self.mode = Mode::Unlocked,
            Command::Password(_) => return false,
            Command::Erase => {
                self.region.fill(0xFF);
                self.known.fill(0xFF);
            }
            Command::Write { address, data } => return self.write(address, data),
            Command::RangeChecksum { .. } => {}
            Command::Start { .. } if checksum(START, self.region) == self.expected => {
                self.mode = Mode::Application;
            }
            Command::Start { .. } => return false,
        }
        true
    }

    /// A write may only clear bits. The bytes written are known from then on, zeros over unknown
    /// bytes too.
    fn write(&mut self, address: usize, data: &[u8]) -> bool {
        let old = &mut self.region[address..address + data.len()];
        let pairs = old.iter().zip(data);
        // All bytes are judged together, which is quicker than a decision after each.
        if pairs.fold(0, |set, (old, new)| set | (new & !old)) != 0 {
            return false;
        }
        old.copy_from_slice(data);
        mark(self.known, address, data.len());
        true
    }
}

/// Makes this many bytes known from this address on; there is at least one.
fn mark(known: &mut [u8], address: usize, length: usize) {
    let last = address + length - 1;
    let from_first = 0xFF << (address % 8);
    let up_to_last = 0xFF >> (7 - last % 8);
    match &mut known[address / 8..=last / 8] {
        [only] => *only |= from_first & up_to_last,
        [front, between @ .., back] => {
            *front |= from_first;
            between.fill(0xFF);
            *back |= up_to_last;
        }
        [] => {}
    }
}

/// The number of bytes that aren't known. The ones are counted a word at a time: the bits of every
/// region fill whole words.
fn unknown(known: &[u8]) -> usize {
    let (words, _) = known.as_chunks();
    let ones = |&word: &[u8; 8]| u64::from_le_bytes(word).count_ones() as usize;
    known.len() * 8 - words.iter().map(ones).sum::<usize>()
}

#[cfg(test)]
mod tests {
    use super::*;

    /// Each range of the first bytes, against its bits set one by one.
    #[test]
    fn ranges_are_marked_bit_by_bit() {
        for address in 0..24 {
            for length in 1..=40 {
                let mut known = [0; 8];
                mark(&mut known, address, length);
                let bits = ((1u64 << length) - 1) << address;
                assert_eq!(known, bits.to_le_bytes(), "{address} {length}");
                assert_eq!(unknown(&known), 64 - length);
            }
        }
    }

    #[test]
    fn marks_stay() {
        let mut known = [0; 8];
        for (address, length) in [(3, 2), (6, 12), (4, 3), (63, 1)] {
            mark(&mut known, address, length);
        }
        assert_eq!(known, [0b1111_1000, 0xFF, 0b0000_0011, 0, 0, 0, 0, 0x80]);
        assert_eq!(unknown(&known), 64 - 16);
    }
}
