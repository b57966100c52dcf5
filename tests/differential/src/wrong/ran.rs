//! What a wrong checker has at hand: a script that the reference checked, and what came of it, to
//! be altered.

use crate::inputs::lent::Lent;
use reference::checker::is_start;
use reference::loader::{Command, Loader};
use reference::refusal::is_region_size;
use reference::script::HEAD;
use reference::{packet, Checked, Mode, Refused};

pub struct Ran<'a> {
    pub script: &'a [u8],
    pub text: &'a [u8],
    pub password: &'a [u8],
    pub expected: u16,
    pub size: usize,
    pub region: &'a mut [u8],
    pub known: &'a mut [u8],
    /// The memory as it was lent.
    pub lent: Lent,
    pub checked: Checked,
}

/// What a packet that succeeded makes known, a place for each byte of the region.
pub type Learn = fn(&mut [bool], &Command);

/// The reference's checker, its answer altered.
macro_rules! wrong_check {
    ($name:literal, $alter:expr) => {
        wrong!($name, Check, check: |script, text, password, expected, size, region, known| {
            let alter: fn(&mut Ran) = $alter;
            let lent = Lent { region: region.to_vec(), known: known.to_vec() };
            let checked = reference::check(script, text, password, expected, size, region, known);
            let mut ran =
                Ran { script, text, password, expected, size, region, known, lent, checked };
            alter(&mut ran);
            ran.checked
        })
    };
}

impl<'a> Ran<'a> {
    /// The place, if the answer is this refusal.
    pub fn refused(&self, number: u8) -> Option<usize> {
        self.checked
            .answer
            .err()
            .filter(|refused| refused.number == number)
            .map(|refused| refused.place)
    }

    pub fn refuse(&mut self, number: u8, place: usize) {
        self.checked.answer = Err(Refused::at(number, place));
    }

    /// Whether no refusal came before the run.
    pub fn has_run(&self) -> bool {
        match self.checked.answer {
            Ok(()) => true,
            Err(refused) => (7..=12).contains(&refused.number),
        }
    }

    /// Passes, the packet that was refused counted as a start that succeeded.
    pub fn pass_by_one_more(&mut self) {
        self.checked.answer = Ok(());
        self.checked.packets += 1;
    }

    /// The whole frame at this place.
    pub fn frame(&self, place: usize) -> Option<&'a [u8]> {
        let rest = &self.script[place..];
        packet::frame(rest).map(|length| &rest[..length])
    }

    /// The picture of a text that was judged sound.
    pub fn picture(&self) -> Vec<u8> {
        let mut picture = vec![0; self.region.len()];
        reference::read(self.text, picture.len(), &mut picture).expect("a sound text");
        picture
    }

    /// The region with 0xFF for each unknown byte, as a run over 0xFF leaves it.
    pub fn ones(&self) -> Vec<u8> {
        let mut ones = self.region.to_vec();
        for (byte, is_known) in ones.iter_mut().zip(bits(self.known)) {
            *byte |= if is_known { 0x00 } else { 0xFF };
        }
        ones
    }

    /// Whether the frame at this place would succeed over these bytes, behind the packets so far.
    pub fn succeeds_over(&self, mut region: Vec<u8>, place: usize) -> bool {
        let loader = Loader {
            mode: match self.checked.packets {
                0 => Mode::Locked,
                _ => Mode::Unlocked,
            },
            expected: self.expected,
            password: self.password,
            region: &mut region,
        };
        self.frame(place)
            .is_some_and(|frame| loader.judge(frame).is_success())
    }

    /// Whether the frame at this place would succeed over the region.
    pub fn succeeds(&self, place: usize) -> bool {
        self.succeeds_over(self.region.to_vec(), place)
    }

    /// Lets the loader judge a start that the picture test refused for unknown bytes alone.
    pub fn start_over_unknown(&mut self) {
        let Some(place) = self.refused(10) else {
            return;
        };
        if *self.region != self.picture() {
            return;
        }
        if self.succeeds(place) {
            self.pass_by_one_more();
        } else {
            self.refuse(8, place);
        }
    }

    /// Sets the bits, low bit first, and counts the unknown bytes.
    pub fn leave(&mut self, bits: &[bool]) {
        for (byte, bits) in self.known.iter_mut().zip(bits.chunks(8)) {
            *byte = bits.iter().rfold(0, |byte, &bit| byte << 1 | u8::from(bit));
        }
        self.checked.unknown = unknown(bits);
    }

    /// Goes through the packets again with another rule of what they make known, from these bits
    /// on. No start goes by while a byte is unknown.
    pub fn relearn(&mut self, mut bits: Vec<bool>, learn: Learn) {
        let mut at = HEAD.len();
        for packets in 0..=self.checked.packets {
            let Some(frame) = self.frame(at) else {
                break;
            };
            if is_start(frame) && unknown(&bits) > 0 {
                self.checked.packets = packets;
                self.refuse(10, at);
                break;
            }
            if let (true, Some(command)) = (packets < self.checked.packets, command(frame)) {
                learn(&mut bits, &command);
            }
            at += frame.len();
        }
        if unknown(&bits) == 0 {
            self.start_over_unknown();
        }
        self.leave(&bits);
    }

    /// Leaves the memory as it was lent.
    pub fn restore(&mut self) {
        self.region.copy_from_slice(&self.lent.region);
        self.known.copy_from_slice(&self.lent.known);
    }

    /// Fills the memory as before a run.
    pub fn clear(&mut self) {
        self.region.fill(0x00);
        self.known.fill(0x00);
    }

    /// Checks over memory of the right lengths instead, and leaves what fits of it.
    pub fn check_anyway(&mut self) {
        if !is_region_size(self.size) {
            return;
        }
        let mut lent = self.lent.clone();
        lent.region.resize(self.size, 0);
        lent.known.resize(self.size / 8, 0);
        self.checked = reference::check(
            self.script,
            self.text,
            self.password,
            self.expected,
            self.size,
            &mut lent.region,
            &mut lent.known,
        );
        copy_front(self.region, &lent.region);
        copy_front(self.known, &lent.known);
    }
}

/// The bits of these bytes, low bit first.
pub fn bits(bytes: &[u8]) -> Vec<bool> {
    let bits = |byte: &u8| [0, 1, 2, 3, 4, 5, 6, 7].map(|bit| byte >> bit & 1 == 1);
    bytes.iter().flat_map(bits).collect()
}

pub fn unknown(bits: &[bool]) -> usize {
    bits.iter().filter(|is_known| !**is_known).count()
}

/// The command of a frame that is a sound packet.
pub fn command(frame: &[u8]) -> Option<Command<'_>> {
    packet::core(frame).ok().and_then(Command::of)
}

fn copy_front(to: &mut [u8], from: &[u8]) {
    for (to, from) in to.iter_mut().zip(from) {
        *to = *from;
    }
}
