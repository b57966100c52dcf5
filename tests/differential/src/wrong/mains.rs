//! Wrong cuts and restarts: the reference's altered after it, or its input before; and recoveries
//! from a cut that leave a step out.

use super::{address, Wrong};
use crate::implementation::{Implementation, REFERENCE};
use crate::recovery::{Steps, STEPS};
use crate::run::Function;
use reference::{checksum, packet, work, Card, Mode, Refused, START};

/// A cut that the reference made, to be altered.
struct Made<'a> {
    card: &'a mut Card,
    old_region: Vec<u8>,
    region: &'a mut [u8],
    message: &'a [u8],
    place: usize,
    /// The message's work.
    whole: usize,
}

impl Made<'_> {
    /// The address and the data of a write that has work.
    fn written(&self) -> Option<(usize, Vec<u8>)> {
        let core = packet::core(self.message).ok()?;
        let write = self.whole > 0 && core[0] == packet::WRITE;
        write.then(|| (address(core), core[5..].to_vec()))
    }

    /// Whether it is an erase that has work.
    fn erases(&self) -> bool {
        self.whole > 0 && self.message == packet::erase()
    }

    /// The region as it was, with these bytes at an address.
    fn leave(&mut self, address: usize, bytes: &[u8]) {
        self.region.copy_from_slice(&self.old_region);
        self.region[address..address + bytes.len()].copy_from_slice(bytes);
    }
}

/// The reference's cut, altered where it is not refused.
macro_rules! wrong_cut {
    ($name:literal, $alter:expr) => {
        wrong!($name, Cut, cut: |card, size, region, password, message, place| {
            let alter: fn(&mut Made) = $alter;
            let old_region = region.to_vec();
            reference::cut(card, size, region, password, message, place)?;
            let whole = work(card, &old_region, password, message);
            alter(&mut Made { card, old_region, region, message, place, whole });
            Ok(())
        })
    };
}

pub fn writes() -> Vec<Wrong> {
    vec![
        wrong_cut!("cut write leaves its last bytes", |made| {
            if let Some((address, data)) = made.written() {
                let kept = data.len() - made.place;
                made.leave(address + kept, &data[kept..]);
            }
        }),
        wrong_cut!("cut write leaves all its bytes", |made| {
            if let Some((address, data)) = made.written() {
                made.leave(address, &data);
            }
        }),
        wrong_cut!("cut write leaves none", |made| {
            if made.written().is_some() && made.place < made.whole {
                made.leave(0, &[]);
            }
        }),
        wrong_cut!("cut write leaves 0xFF behind it", |made| {
            if let Some((address, data)) = made.written() {
                made.region[address + made.place..address + data.len()].fill(0xFF);
            }
        }),
    ]
}

pub fn erases() -> Vec<Wrong> {
    vec![
        wrong_cut!("erase in blocks of 256", |made| {
            if made.erases() {
                made.leave(0, &vec![0xFF; made.place * 256]);
            }
        }),
        wrong_cut!("cut erase leaves its last blocks", |made| {
            if made.erases() {
                let kept = made.region.len() - made.place * 4_096;
                made.leave(kept, &vec![0xFF; made.place * 4_096]);
            }
        }),
        wrong_cut!("cut erase leaves 0x00", |made| {
            if made.erases() {
                made.leave(0, &vec![0x00; made.place * 4_096]);
            }
        }),
    ]
}

pub fn cut_states() -> Vec<Wrong> {
    vec![
        wrong_cut!("cut locks the card", |made| made.card.mode = Mode::Locked),
        wrong_cut!("cut password unlocks", |made| {
            let core = packet::core(made.message).unwrap_or(&[0]);
            if made.card.mode == Mode::Locked && core[0] == packet::PASSWORD {
                made.card.mode = Mode::Unlocked;
            }
        }),
    ]
}

pub fn works() -> Vec<Wrong> {
    vec![
        wrong!("refused write has its length as work", Cut,
            cut: |card, size, region, password, message, place| {
            let answer = reference::cut(card, size, region, password, message, place);
            let beyond = answer == Err(Refused::plain(21));
            let core = packet::core(message).unwrap_or(&[0]);
            let unlocked = card.mode == Mode::Unlocked && core[0] == packet::WRITE;
            match core.len().checked_sub(5) {
                Some(length) if beyond && unlocked && place <= length => Ok(()),
                _ => answer,
            }
        }),
        wrong!("a locked card has work", Cut,
            cut: |card, size, region, password, message, place| {
            let mode = match card.mode {
                Mode::Application => Mode::Application,
                Mode::Locked | Mode::Unlocked => Mode::Unlocked,
            };
            reference::cut(&Card { mode, ..*card }, size, region, password, message, place)
        }),
        wrong!("application mode has work", Cut,
            cut: |card, size, region, password, message, place| {
            let mode = match card.mode {
                Mode::Locked => Mode::Locked,
                Mode::Application | Mode::Unlocked => Mode::Unlocked,
            };
            reference::cut(&Card { mode, ..*card }, size, region, password, message, place)
        }),
        wrong!("a sound password packet has a byte of work", Cut,
            cut: |card, size, region, password, message, place| {
            let place = place - usize::from(place == 1 && message == packet::password(password));
            reference::cut(card, size, region, password, message, place)
        }),
    ]
}

pub fn refusals() -> Vec<Wrong> {
    vec![
        wrong!("21 at the whole work", Cut,
            cut: |card, size, region, password, message, place| {
            let mut after = region.to_vec();
            reference::cut(card, size, &mut after, password, message, place)?;
            if place == work(card, region, password, message) {
                return Err(Refused::plain(21));
            }
            region.copy_from_slice(&after);
            Ok(())
        }),
        wrong!("21 never given", Cut, cut: |card, size, region, password, message, place| {
            reference::cut(card, size, region, password, message, 0)?;
            let whole = work(card, region, password, message);
            reference::cut(card, size, region, password, message, place.min(whole))
        }),
        wrong!("place in 32 bits", Cut, cut: |card, size, region, password, message, place| {
            let place = place as u32 as usize;
            reference::cut(card, size, region, password, message, place)
        }),
        wrong!("21 has the work as its place", Cut,
            cut: |card, size, region, password, message, place| {
            let answer = reference::cut(card, size, region, password, message, place);
            match answer {
                Err(Refused { number: 21, .. }) => {
                    Err(Refused::at(21, work(card, region, password, message)))
                }
                _ => answer,
            }
        }),
    ]
}

/// The order of refusals.
pub fn order() -> Vec<Wrong> {
    vec![
        wrong!("2 before 1 in a cut", Cut, cut: |card, size, region, password, message, place| {
            let answer = reference::cut(card, size, region, password, message, place);
            match answer {
                Err(Refused { number: 1, .. }) if password.len() != 256 => Err(Refused::plain(2)),
                _ => answer,
            }
        }),
        wrong!("21 before 2", Cut, cut: |card, size, region, password, message, place| {
            let answer = reference::cut(card, size, region, password, message, place);
            let number = if place > 256 { 21 } else { 2 };
            answer.map_err(|refused| match refused.number {
                2 => Refused::plain(number),
                _ => refused,
            })
        }),
    ]
}

/// The reference's restart, altered where it is not refused; it is also told the mode before.
macro_rules! wrong_restart {
    ($name:literal, $alter:expr) => {
        wrong!($name, Restart, restart: |card, size, region| {
            let alter: fn(&mut Card, Mode, &[u8]) = $alter;
            let before = card.mode;
            reference::restart(card, size, region)?;
            alter(card, before, region);
            Ok(())
        })
    };
}

pub fn restart_modes() -> Vec<Wrong> {
    vec![
        wrong_restart!("restart comes up unlocked", |card, _, _| {
            if card.mode == Mode::Locked {
                card.mode = Mode::Unlocked;
            }
        }),
        wrong_restart!("restart keeps an unlocked card", |card, before, _| {
            if card.mode == Mode::Locked {
                card.mode = match before {
                    Mode::Unlocked => Mode::Unlocked,
                    Mode::Application | Mode::Locked => Mode::Locked,
                };
            }
        }),
        wrong_restart!("restart always in application", |card, _, _| {
            card.mode = Mode::Application;
        }),
        wrong_restart!("restart always locked", |card, _, _| {
            card.mode = Mode::Locked;
        }),
        wrong_restart!("restart keeps application", |card, before, _| {
            if before == Mode::Application {
                card.mode = Mode::Application;
            }
        }),
        wrong_restart!("restart judges the low byte alone", |card, _, region| {
            if checksum(START, region) as u8 == card.expected as u8 {
                card.mode = Mode::Application;
            }
        }),
    ]
}

/// What a restart leaves of the state, and its refusals.
pub fn restart_states() -> Vec<Wrong> {
    vec![
        wrong_restart!("restart forgets the expected checksum", |card, _, _| {
            card.expected = 0;
        }),
        wrong_restart!("restart expects what is there", |card, _, region| {
            card.expected = checksum(START, region);
        }),
        wrong_restart!("restart clears the record", |card, _, _| {
            card.record = Default::default();
        }),
        wrong!("refused restart locks", Restart, restart: |card, size, region| {
            reference::restart(card, size, region).inspect_err(|_| card.mode = Mode::Locked)
        }),
        wrong!("restart of any region's length", Restart, restart: |card, _, region| {
            reference::restart(card, region.len(), region)
        }),
    ]
}

/// A recovery from a cut that has to fail: a side that is wrong, or a step left out.
pub struct WrongRecovery {
    pub name: &'static str,
    pub side: Implementation,
    pub steps: Steps,
}

pub fn recoveries() -> Vec<WrongRecovery> {
    let wrong = |name, side, steps| WrongRecovery { name, side, steps };
    let no_restart = Steps {
        restart: false,
        ..STEPS
    };
    let no_entering = Steps {
        enter: false,
        ..STEPS
    };
    let always_application = Implementation {
        restart: |card, size, region| {
            reference::restart(card, size, region)?;
            card.mode = Mode::Application;
            Ok(())
        },
        ..REFERENCE
    };
    let erase_left_out = Implementation {
        call: |card, size, region, password, message, reply| {
            let old_region = region.to_vec();
            let replied = reference::call(card, size, region, password, message, reply)?;
            if message == packet::erase() {
                region.copy_from_slice(&old_region);
            }
            Ok(replied)
        },
        ..REFERENCE
    };
    vec![
        wrong("restart left out", REFERENCE, no_restart),
        wrong("0x32 left out", REFERENCE, no_entering),
        wrong("restart always in application", always_application, STEPS),
        wrong("erase does nothing", erase_left_out, STEPS),
    ]
}
