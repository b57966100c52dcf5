//! Document 02, T-07: mains lost while a message is carried out, and the restart after it.

use crate::card::{Card, Mode};
use crate::checksum::{checksum, START};
use crate::loader::{Loader, Outcome};
use crate::refusal::{is_region_size, require, Refused, PASSWORD};

/// An erase blanks the flash block by block, the lowest addresses first.
const ERASE_BLOCK: usize = 4_096;

/// Power is lost at this place of the message's work. Only the region outlives it as it then
/// stands, so nothing else is changed here; the restart settles the mode.
pub fn cut(
    card: &Card,
    size: usize,
    region: &mut [u8],
    password: &[u8],
    message: &[u8],
    place: usize,
) -> Result<(), Refused> {
    require(is_region_size(size) && region.len() == size, 1)?;
    require(password.len() == PASSWORD, 2)?;
    let outcome = judged(card, region, password, message);
    require(place <= greatest_place(outcome, size), 21)?;
    match outcome {
        Some(Outcome::Write { address, data }) => {
            region[address..address + place].copy_from_slice(&data[..place]);
        }
        Some(Outcome::Erase) => region[..place * ERASE_BLOCK].fill(0xFF),
        _ => {}
    }
    Ok(())
}

/// Power comes back. The card starts its firmware only over the expected checksum.
pub fn restart(card: &mut Card, size: usize, region: &[u8]) -> Result<(), Refused> {
    require(is_region_size(size) && region.len() == size, 1)?;
    card.mode = if checksum(START, region) == card.expected {
        Mode::Application
    } else {
        Mode::Locked
    };
    Ok(())
}

/// The greatest place at which the message can be cut. The loader judges over a region that it
/// may change, so it gets a copy of this one.
pub fn work(card: &Card, region: &[u8], password: &[u8], message: &[u8]) -> usize {
    let outcome = judged(card, &mut region.to_vec(), password, message);
    greatest_place(outcome, region.len())
}

/// What the message would come to in a loader mode. In application mode there is nothing to
/// judge, since no request works on the flash.
fn judged<'m>(
    card: &Card,
    region: &mut [u8],
    password: &[u8],
    message: &'m [u8],
) -> Option<Outcome<'m>> {
    match card.mode {
        Mode::Application => None,
        Mode::Locked | Mode::Unlocked => {
            let loader = Loader {
                mode: card.mode,
                expected: card.expected,
                password,
                region,
            };
            Some(loader.judge(message))
        }
    }
}

/// A write is cut between its bytes and an erase between its blocks, before the first and after
/// the last included. Any other message, and a refused one, can only be cut before it.
fn greatest_place(outcome: Option<Outcome>, size: usize) -> usize {
    match outcome {
        Some(Outcome::Write { data, .. }) => data.len(),
        Some(Outcome::Erase) => size / ERASE_BLOCK,
        _ => 0,
    }
}

#[cfg(test)]
mod tests {
    use super::*;
    use crate::card::call;
    use crate::checker::check;
    use crate::packet;
    use crate::planner::plan;
    use crate::record::SensorRecord;
    use crate::script::frames;
    use crate::text;

    const KEY: [u8; 256] = [0x5A; 256];

    fn card(mode: Mode, expected: u16) -> Card {
        let mut record = SensorRecord::default();
        record.sensors.inlet = -2;
        Card {
            mode,
            expected,
            version: [6, 2, 11],
            record,
        }
    }

    /// The region after a cut, or the refusal, which must leave the region alone.
    fn after(
        mode: Mode,
        region: &[u8],
        message: &[u8],
        place: usize,
    ) -> Result<Vec<u8>, (u8, usize)> {
        let (card, size) = (card(mode, 0), region.len());
        let mut left = region.to_vec();
        match cut(&card, size, &mut left, &KEY, message, place) {
            Ok(()) => Ok(left),
            Err(refused) => {
                assert_eq!(left, region);
                Err((refused.number, refused.place))
            }
        }
    }

    /// The message can be cut before it, which changes nothing, and nowhere else.
    fn assert_no_work(mode: Mode, region: &[u8], message: &[u8]) {
        assert_eq!(work(&card(mode, 0), region, &KEY, message), 0);
        assert_eq!(after(mode, region, message, 0), Ok(region.to_vec()));
        for place in [1, 2, 256, usize::MAX] {
            let refused = after(mode, region, message, place);
            assert_eq!(refused, Err((21, 0)), "{mode:?} {message:02X?}");
        }
    }

    #[test]
    fn a_cut_write_leaves_its_first_bytes() {
        let mut region = vec![0xFF; 4_096];
        region[0x11] = 0x0F;
        let write = packet::write(0x10, &[1, 2, 3]);
        let left = |place| {
            after(Mode::Unlocked, &region, &write, place).map(|left| left[0x0F..0x14].to_vec())
        };
        assert_eq!(left(0), Ok(vec![0xFF, 0xFF, 0x0F, 0xFF, 0xFF]));
        assert_eq!(left(1), Ok(vec![0xFF, 1, 0x0F, 0xFF, 0xFF]));
        assert_eq!(left(2), Ok(vec![0xFF, 1, 2, 0xFF, 0xFF]));
        assert_eq!(left(3), Ok(vec![0xFF, 1, 2, 3, 0xFF]));
        assert_eq!(left(4), Err((21, 0)));
        assert_eq!(left(usize::MAX), Err((21, 0)));
        assert_eq!(work(&card(Mode::Unlocked, 0), &region, &KEY, &write), 3);
    }

    /// A full block at the end of the region, and one byte at its last address.
    #[test]
    fn writes_up_to_the_end_of_the_region() {
        let region = vec![0xFF; 4_096];
        let block = packet::write(3_840, &[0; 256]);
        for place in 0..=256 {
            let left = after(Mode::Unlocked, &region, &block, place).unwrap();
            assert!(left[..3_840].iter().all(|&byte| byte == 0xFF));
            assert!(left[3_840..3_840 + place].iter().all(|&byte| byte == 0));
            assert!(left[3_840 + place..].iter().all(|&byte| byte == 0xFF));
        }
        let beyond = after(Mode::Unlocked, &region, &block, 257);
        assert_eq!(beyond, Err((21, 0)));
        let last = packet::write(4_095, &[7]);
        let left = after(Mode::Unlocked, &region, &last, 1).unwrap();
        assert_eq!((left[4_094], left[4_095]), (0xFF, 7));
    }

    /// Old bytes that the write leaves as they are count as its work like any others.
    #[test]
    fn a_write_of_the_old_bytes_is_work_too() {
        let region = vec![0; 4_096];
        let write = packet::write(0, &[0; 2]);
        for place in 0..=2 {
            let left = after(Mode::Unlocked, &region, &write, place);
            assert_eq!(left, Ok(region.clone()));
        }
        let beyond = after(Mode::Unlocked, &region, &write, 3);
        assert_eq!(beyond, Err((21, 0)));
    }

    #[test]
    fn a_cut_erase_leaves_its_first_blocks() {
        let erase = packet::erase();
        for blocks in [1, 2, 3, 64] {
            let region = vec![0x12; blocks * 4_096];
            for place in 0..=blocks {
                let left = after(Mode::Unlocked, &region, &erase, place).unwrap();
                let (erased, kept) = left.split_at(place * 4_096);
                assert!(erased.iter().all(|&byte| byte == 0xFF));
                assert!(kept.iter().all(|&byte| byte == 0x12));
            }
            for beyond in [blocks + 1, blocks * 4_096, usize::MAX] {
                let refused = after(Mode::Unlocked, &region, &erase, beyond);
                assert_eq!(refused, Err((21, 0)));
            }
            let unlocked = card(Mode::Unlocked, 0);
            assert_eq!(work(&unlocked, &region, &KEY, &erase), blocks);
            assert_no_work(Mode::Locked, &region, &erase);
        }
    }

    /// A refused write leaves no byte, not even those before the first that could not be written.
    #[test]
    fn refused_packets_have_no_work() {
        let zeros = vec![0; 4_096];
        let blank = vec![0xFF; 4_096];
        let open = Mode::Unlocked;
        assert_no_work(open, &zeros, &packet::write(0, &[0, 0, 1]));
        assert_no_work(open, &blank, &packet::write(4_095, &[1, 2]));
        assert_no_work(open, &blank, &packet::write(u32::MAX, &[1]));
        assert_no_work(open, &blank, &packet::packet(&[0x20, 0, 0, 0, 0]));
        assert_no_work(open, &blank, &packet::packet(&[0x15, 0]));
        assert_no_work(Mode::Locked, &blank, &packet::write(0, &[1, 2]));
        let mut damaged = packet::write(0, &[1, 2]);
        damaged[8] ^= 1;
        assert_no_work(open, &blank, &damaged);
        assert_no_work(open, &blank, &packet::erase()[..5]);
    }

    #[test]
    fn other_messages_have_no_work() {
        let region = vec![0xFF; 8_192];
        for mode in [Mode::Locked, Mode::Unlocked] {
            assert_no_work(mode, &region, &packet::password(&KEY));
            assert_no_work(mode, &region, &packet::password(&[0; 256]));
            assert_no_work(mode, &region, &packet::range_checksum(0, 4_096));
            assert_no_work(mode, &region, &packet::start(0));
            assert_no_work(mode, &region, &[0x31]);
            assert_no_work(mode, &region, &[]);
        }
        let sum = checksum(START, &region);
        let ready = card(Mode::Unlocked, sum);
        let mut left = region.clone();
        let start = packet::start(0);
        assert_eq!(cut(&ready, 8_192, &mut left, &KEY, &start, 0), Ok(()));
        let beyond = cut(&ready, 8_192, &mut left, &KEY, &start, 1);
        assert_eq!(beyond, Err(Refused::plain(21)));
        assert_eq!(left, region);
    }

    #[test]
    fn no_request_in_application_mode_works_on_the_flash() {
        let region = vec![0xFF; 4_096];
        let write = packet::write(0, &[1]);
        let erase = packet::erase();
        let requests: [&[u8]; 6] = [&[], &[0x01], &[0x20], &[0x32], &write, &erase];
        for request in requests {
            assert_no_work(Mode::Application, &region, request);
        }
    }

    #[test]
    fn refusals_in_order() {
        let erase = packet::erase();
        for mode in [Mode::Application, Mode::Locked, Mode::Unlocked] {
            let refused = |size, length: usize, password: &[u8]| {
                let mut region = vec![7; length];
                let refused = cut(&card(mode, 0), size, &mut region, password, &erase, 99);
                assert!(region.iter().all(|&byte| byte == 7));
                refused
            };
            for (size, length) in [(0, 0), (4_095, 4_095), (8_192, 4_096), (4_096, 8_192)] {
                assert_eq!(refused(size, length, &KEY[1..]), Err(Refused::plain(1)));
                assert_eq!(refused(size, length, &KEY), Err(Refused::plain(1)));
            }
            assert_eq!(refused(4_096, 4_096, &KEY[1..]), Err(Refused::plain(2)));
            assert_eq!(refused(4_096, 4_096, &[0; 257]), Err(Refused::plain(2)));
            assert_eq!(refused(4_096, 4_096, &KEY), Err(Refused::plain(21)));
        }
    }

    #[test]
    fn restart_settles_the_mode_and_nothing_else() {
        for size in [4_096, 8_192] {
            let region = vec![0x12; size];
            let sum = checksum(START, &region);
            for before in [Mode::Application, Mode::Locked, Mode::Unlocked] {
                for (expected, mode) in [(sum, Mode::Application), (!sum, Mode::Locked)] {
                    let mut restarted = card(before, expected);
                    assert_eq!(restart(&mut restarted, size, &region), Ok(()));
                    assert_eq!(restarted, card(mode, expected));
                }
            }
        }
    }

    #[test]
    fn a_refused_restart_changes_nothing() {
        for (size, length) in [(0, 0), (4_095, 4_095), (8_192, 4_096), (4_096, 8_192)] {
            for mode in [Mode::Application, Mode::Unlocked] {
                let region = vec![0; length];
                let mut refused = card(mode, !checksum(START, &region));
                let before = refused;
                let answer = restart(&mut refused, size, &region);
                assert_eq!(answer, Err(Refused::plain(1)));
                assert_eq!(refused, before);
            }
        }
    }

    /// Sends the messages in order; all must succeed and no firmware start over another checksum.
    fn send(card: &mut Card, region: &mut [u8], messages: &[&[u8]]) {
        for message in messages {
            let size = region.len();
            let replied = call(card, size, region, &KEY, message, &mut [0; 9]).unwrap();
            assert!(replied.success);
            assert!(card.mode != Mode::Application || checksum(START, region) == card.expected);
        }
    }

    /// Cuts after `before`, at this place of the next message, and sends the script afresh.
    fn recovered(fresh: Card, region: &mut [u8], messages: &[&[u8]], before: usize, place: usize) {
        let size = region.len();
        let mut card = fresh;
        send(&mut card, region, &messages[..before]);
        cut(&card, size, region, &KEY, messages[before], place).unwrap();
        restart(&mut card, size, region).unwrap();
        if card.mode == Mode::Application {
            assert_eq!(checksum(START, region), card.expected);
            call(&mut card, size, region, &KEY, &[0x32], &mut [0; 64]).unwrap();
        }
        assert_eq!(card, fresh);
        send(&mut card, region, messages);
        assert_eq!(card.mode, Mode::Application);
    }

    /// What T-07 wants shown, for one script that passes, at each of its moments.
    #[test]
    fn a_passing_script_recovers_from_every_cut() {
        let firmware = b"@1ffe\n01 02\n@10\n03 ff 04\nq";
        let mut picture = vec![0; 8_192];
        text::read(firmware, 8_192, &mut picture).unwrap();
        let sum = checksum(START, &picture);
        let mut script = vec![0; 1_000];
        let length = plan(firmware, &KEY, 0x10, 8_192, &mut script).unwrap();
        let script = &script[..length];
        let (mut region, mut known) = (vec![0; 8_192], vec![0; 1_024]);
        let checked = check(script, firmware, &KEY, sum, 8_192, &mut region, &mut known);
        assert_eq!(checked.answer, Ok(()));
        let messages = frames(script).unwrap();
        for before in 0..messages.len() {
            // Password, erase of two blocks, writes of two and three bytes, start.
            let greatest = [0, 2, 2, 3, 0][before];
            for place in 0..=greatest {
                for held in [vec![0; 8_192], vec![0x12; 8_192], picture.clone()] {
                    let mut region = held;
                    let fresh = card(Mode::Locked, sum);
                    recovered(fresh, &mut region, &messages, before, place);
                    assert_eq!(region, picture);
                }
            }
        }
    }
}
