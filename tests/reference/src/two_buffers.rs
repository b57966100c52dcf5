//! Document 01, "Scripts, planner, checker": the checker over two trial buffers, with the table of
//! document 02, T-08. T-09 of document 02 puts one region in their place and asks for the answers
//! of this checker, so it stays as what those answers are measured by.

use crate::card::Mode;
use crate::checker::is_start;
use crate::loader::Loader;
use crate::packet;
use crate::refusal::{is_region_size, require, Refused, LONGEST_SCRIPT, LONGEST_TEXT, PASSWORD};
use crate::script::HEAD;
use crate::text;

/// Pass or a refusal, and the number of packets that succeeded in both runs.
#[derive(Clone, Copy, Debug, PartialEq, Eq)]
pub struct CheckedInTwo {
    pub answer: Result<(), Refused>,
    pub packets: usize,
}

/// Runs the script over zeros and over 0xFF; the trial buffers are left as the runs leave them.
pub fn check_in_two(
    script: &[u8],
    text: &[u8],
    password: &[u8],
    expected: u16,
    size: usize,
    zeros: &mut [u8],
    ones: &mut [u8],
) -> CheckedInTwo {
    let lent = [zeros.len(), ones.len()];
    let picture = match prepare(script, text, password, size, lent) {
        Ok(picture) => picture,
        Err(refused) => {
            return CheckedInTwo {
                answer: Err(refused),
                packets: 0,
            }
        }
    };
    zeros.fill(0x00);
    ones.fill(0xFF);
    let fresh = |region| Loader {
        mode: Mode::Locked,
        expected,
        password,
        region,
    };
    let mut trial = Trial {
        over_zeros: fresh(zeros),
        over_ones: fresh(ones),
        packets: 0,
    };
    let answer = trial.run(script, &picture);
    CheckedInTwo {
        answer,
        packets: trial.packets,
    }
}

/// Refusals 1, 2, 18 and 3 to 6, which leave the trial buffers alone; then the picture.
fn prepare(
    script: &[u8],
    text: &[u8],
    password: &[u8],
    size: usize,
    lent: [usize; 2],
) -> Result<Vec<u8>, Refused> {
    require(is_region_size(size) && lent == [size; 2], 1)?;
    require(password.len() == PASSWORD, 2)?;
    require(
        text.len() <= LONGEST_TEXT && script.len() <= LONGEST_SCRIPT,
        18,
    )?;
    let segments = text::image(text, size)?;
    require(script.starts_with(&HEAD), 6)?;
    let mut picture = vec![0; size];
    text::draw(&segments, &mut picture);
    Ok(picture)
}

/// The two runs side by side. Until an erase the first buffer is all zeros, since nothing else can
/// be written over it; from the first erase on, the two buffers are the same.
struct Trial<'a> {
    over_zeros: Loader<'a>,
    over_ones: Loader<'a>,
    packets: usize,
}

impl Trial<'_> {
    /// Refusals 7 to 12, packet by packet as reached. Number 9 is unused since T-08.
    fn run(&mut self, script: &[u8], picture: &[u8]) -> Result<(), Refused> {
        let mut at = HEAD.len();
        while at < script.len() {
            if self.has_started() {
                return Err(Refused::at(11, at));
            }
            let rest = &script[at..];
            let length = packet::frame(rest).ok_or(Refused::at(7, at))?;
            self.step(&rest[..length], picture)
                .map_err(|number| Refused::at(number, at))?;
            at += length;
        }
        if self.has_started() {
            Ok(())
        } else {
            Err(Refused::at(12, script.len()))
        }
    }

    /// One packet; it is carried out only if it succeeds in both runs. Where the first run accepts
    /// a packet, so does the second. It is run all the same, since the papers promise what its
    /// buffer holds, and the picture test reads that buffer too.
    fn step(&mut self, packet: &[u8], picture: &[u8]) -> Result<(), u8> {
        if is_start(packet) && !self.both_are(picture) {
            return Err(10);
        }
        let zeros = self.over_zeros.judge(packet);
        if !zeros.is_success() {
            return Err(8);
        }
        // T-08: what is accepted over zeros is accepted over 0xFF. Before an erase the first buffer
        // takes only zeros, which can be written over anything. After it, and at a start, the
        // buffers are the same. No other packet is judged by the region's bytes, and the two
        // loaders are always in the same mode.
        let ones = self.over_ones.judge(packet);
        assert!(
            ones.is_success(),
            "T-08 rules out a packet accepted over zeros and refused over 0xFF: {packet:02X?}"
        );
        self.over_zeros.apply(zeros);
        self.over_ones.apply(ones);
        self.packets += 1;
        Ok(())
    }

    fn both_are(&self, picture: &[u8]) -> bool {
        *self.over_zeros.region == *picture && *self.over_ones.region == *picture
    }

    fn has_started(&self) -> bool {
        self.over_zeros.mode == Mode::Application
    }
}

#[cfg(test)]
mod tests {
    use super::*;
    use crate::checksum::{checksum, START};
    use crate::planner::plan;
    use crate::trials::{
        accepted, answered, checked, picture, slices, text_of_zeros_after, unlocked, unlocked_for,
        zeros_everywhere, FF, TEXT,
    };

    fn planned() -> Vec<u8> {
        let mut out = vec![0; 1_000];
        let length = plan(TEXT, &FF, 0x10, 4_096, &mut out).unwrap();
        out.truncate(length);
        out
    }

    #[test]
    fn planned_scripts_pass() {
        let (mut zeros, mut ones) = (vec![3; 4_096], vec![4; 4_096]);
        let picture = picture(TEXT);
        let sum = checksum(START, &picture);
        let script = planned();
        let passed = check_in_two(&script, TEXT, &FF, sum, 4_096, &mut zeros, &mut ones);
        assert_eq!(passed.answer, Ok(()));
        assert_eq!(passed.packets, 4);
        assert_eq!((&zeros, &ones), (&picture, &picture));
        let wrong = check_in_two(&script, TEXT, &FF, !sum, 4_096, &mut zeros, &mut ones);
        let start = script.len() - 10;
        assert_eq!(wrong.answer, Err(Refused::at(8, start)));
    }

    #[test]
    fn refusals() {
        let password = packet::password(&FF);
        let erase = packet::erase();
        let write = packet::write(0x10, &[1, 2]);
        let start = packet::start(0x10);
        let (password, erase, write, start) = (&password[..], &erase[..], &write[..], &start[..]);
        assert_eq!(checked(&[]), (12, 5, 0));
        assert_eq!(checked(&[start]), (10, 5, 0));
        assert_eq!(checked(&[erase]), (8, 5, 0));
        assert_eq!(checked(&[&[0x80, 0, 0, 0x27, 0x27]]), (8, 5, 0));
        assert_eq!(checked(&[&[7, 1, 0, 0x27, 0, 0]]), (10, 5, 0));
        assert_eq!(checked(&[password, &[0x80, 0]]), (7, 267, 1));
        assert_eq!(checked(&[password, &start[..9]]), (7, 267, 1));
        assert_eq!(checked(&[password, write]), (8, 267, 1));
        assert_eq!(checked(&[password, erase, start]), (10, 273, 2));
        assert_eq!(checked(&[password, erase, write]), (12, 285, 3));
        let passing = [password, erase, write, start];
        assert_eq!(checked(&passing), (0, 0, 4));
        assert_eq!(checked(&[&passing[..], &[&[9]]].concat()), (11, 295, 4));
        assert_eq!(checked(&[&passing[..], &[start]].concat()), (11, 295, 4));
    }

    /// Zeros may be written over anything, so a script with no erase can pass.
    #[test]
    fn zeros_need_no_erase() {
        let text = text_of_zeros_after("");
        let sum = checksum(START, &[0; 4_096]);
        let mut packets = zeros_everywhere();
        packets.push(packet::start(0));
        assert_eq!(unlocked_for(&text, sum, &slices(&packets)), (0, 18));
    }

    /// An untouched byte takes any value over 0xFF and only 0 over zeros.
    #[test]
    fn writes_over_untouched_bytes() {
        let written = |at, data: &[u8]| unlocked(&[&packet::write(at, data)]);
        assert_eq!(written(0x10, &[0]), (12, 2));
        assert_eq!(written(0x10, &[1]), (8, 1));
        assert_eq!(written(0x10, &[0xFF]), (8, 1));
        assert_eq!(written(0x10, &[0, 0, 0x80]), (8, 1));
        assert_eq!(written(0xF00, &[0; 256]), (12, 2));
        assert_eq!(written(0xF01, &[0; 256]), (8, 1));
        assert_eq!(unlocked(&slices(&zeros_everywhere())), (12, 17));
    }

    /// The zeros at 0x10 and 0x11 are known, and the bytes around them are untouched.
    #[test]
    fn writes_across_the_border_of_known_bytes() {
        let zeros = packet::write(0x10, &[0, 0]);
        let written = |at, data: &[u8]| unlocked(&[&zeros, &packet::write(at, data)]);
        assert_eq!(written(0x10, &[0, 0]), (12, 3));
        assert_eq!(written(0x10, &[1]), (8, 2));
        assert_eq!(written(0x11, &[0xFF]), (8, 2));
        assert_eq!(written(0x0F, &[0, 0]), (12, 3));
        assert_eq!(written(0x0F, &[1, 0]), (8, 2));
        assert_eq!(written(0x0F, &[0, 1]), (8, 2));
        assert_eq!(written(0x11, &[0, 0]), (12, 3));
        assert_eq!(written(0x11, &[0, 0xFF]), (8, 2));
        assert_eq!(written(0x0F, &[0, 0, 0, 0]), (12, 3));
        assert_eq!(written(0x0F, &[0xFF, 0, 0, 0xFF]), (8, 2));
    }

    /// An erase makes every byte known, whatever was written before it.
    #[test]
    fn an_erase_in_the_middle() {
        let zeros = &packet::write(0x10, &[0, 0])[..];
        let write = &packet::write(0x10, &[1, 2])[..];
        let erase = &packet::erase()[..];
        let start = &packet::start(0x10)[..];
        let erased = |packets: &[&[u8]]| unlocked(&[&[zeros, erase], packets].concat());
        assert_eq!(erased(&[write]), (12, 4));
        assert_eq!(erased(&[write, write]), (12, 5));
        assert_eq!(erased(&[write, zeros]), (12, 5));
        assert_eq!(erased(&[write, zeros, write]), (8, 5));
        assert_eq!(erased(&[write, zeros, erase, write]), (12, 7));
        assert_eq!(erased(&[&packet::write(0x0F, &[0xFF; 9])]), (12, 4));
        assert_eq!(erased(&[write, &packet::write(0x11, &[3])]), (8, 4));
        assert_eq!(erased(&[write, start]), (0, 5));
        assert_eq!(erased(&[write, zeros, start]), (10, 5));
        assert_eq!(erased(&[zeros, erase, write, start]), (0, 7));
    }

    /// A range checksum succeeds in both runs, though their data bytes differ.
    #[test]
    fn range_checksums_that_differ() {
        assert_ne!(checksum(START, &[0; 4]), checksum(START, &[0xFF; 4]));
        let summed = |at, length| unlocked(&[&packet::range_checksum(at, length)]);
        assert_eq!(summed(0x0E, 4), (12, 2));
        assert_eq!(summed(0, 4_096), (12, 2));
        assert_eq!(summed(4_096, 0), (12, 2));
        assert_eq!(summed(4_093, 4), (8, 1));
        let sum = &packet::range_checksum(0x0E, 4)[..];
        let zeros = &packet::write(0x10, &[0, 0])[..];
        assert_eq!(unlocked(&[sum, zeros, sum]), (12, 4));
    }

    /// By the checksum alone, a start could be accepted in one run only. The picture test comes
    /// first, and it is 10 even where one of the buffers is the picture.
    #[test]
    fn the_picture_test_settles_the_start() {
        let password = &packet::password(&FF)[..];
        let zeros = &packet::write(0x10, &[0, 0])[..];
        let start = &packet::start(0x10)[..];
        let (of_zeros, of_ones) = (
            checksum(START, &[0; 4_096]),
            checksum(START, &[0xFF; 4_096]),
        );
        assert_eq!(accepted(&[password, start], of_zeros), (true, false));
        assert_eq!(accepted(&[password, start], of_ones), (false, true));
        // Before any write, the picture is in neither buffer, in the first, or in the second.
        for text in [TEXT, &text_of_zeros_after(""), b"q"] {
            for sum in [of_zeros, of_ones] {
                assert_eq!(unlocked_for(text, sum, &[start]), (10, 1));
                assert_eq!(unlocked_for(text, sum, &[zeros, start]), (10, 2));
                assert_eq!(answered(&[start], text, sum), (10, 5, 0));
            }
        }
    }

    /// The bits of 01 10 21 are those of the polynomial, so this image has the checksum of zeros.
    #[test]
    fn zeros_with_the_checksum_of_the_image() {
        let text = text_of_zeros_after("01\n10\n21\n");
        let sum = checksum(START, &[0; 4_096]);
        assert_eq!(checksum(START, &picture(&text)), sum);
        let start = packet::start(0);
        assert_eq!(unlocked_for(&text, sum, &[&start]), (10, 1));
        let mut packets = zeros_everywhere();
        packets.push(start);
        assert_eq!(unlocked_for(&text, sum, &slices(&packets)), (10, 17));
        packets[0] = packet::write(0, &picture(&text)[..256]);
        packets.insert(0, packet::erase());
        assert_eq!(unlocked_for(&text, sum, &slices(&packets)), (0, 19));
    }

    /// Where both buffers are the picture, both runs judge the start alike.
    #[test]
    fn starts_over_the_picture() {
        let sum = checksum(START, &picture(TEXT));
        let erase = packet::erase();
        let write = packet::write(0x10, &[1, 2]);
        let started = |sum, start: &[u8]| unlocked_for(TEXT, sum, &[&erase, &write, start]);
        let mut damaged = packet::start(0x10);
        damaged[9] ^= 1;
        assert_eq!(started(sum, &packet::start(0x10)), (0, 4));
        assert_eq!(started(sum, &packet::start(4_095)), (0, 4));
        assert_eq!(started(sum, &packet::start(4_096)), (8, 3));
        assert_eq!(started(!sum, &packet::start(0x10)), (8, 3));
        assert_eq!(started(sum, &packet::packet(&[0x27])), (8, 3));
        assert_eq!(started(sum, &damaged), (8, 3));
        let blank = checksum(START, &[0xFF; 4_096]);
        let start = packet::start(0);
        assert_eq!(unlocked_for(b"q", blank, &[&erase, &start]), (0, 3));
    }

    /// With its buffers exchanged, the trial accepts a write in the first run only.
    #[test]
    #[should_panic(expected = "T-08 rules out")]
    fn the_assertion_is_tried() {
        let unlocked = |region| Loader {
            mode: Mode::Unlocked,
            expected: 0,
            password: &FF,
            region,
        };
        let (mut first, mut second) = ([0xFF; 4_096], [0x00; 4_096]);
        let mut trial = Trial {
            over_zeros: unlocked(&mut first),
            over_ones: unlocked(&mut second),
            packets: 0,
        };
        let _ = trial.step(&packet::write(0x10, &[1]), &picture(TEXT));
    }
}
