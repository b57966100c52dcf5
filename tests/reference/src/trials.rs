//! Document 02, T-09: how the tests run a script. It goes through all three forms of the checker,
//! which must agree with each other and with two loaders that run apart.

mod many;

use crate::card::{call, Card, Mode};
use crate::checker::{check, is_start, Checked};
use crate::checksum::{checksum, START};
use crate::one_region::check_directly;
use crate::packet;
use crate::record::SensorRecord;
use crate::refusal::Refused;
use crate::script::HEAD;
use crate::text;
use crate::two_buffers::check_in_two;

pub const FF: [u8; 256] = [0xFF; 256];
pub const TEXT: &[u8] = b"@10\n01 02\nq";

/// Either form of the checker over one region.
pub type Form = fn(&[u8], &[u8], &[u8], u16, usize, &mut [u8], &mut [u8]) -> Checked;

pub const FORMS: [Form; 2] = [check, check_directly];

/// The refusals that are judged before any packet is run.
const BEFORE_THE_RUN: [u8; 7] = [1, 2, 18, 3, 4, 5, 6];

/// What the forms of the checker answer and leave, once they are seen to agree.
pub struct Agreed {
    pub checked: Checked,
    pub zeros: Vec<u8>,
    pub ones: Vec<u8>,
    pub region: Vec<u8>,
    pub known: Vec<u8>,
}

/// Runs the three forms, each over memory of its own that holds something else before.
pub fn agreed(script: &[u8], text: &[u8], password: &[u8], expected: u16, size: usize) -> Agreed {
    let (mut zeros, mut ones) = (vec![3; size], vec![4; size]);
    let in_two = check_in_two(
        script, text, password, expected, size, &mut zeros, &mut ones,
    );
    let [derived, direct] = FORMS.map(|form| {
        let (mut region, mut known) = (vec![5; size], vec![6; size / 8]);
        let checked = form(
            script,
            text,
            password,
            expected,
            size,
            &mut region,
            &mut known,
        );
        (checked, region, known)
    });
    assert_eq!(derived, direct);
    let (checked, region, known) = derived;
    assert_eq!(
        (checked.answer, checked.packets),
        (in_two.answer, in_two.packets)
    );
    let agreed = Agreed {
        checked,
        zeros,
        ones,
        region,
        known,
    };
    agreed.assert_lent_memory();
    agreed
}

impl Agreed {
    /// The number, the place and the count of packets; 0 at 0 is a pass.
    pub fn answer(&self) -> (u8, usize, usize) {
        let refused = self.checked.answer.err().unwrap_or(Refused::plain(0));
        (refused.number, refused.place, self.checked.packets)
    }

    fn assert_lent_memory(&self) {
        match self.checked.answer {
            Err(refused) if BEFORE_THE_RUN.contains(&refused.number) => self.assert_untouched(),
            Err(_) => self.assert_follows_the_buffers(),
            Ok(()) => {
                self.assert_follows_the_buffers();
                assert!(self.known.iter().all(|&bits| bits == 0xFF));
                assert_eq!(self.checked.unknown, 0);
            }
        }
    }

    fn assert_untouched(&self) {
        let lent = [(&self.zeros, 3), (&self.ones, 4)];
        for (bytes, held) in lent
            .into_iter()
            .chain([(&self.region, 5), (&self.known, 6)])
        {
            assert!(bytes.iter().all(|&byte| byte == held));
        }
        assert_eq!((self.checked.packets, self.checked.unknown), (0, 0));
    }

    /// The region is the buffer of zeros, a byte is known where the buffers agree, and an unknown
    /// one stands as 0.
    fn assert_follows_the_buffers(&self) {
        assert_eq!(self.region, self.zeros);
        let mut differing = 0;
        for (place, (zero, one)) in self.zeros.iter().zip(&self.ones).enumerate() {
            let is_known = self.known[place / 8] & (1 << (place % 8)) != 0;
            assert_eq!(is_known, zero == one, "{place}");
            assert!(is_known || self.region[place] == 0x00, "{place}");
            differing += usize::from(zero != one);
        }
        assert_eq!(self.checked.unknown, differing);
    }
}

pub fn picture(text: &[u8]) -> Vec<u8> {
    let mut picture = vec![0; 4_096];
    text::read(text, 4_096, &mut picture).unwrap();
    picture
}

/// A text that gives every byte of the region: these first, and then zeros.
pub fn text_of_zeros_after(first: &str) -> Vec<u8> {
    let zeros = 4_096 - first.split_whitespace().count();
    format!("@0\n{first}{}q", "00\n".repeat(zeros)).into_bytes()
}

/// Writes of zeros over the whole region.
pub fn zeros_everywhere() -> Vec<Vec<u8>> {
    let blocks = (0..4_096).step_by(256);
    blocks.map(|at| packet::write(at, &[0; 256])).collect()
}

pub fn slices(packets: &[Vec<u8>]) -> Vec<&[u8]> {
    packets.iter().map(Vec::as_slice).collect()
}

/// The number, place and count for these packets after the head.
pub fn checked(packets: &[&[u8]]) -> (u8, usize, usize) {
    answered(packets, TEXT, checksum(START, &picture(TEXT)))
}

/// The number and the count for the password and these packets.
pub fn unlocked(packets: &[&[u8]]) -> (u8, usize) {
    unlocked_for(TEXT, checksum(START, &picture(TEXT)), packets)
}

/// The same for another text and expected checksum.
pub fn unlocked_for(text: &[u8], expected: u16, packets: &[&[u8]]) -> (u8, usize) {
    let (number, _, count) = left_for(text, expected, packets).answer();
    (number, count)
}

/// All that the password and these packets leave.
pub fn left_for(text: &[u8], expected: u16, packets: &[&[u8]]) -> Agreed {
    let password = packet::password(&FF);
    ran(&[&[&password[..]], packets].concat(), text, expected)
}

/// The checker's number, place and count.
pub fn answered(packets: &[&[u8]], text: &[u8], expected: u16) -> (u8, usize, usize) {
    ran(packets, text, expected).answer()
}

/// The answer and the buffers must be those of two loaders that run apart.
pub fn ran(packets: &[&[u8]], text: &[u8], expected: u16) -> Agreed {
    let script = [&HEAD, packets.concat().as_slice()].concat();
    let agreed = agreed(&script, text, &FF, expected, 4_096);
    assert_eq!(agreed.answer(), apart(packets, &picture(text), expected));
    for (fill, left) in [(0x00, &agreed.zeros), (0xFF, &agreed.ones)] {
        let (succeeded, region) = sent(fill, expected, &packets[..agreed.checked.packets]);
        assert!(!succeeded.contains(&false));
        assert_eq!(region, *left);
    }
    agreed
}

/// The number, place and count that the table without 9 gives, from loaders that run apart.
fn apart(packets: &[&[u8]], picture: &[u8], expected: u16) -> (u8, usize, usize) {
    let start = packets.iter().position(|packet| is_start(packet));
    let start = start.unwrap_or(packets.len());
    let (over_zeros, zeros) = sent(0x00, expected, &packets[..start]);
    let (over_ones, ones) = sent(0xFF, expected, &packets[..start]);
    // The claim of T-08: no success over zeros meets a refusal over 0xFF, even if both loaders go
    // on after a refused packet.
    let mut pairs = over_zeros.iter().zip(&over_ones);
    assert!(pairs.all(|(zeros, ones)| *ones || !zeros));

    let at = |count: usize| HEAD.len() + packets[..count].concat().len();
    let refused = |number, count| (number, at(count), count);
    let is_cut = |count: usize| packet::frame(packets[count]).is_none();
    if let Some(count) = over_zeros.iter().position(|&succeeded| !succeeded) {
        return refused(if is_cut(count) { 7 } else { 8 }, count);
    }
    if start == packets.len() {
        return refused(12, start);
    }
    if is_cut(start) {
        return refused(7, start);
    }
    if zeros != picture || ones != picture {
        return refused(10, start);
    }
    match sent(0x00, expected, &packets[..=start]).0.last() {
        Some(false) => refused(8, start),
        _ if start + 1 < packets.len() => refused(11, start + 1),
        _ => (0, 0, packets.len()),
    }
}

/// One loader that gets each packet, refused ones too, over a region filled with this byte: which
/// of the packets succeed, and the region after them.
fn sent(fill: u8, expected: u16, packets: &[&[u8]]) -> (Vec<bool>, Vec<u8>) {
    let mut region = vec![fill; 4_096];
    let mut card = Card {
        mode: Mode::Locked,
        expected,
        version: [0; 3],
        record: SensorRecord::default(),
    };
    let send = |packet: &&[u8]| {
        call(&mut card, 4_096, &mut region, &FF, packet, &mut [0; 64])
            .is_ok_and(|replied| replied.success)
    };
    let succeeded = packets.iter().map(send).collect();
    (succeeded, region)
}

/// Whether the last packet succeeds over zeros, and whether it does over 0xFF.
pub fn accepted(packets: &[&[u8]], expected: u16) -> (bool, bool) {
    let last = |fill| sent(fill, expected, packets).0.ends_with(&[true]);
    (last(0x00), last(0xFF))
}
