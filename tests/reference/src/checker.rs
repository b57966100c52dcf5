//! Document 02, T-09: the checker over one region and its known bits. Its answers are taken from
//! the checker over two buffers, since the paper says what they are by those buffers.

use crate::packet;
use crate::refusal::{is_region_size, require, Refused};
use crate::two_buffers::check_in_two;

/// Pass or a refusal, the number of packets that succeeded, and the number of bytes that are still
/// unknown at the end of the run.
#[derive(Clone, Copy, Debug, PartialEq, Eq)]
pub struct Checked {
    pub answer: Result<(), Refused>,
    pub packets: usize,
    pub unknown: usize,
}

impl Checked {
    /// A refusal that is judged before any packet is run: nothing is counted.
    pub const fn before_the_run(refused: Refused) -> Checked {
        Checked {
            answer: Err(refused),
            packets: 0,
            unknown: 0,
        }
    }
}

/// Checks the script. The region is left as the buffer of zeros is, and a byte is known where the
/// two buffers agree: what the card held before no longer shows there.
pub fn check(
    script: &[u8],
    text: &[u8],
    password: &[u8],
    expected: u16,
    size: usize,
    region: &mut [u8],
    known: &mut [u8],
) -> Checked {
    if let Err(refused) = require_lent(size, region, known) {
        return Checked::before_the_run(refused);
    }
    let (mut zeros, mut ones) = (vec![0; size], vec![0; size]);
    let in_two = check_in_two(
        script, text, password, expected, size, &mut zeros, &mut ones,
    );
    if let Err(refused) = in_two.answer {
        if !is_judged_in_the_run(refused.number) {
            return Checked::before_the_run(refused);
        }
    }
    region.copy_from_slice(&zeros);
    Checked {
        answer: in_two.answer,
        packets: in_two.packets,
        unknown: compare(&zeros, &ones, known),
    }
}

/// Number 1 covers both sizes: N bytes and N/8 bytes.
pub fn require_lent(size: usize, region: &[u8], known: &[u8]) -> Result<(), Refused> {
    let lengths_are_right = region.len() == size && known.len() == size / 8;
    require(is_region_size(size) && lengths_are_right, 1)
}

/// The refusals for which the papers fix what the lent memory holds. For all others it is untouched
/// and no byte counts as unknown.
fn is_judged_in_the_run(number: u8) -> bool {
    (7..=12).contains(&number)
}

/// Sets the bit of each place where the buffers agree, low bit first, and clears the others.
/// Answers the number of places where they differ.
fn compare(zeros: &[u8], ones: &[u8], known: &mut [u8]) -> usize {
    known.fill(0);
    let mut unknown = 0;
    for (place, (zero, one)) in zeros.iter().zip(ones).enumerate() {
        if zero == one {
            known[place / 8] |= 1 << (place % 8);
        } else {
            unknown += 1;
        }
    }
    unknown
}

/// Whether a frame's core begins with 0x27.
pub fn is_start(frame: &[u8]) -> bool {
    packet::core_length(frame) > Some(0) && frame.get(3) == Some(&packet::START)
}

#[cfg(test)]
mod tests {
    use super::*;
    use crate::checksum::{checksum, START};
    use crate::planner::plan;
    use crate::script::HEAD;
    use crate::trials::{
        agreed, left_for, picture, ran, slices, text_of_zeros_after, zeros_everywhere, Agreed, FF,
        FORMS, TEXT,
    };

    /// What the password and these packets leave, for the text of the tests.
    fn left(packets: &[&[u8]]) -> Agreed {
        left_for(TEXT, checksum(START, &picture(TEXT)), packets)
    }

    /// The bytes of the known bits that aren't 0, each with its index.
    fn bits(left: &Agreed) -> Vec<(usize, u8)> {
        let bits = left.known.iter().copied().enumerate();
        bits.filter(|&(_, bits)| bits != 0).collect()
    }

    fn all_known(left: &Agreed) -> bool {
        left.checked.unknown == 0 && left.known.iter().all(|&bits| bits == 0xFF)
    }

    /// The refusal of both forms for lent memory of these lengths, which it must leave alone. The
    /// password is wrong too, so that 2 is the answer if 1 isn't.
    fn refused(size: usize, region: usize, known: usize) -> u8 {
        let [derived, direct] = FORMS.map(|form| {
            let (mut region, mut known) = (vec![5; region], vec![6; known]);
            let checked = form(&HEAD, TEXT, &FF[1..], 0, size, &mut region, &mut known);
            assert!(region.iter().all(|&byte| byte == 5));
            assert!(known.iter().all(|&byte| byte == 6));
            checked
        });
        assert_eq!(derived, direct);
        let refused = derived.answer.unwrap_err();
        assert_eq!(
            derived,
            Checked::before_the_run(Refused::plain(refused.number))
        );
        refused.number
    }

    #[test]
    fn number_1_covers_both_sizes() {
        for size in [4_096, 8_192, 258_048, 262_144] {
            let bits = size / 8;
            assert_eq!(refused(size, size, bits), 2);
            for region in [0, bits, size - 1, size + 1, size - 4_096, size + 4_096] {
                assert_eq!(refused(size, region, bits), 1);
                assert_eq!(refused(size, region, region / 8), 1);
            }
            for known in [0, 1, bits - 1, bits + 1, bits - 512, bits + 512, size] {
                assert_eq!(refused(size, size, known), 1);
            }
        }
    }

    #[test]
    fn number_1_for_a_bad_size() {
        for size in [0, 1, 8, 512, 4_088, 4_095, 4_097, 6_144, 262_152, 266_240] {
            assert_eq!(refused(size, size, size / 8), 1);
            assert_eq!(refused(size, 4_096, 512), 1);
        }
        assert_eq!(refused(usize::MAX, 4_096, 512), 1);
    }

    /// The helper sees to it that the lent memory is untouched and that nothing is counted.
    #[test]
    fn refusals_before_the_run() {
        let long_text = vec![b'q'; 1_048_577];
        let mut long_script = HEAD.to_vec();
        long_script.resize(2_097_153, 0);
        let refused = |script: &[u8], text: &[u8], password: &[u8]| {
            let (number, place, _) = agreed(script, text, password, 0, 4_096).answer();
            (number, place)
        };
        assert_eq!(refused(b"", b"", &FF[1..]), (2, 0));
        assert_eq!(refused(b"", b"", &[0xFF; 257]), (2, 0));
        assert_eq!(refused(b"", &long_text, &FF), (18, 0));
        assert_eq!(refused(&long_script, b"", &FF), (18, 0));
        assert_eq!(refused(b"", &long_text[1..], &FF), (3, 1));
        assert_eq!(refused(b"", b"@2", &FF), (3, 2));
        assert_eq!(refused(b"", b"@0\n00\n@0\n00\n@1000\n00\nq", &FF), (4, 18));
        assert_eq!(refused(b"", b"@10\n01 02\n@11\n03\nq", &FF), (5, 14));
        for script in [&b""[..], b"BSX\x01", b"BSX\x00\x01", b"bsx\x01\x00"] {
            assert_eq!(refused(script, TEXT, &FF), (6, 0));
        }
        // The longest script of all is run: its first frame is no packet.
        assert_eq!(refused(&long_script[..2_097_152], TEXT, &FF), (8, 5));
    }

    /// The lent memory is filled before the first packet is looked for.
    #[test]
    fn a_script_without_a_packet() {
        for size in [4_096, 12_288, 262_144] {
            let left = agreed(&HEAD, TEXT, &FF, 0, size);
            assert_eq!(left.answer(), (12, 5, 0));
            assert_eq!(left.checked.unknown, size);
            assert!(left.region.iter().all(|&byte| byte == 0x00));
            assert!(left.known.iter().all(|&bits| bits == 0x00));
        }
    }

    #[test]
    fn a_script_that_ends_inside_a_packet() {
        let write = packet::write(0x10, &[0, 0]);
        for length in 1..write.len() {
            let left = left(&[&write, &write[..length]]);
            assert_eq!(left.answer(), (7, 267 + 12, 2));
            assert_eq!(left.checked.unknown, 4_094);
            assert_eq!(bits(&left), [(2, 0b0000_0011)]);
        }
    }

    /// The region's byte is 0 before and after, and yet the write tells something.
    #[test]
    fn a_zero_over_an_unknown_byte_makes_it_known() {
        for address in 0..16 {
            let left = left(&[&packet::write(address, &[0])]);
            assert_eq!(left.answer(), (12, 278, 2));
            assert_eq!(left.checked.unknown, 4_095);
            assert_eq!(bits(&left), [(address as usize / 8, 1 << (address % 8))]);
        }
        let again = packet::write(4_095, &[0]);
        let left = left(&[&again, &again]);
        assert_eq!((left.answer().0, left.checked.unknown), (12, 4_095));
        assert_eq!(bits(&left), [(511, 0b1000_0000)]);
    }

    #[test]
    fn the_low_bit_is_the_first_byte() {
        let left = left(&[&packet::write(9, &[0, 0])]);
        assert_eq!(left.known[1], 0b0000_0110);
        assert_eq!(bits(&left), [(1, 0b0000_0110)]);
        assert_eq!(left.checked.unknown, 4_094);
    }

    #[test]
    fn writes_that_cross_a_byte_of_the_bits() {
        let written = |address, length| {
            let left = left(&[&packet::write(address, &vec![0; length])]);
            assert_eq!(left.checked.unknown, 4_096 - length);
            bits(&left)
        };
        assert_eq!(written(7, 2), [(0, 0b1000_0000), (1, 0b0000_0001)]);
        assert_eq!(written(5, 8), [(0, 0b1110_0000), (1, 0b0001_1111)]);
        assert_eq!(written(8, 8), [(1, 0xFF)]);
        assert_eq!(written(8, 9), [(1, 0xFF), (2, 0b0000_0001)]);
        assert_eq!(written(7, 9), [(0, 0b1000_0000), (1, 0xFF)]);
        assert_eq!(
            written(6, 12),
            [(0, 0b1100_0000), (1, 0xFF), (2, 0b0000_0011)]
        );
        assert_eq!(written(4_086, 10), [(510, 0b1100_0000), (511, 0xFF)]);
        let block = written(0x103, 256);
        assert_eq!(block.len(), 33);
        assert_eq!(
            (block[0], block[32]),
            ((32, 0b1111_1000), (64, 0b0000_0111))
        );
    }

    #[test]
    fn bytes_written_twice_count_once() {
        let writes =
            [(9, 2), (10, 3), (9, 2)].map(|(at, length)| packet::write(at, &vec![0; length]));
        let left = left(&slices(&writes));
        assert_eq!((left.answer().0, left.checked.unknown), (12, 4_092));
        assert_eq!(bits(&left), [(1, 0b0001_1110)]);
    }

    /// Neither the bytes before the first that can't be written, nor those of a packet that the
    /// loader refuses for another cause.
    #[test]
    fn a_refused_packet_marks_nothing() {
        let zeros = packet::write(0x10, &[0, 0]);
        let mut damaged = packet::write(0x20, &[0, 0]);
        damaged[8] ^= 1;
        let refused = [
            packet::write(0x20, &[0, 0, 1]),
            packet::write(0x20, &[0xFF]),
            packet::write(0x0F, &[0, 1]),
            packet::write(4_095, &[0, 0]),
            packet::write(4_096, &[0]),
            packet::write(u32::MAX, &[0]),
            packet::packet(&[0x15, 0]),
            packet::password(&[0; 256]),
            damaged,
        ];
        for refused in refused {
            let left = left(&[&zeros, &refused]);
            assert_eq!(left.answer(), (8, 279, 2), "{refused:02X?}");
            assert_eq!(left.checked.unknown, 4_094);
            assert_eq!(bits(&left), [(2, 0b0000_0011)]);
        }
    }

    /// A loader that is still locked refuses them all.
    #[test]
    fn nothing_is_known_in_a_locked_loader() {
        let write = packet::write(0x10, &[0]);
        for refused in [write, packet::erase(), packet::range_checksum(0, 4)] {
            let left = ran(&[&refused], TEXT, 0);
            assert_eq!(left.answer(), (8, 5, 0));
            assert_eq!((left.checked.unknown, bits(&left)), (4_096, vec![]));
        }
    }

    /// A checksum answered from an unknown range doesn't make the range known.
    #[test]
    fn a_range_checksum_marks_nothing() {
        let left = left(&[&packet::range_checksum(0, 4_096)]);
        assert_eq!((left.answer().0, left.checked.unknown), (12, 4_096));
        assert_eq!(bits(&left), []);
    }

    #[test]
    fn an_erase_makes_every_byte_known() {
        let zeros = packet::write(0x10, &[0, 0]);
        let erase = packet::erase();
        let lists: [&[&[u8]]; 3] = [&[&erase], &[&zeros, &erase], &[&erase, &erase]];
        for packets in lists {
            let left = left(packets);
            assert_eq!(left.answer().0, 12);
            assert!(all_known(&left));
            assert!(left.region.iter().all(|&byte| byte == 0xFF));
        }
        // A write refused after it takes nothing back.
        let left = left(&[&erase, &zeros, &packet::write(0x11, &[1])]);
        assert_eq!(left.answer(), (8, 285, 3));
        assert!(all_known(&left));
        assert_eq!(left.region[0x0F..0x13], [0xFF, 0, 0, 0xFF]);
    }

    /// The region is the picture throughout, so the unknown bytes alone make it 10.
    #[test]
    fn number_10_with_some_bytes_unknown() {
        let text = text_of_zeros_after("");
        let sum = checksum(START, &[0; 4_096]);
        let start = packet::start(0);
        let whole = zeros_everywhere();
        for missing in 0..whole.len() {
            let mut packets = whole.clone();
            packets[missing] = start.clone();
            let left = left_for(&text, sum, &slices(&packets[..=missing]));
            assert_eq!(left.answer(), (10, 267 + 266 * missing, 1 + missing));
            assert_eq!(left.checked.unknown, 4_096 - 256 * missing);
            assert_eq!(left.region, picture(&text));
        }
        let mut packets = whole;
        packets[15] = packet::write(0xF00, &[0; 255]);
        packets.push(start);
        let left = left_for(&text, sum, &slices(&packets));
        assert_eq!((left.answer().0, left.answer().2), (10, 17));
        assert_eq!((left.checked.unknown, left.known[511]), (1, 0b0111_1111));
    }

    /// The loader would refuse each of these starts, and the picture test comes before it.
    #[test]
    fn number_10_comes_before_8() {
        let sum = checksum(START, &picture(TEXT));
        let (zeros, erase) = (packet::write(0x10, &[0, 0]), packet::erase());
        let mut damaged = packet::start(0x10);
        damaged[9] ^= 1;
        let starts = [
            packet::start(0x10),
            packet::start(4_096),
            packet::packet(&[0x27]),
            vec![0x81, 1, 0, 0x27, 0, 0],
            damaged,
        ];
        for start in starts {
            let locked = ran(&[&start], TEXT, !sum);
            assert_eq!(locked.answer(), (10, 5, 0));
            assert_eq!(locked.checked.unknown, 4_096);
            let left = left_for(TEXT, !sum, &[&zeros, &start]);
            assert_eq!(left.answer(), (10, 279, 2));
            assert_eq!(left.checked.unknown, 4_094);
            let left = left_for(TEXT, !sum, &[&erase, &start]);
            assert_eq!(left.answer(), (10, 273, 2));
            assert!(all_known(&left));
        }
    }

    #[test]
    fn number_11_after_a_start() {
        let write = packet::write(0x10, &[1, 2]);
        let (erase, start) = (packet::erase(), packet::start(0x10));
        for after in [&[9][..], &write, &start, &erase] {
            let left = left(&[&erase, &write, &start, after]);
            assert_eq!(left.answer(), (11, 295, 4));
            assert!(all_known(&left));
            assert_eq!(left.region, picture(TEXT));
        }
    }

    #[test]
    fn a_pass_without_an_erase() {
        let text = text_of_zeros_after("");
        let mut packets = zeros_everywhere();
        packets.push(packet::start(0));
        let left = left_for(&text, checksum(START, &[0; 4_096]), &slices(&packets));
        assert_eq!(left.answer(), (0, 0, 18));
        assert!(all_known(&left));
        assert_eq!(left.region, vec![0; 4_096]);
    }

    /// The longest region that there is, and a text that gives every byte of it.
    #[test]
    fn a_planned_script_of_the_greatest_size_passes() {
        let text = format!("@0\n{}q", "5A\n".repeat(262_144)).into_bytes();
        let sum = checksum(START, &[0x5A; 262_144]);
        let mut script = vec![0; 300_000];
        let length = plan(&text, &FF, 0, 262_144, &mut script).unwrap();
        let passed = agreed(&script[..length], &text, &FF, sum, 262_144);
        assert_eq!(passed.answer(), (0, 0, 1_027));
        assert_eq!(passed.region, vec![0x5A; 262_144]);
        let start = length - 10;
        let refused = agreed(&script[..length], &text, &FF, !sum, 262_144);
        assert_eq!(refused.answer(), (8, start, 1_026));
        assert!(all_known(&refused));
    }
}
