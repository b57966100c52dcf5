//! Document 01, "Worked numbers", and document 02, T-07: the trace program and the program of cuts,
//! which run a script on a card of their own and print what comes of it.

use crate::card::{call, Card, Mode};
use crate::checksum::{checksum, START};
use crate::mains::{cut, restart, work};
use crate::packet;
use crate::record::SensorRecord;
use crate::script::HEAD;

/// The longest input that the programs run.
pub const LONGEST_INPUT: usize = 16_384;

const SIZE: usize = 4_096;
const PASSWORD: [u8; 256] = [0xFF; 256];

/// The room that a loader mode asks for its reply.
const REPLY: usize = 9;

/// What the trace program prints for this input: a line for each packet with its answer.
pub fn trace(script: &[u8]) -> Vec<u8> {
    printed(script, "at cmd ack msg", Bench::trace_packet)
}

/// What the program of cuts prints for this input: a line for each place at which power can be
/// lost, with what a restart then makes of the card.
pub fn cuts(script: &[u8]) -> Vec<u8> {
    printed(script, "at cut mode sum", Bench::cut_packet)
}

/// Carries out the packet at this offset and gives the lines that are printed for it.
type Step = fn(&mut Bench, usize, &[u8]) -> String;

/// The header line always stands, and an end line says how far the run came.
fn printed(script: &[u8], header: &str, step: Step) -> Vec<u8> {
    let mut lines = format!("{header}\n");
    let (offset, word) = Bench::fresh().run(script, step, &mut lines);
    lines.push_str(&format!("end {offset} {word}\n"));
    lines.into_bytes()
}

/// The card that both programs run, with its flash region.
struct Bench {
    card: Card,
    region: Vec<u8>,
}

impl Bench {
    /// A locked loader over zeros that expects the checksum 0. Nothing printed depends on the
    /// version and the record.
    fn fresh() -> Bench {
        Bench {
            card: Card {
                mode: Mode::Locked,
                expected: 0,
                version: [0; 3],
                record: SensorRecord::default(),
            },
            region: vec![0; SIZE],
        }
    }

    /// Takes packet after packet until the firmware starts, and gives the end line's offset and
    /// word. A script that ends inside a packet is run up to that packet.
    fn run(&mut self, script: &[u8], step: Step, lines: &mut String) -> (usize, &'static str) {
        if script.len() > LONGEST_INPUT {
            return (0, "long");
        }
        if !script.starts_with(&HEAD) {
            return (0, "mark");
        }
        let mut at = HEAD.len();
        while at < script.len() && self.card.mode != Mode::Application {
            let rest = &script[at..];
            let Some(length) = packet::frame(rest) else {
                return (at, "cut");
            };
            lines.push_str(&step(self, at, &rest[..length]));
            at += length;
        }
        (at, name(self.card.mode))
    }

    /// Sends the packet whole and gives the bytes answered.
    fn send(&mut self, packet: &[u8]) -> Vec<u8> {
        let mut reply = [0; REPLY];
        let (card, region) = (&mut self.card, &mut self.region);
        let replied = call(card, SIZE, region, &PASSWORD, packet, &mut reply)
            .expect("a loader whose lent memory is sound answers every message");
        reply[..replied.count].to_vec()
    }

    fn trace_packet(&mut self, at: usize, packet: &[u8]) -> String {
        let reply = self.send(packet);
        format!("{at} {}\n", answer(packet, &reply))
    }

    fn cut_packet(&mut self, at: usize, packet: &[u8]) -> String {
        let greatest = work(&self.card, &self.region, &PASSWORD, packet);
        let lines = (0..=greatest)
            .map(|place| format!("{at} {place} {}\n", self.after_cut(packet, place)))
            .collect();
        self.send(packet);
        lines
    }

    /// The mode and the checksum after a cut and a restart. Both happen to a copy, so that the
    /// run itself goes on uncut.
    fn after_cut(&self, packet: &[u8], place: usize) -> String {
        let (mut card, mut region) = (self.card, self.region.clone());
        cut(&card, SIZE, &mut region, &PASSWORD, packet, place)
            .expect("the place lies within the work of the packet");
        restart(&mut card, SIZE, &region).expect("the region has its size");
        format!("{} {:04x}", name(card.mode), checksum(START, &region))
    }
}

/// A trace line's command, ack and message. A packet that isn't acknowledged has no command, and
/// a start that succeeds is answered nothing.
fn answer(packet: &[u8], reply: &[u8]) -> String {
    let command = packet[3];
    match *reply {
        [] => format!("{command:02x} - -"),
        [0x00, _, _, _, packet::DATA, ..] => format!("{command:02x} 00 data"),
        [0x00, _, _, _, _, message, ..] => format!("{command:02x} 00 {message:02x}"),
        [ack, ..] => format!("- {ack:02x} -"),
    }
}

fn name(mode: Mode) -> &'static str {
    match mode {
        Mode::Application => "application",
        Mode::Locked => "locked",
        Mode::Unlocked => "unlocked",
    }
}

#[cfg(test)]
mod tests {
    use super::*;

    /// The input that document 01 prints with its trace.
    const PRINTED: [u8; 11] = [
        0x42, 0x53, 0x58, 0x01, 0x00, 0x80, 0x01, 0x00, 0x15, 0x64, 0xA3,
    ];

    fn script(packets: &[Vec<u8>]) -> Vec<u8> {
        [&HEAD, packets.concat().as_slice()].concat()
    }

    fn assert_trace(script: &[u8], lines: &[&str]) {
        let printed = String::from_utf8(trace(script)).unwrap();
        assert_eq!(printed, format!("at cmd ack msg\n{}\n", lines.join("\n")));
    }

    fn assert_cuts(script: &[u8], lines: &[&str]) {
        let printed = String::from_utf8(cuts(script)).unwrap();
        assert_eq!(printed, format!("at cut mode sum\n{}\n", lines.join("\n")));
    }

    /// The checksum of 4,094 blank bytes is 0x165E, and a checksum after its own bytes, high byte
    /// first, is 0: these packets make a region that the programs' card starts.
    fn starting() -> Vec<Vec<u8>> {
        vec![
            packet::password(&PASSWORD),
            packet::erase(),
            packet::write(4_094, &[0x16, 0x5E]),
            packet::start(0),
        ]
    }

    #[test]
    fn printed_trace() {
        let expected = b"at cmd ack msg\n5 15 00 04\nend 11 locked\n";
        assert_eq!(trace(&PRINTED), expected);
    }

    #[test]
    fn inputs_that_are_not_run() {
        let inputs: [&[u8]; 4] = [b"", b"BSX\x01", b"BSX\x00\x01", b"bsx\x01\x00"];
        for input in inputs {
            assert_trace(input, &["end 0 mark"]);
            assert_cuts(input, &["end 0 mark"]);
        }
        let mut long = PRINTED.to_vec();
        long.resize(16_385, 0);
        assert_trace(&long, &["end 0 long"]);
        assert_cuts(&long, &["end 0 long"]);
        long[0] = 0;
        assert_trace(&long, &["end 0 long"]);
        assert_cuts(&long, &["end 0 long"]);
    }

    #[test]
    fn heads_alone_and_the_longest_input() {
        assert_trace(&HEAD, &["end 5 locked"]);
        assert_cuts(&HEAD, &["end 5 locked"]);
        // One frame fills the input: its core has 16,384 - 5 - 5 = 0x3FF6 bytes.
        let mut longest = [&HEAD[..], &[0x80, 0xF6, 0x3F]].concat();
        longest.resize(16_384, 0);
        assert_trace(&longest, &["5 - 54 -", "end 16384 locked"]);
        assert_cuts(&longest, &["5 0 locked efdf", "end 16384 locked"]);
    }

    /// The packets before a cut one are run and printed.
    #[test]
    fn scripts_that_end_inside_a_packet() {
        let whole = script(&[packet::password(&PASSWORD), packet::erase()]);
        let password = "5 21 00 00";
        let before = "5 0 locked efdf";
        for length in 268..273 {
            assert_trace(&whole[..length], &[password, "end 267 cut"]);
            assert_cuts(&whole[..length], &[before, "end 267 cut"]);
        }
        assert_trace(&whole[..267], &[password, "end 267 unlocked"]);
        assert_cuts(&whole[..267], &[before, "end 267 unlocked"]);
        for length in 6..267 {
            assert_trace(&whole[..length], &["end 5 cut"]);
            assert_cuts(&whole[..length], &["end 5 cut"]);
        }
    }

    #[test]
    fn every_kind_of_trace_line() {
        let packets = [
            vec![0x15, 1, 0, 0x15, 0x64, 0xA3],
            vec![0x80, 0, 0, 0xFF, 0xFF],
            vec![0x80, 1, 0, 0x15, 0xA3, 0x64],
            packet::packet(&[0xAB]),
            packet::password(&[0; 256]),
            packet::password(&PASSWORD),
            packet::range_checksum(4_096, 0),
            packet::range_checksum(4_096, 1),
            packet::write(0, &[1]),
            packet::write(0, &[0]),
            packet::start(0),
        ];
        assert_trace(
            &script(&packets),
            &[
                "5 - 51 -",
                "11 - 53 -",
                "16 - 52 -",
                "22 ab 00 07",
                "28 21 00 05",
                "290 21 00 00",
                "552 26 00 data",
                "564 26 00 01",
                "576 20 00 01",
                "587 20 00 00",
                "598 27 00 01",
                "end 608 unlocked",
            ],
        );
    }

    /// A start that succeeds answers nothing, and what comes after it isn't looked at.
    #[test]
    fn trace_stops_at_the_start() {
        let lines = [
            "5 21 00 00",
            "267 15 00 00",
            "273 20 00 00",
            "285 27 - -",
            "end 295 application",
        ];
        let mut packets = starting();
        assert_trace(&script(&packets), &lines);
        packets.push(packet::erase());
        assert_trace(&script(&packets), &lines);
        packets[4].truncate(2);
        assert_trace(&script(&packets), &lines);
    }

    /// The erase is refused, so it can only be cut before it: 0xEFDF is the zeros' checksum.
    #[test]
    fn cuts_of_the_printed_input() {
        let expected = b"at cut mode sum\n5 0 locked efdf\nend 11 locked\n";
        assert_eq!(cuts(&PRINTED), expected);
    }

    /// The last byte of the write makes the checksum 0, so a cut after it comes up in application.
    #[test]
    fn cuts_at_each_place() {
        let lines = [
            "5 0 locked efdf",
            "267 0 locked efdf",
            "267 1 locked 0fe1",
            "273 0 locked 0fe1",
            "273 1 locked a5cb",
            "273 2 application 0000",
            "285 0 application 0000",
            "end 295 application",
        ];
        let mut packets = starting();
        assert_cuts(&script(&packets), &lines);
        packets.push(vec![9]);
        assert_cuts(&script(&packets), &lines);
    }

    /// Each packet is run whole after its lines, a refused one changing nothing.
    #[test]
    fn cuts_go_on_from_the_whole_packet() {
        let packets = [
            packet::password(&PASSWORD),
            packet::erase(),
            packet::write(0, &[0x12, 0x34]),
            packet::write(0, &[0x12, 0x35]),
            packet::range_checksum(0, 4_096),
            packet::start(0),
            packet::password(&[0; 256]),
        ];
        assert_cuts(
            &script(&packets),
            &[
                "5 0 locked efdf",
                "267 0 locked efdf",
                "267 1 locked 0fe1",
                "273 0 locked 0fe1",
                "273 1 locked c5c0",
                "273 2 locked c456",
                "285 0 locked c456",
                "297 0 locked c456",
                "309 0 locked c456",
                "319 0 locked c456",
                "end 581 unlocked",
            ],
        );
    }
}
