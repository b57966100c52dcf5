//! The checker timed.

use crate::parts;
use crate::scripts::{self, Answer, Script, LONGEST};
use crate::texts::{self, Text, SIZE};
use crate::watch::{Beside, Table, Told, RUNS};
use crate::{ours, said, theirs, FILL};
use reference::packet;

const IMAGES: u32 = 200;
const SAMPLE: &str = "examples/firmware.txt";

/// The memory that a checker is lent: the region, and a bit for each of its bytes.
#[derive(PartialEq)]
struct Lent {
    region: Vec<u8>,
    known: Vec<u8>,
}

impl Lent {
    fn new() -> Lent {
        Lent {
            region: vec![0; SIZE],
            known: vec![0; SIZE / 8],
        }
    }

    fn fill(&mut self) {
        self.region.fill(FILL);
        self.known.fill(FILL);
    }
}

/// The memory of both checkers.
struct Memory {
    proved: Lent,
    plain: Lent,
}

impl Memory {
    fn new() -> Memory {
        Memory {
            proved: Lent::new(),
            plain: Lent::new(),
        }
    }

    /// One check by each checker.
    fn check(&mut self, script: &Script, times: &mut Beside) {
        let (bytes, text, secret) = (&script.bytes, &script.text.bytes, &scripts::password());
        let expected = script.expected;
        self.proved.fill();
        let Lent { region, known } = &mut self.proved;
        let answer =
            times.proved(|| zlatopysk::check(bytes, text, secret, expected, SIZE, region, known));
        self.plain.fill();
        let Lent { region, known } = &mut self.plain;
        let beside = times.plain(|| {
            reference::check_directly(bytes, text, secret, expected, SIZE, region, known)
        });
        assert_eq!(answer.unknown, beside.unknown, "{}", script.name);
        let answer: Answer = (answer.answer.map_err(ours).err(), answer.packets);
        let beside: Answer = (beside.answer.map_err(theirs).err(), beside.packets);
        assert_eq!(answer, beside, "{}", script.name);
        assert_eq!(answer, script.answer, "{}", script.name);
        assert!(self.proved == self.plain, "{}: other memory", script.name);
    }
}

fn time_checker(table: &Table, script: &Script, memory: &mut Memory) {
    let mut times = Beside::default();
    for _ in 0..RUNS {
        memory.check(script, &mut times);
    }
    let answer = said(script.answer.0, "passed");
    table.tell(script.name, script.length(), &answer, &times);
}

/// Different images, the script of each checked once. They are told by what all of them took.
fn time_images(table: &Table, memory: &mut Memory) {
    let mut times = Beside::default();
    let mut length = 0;
    for number in 1..=IMAGES {
        let text = texts::whole("an image", &texts::image(number), "\n");
        let script = Script::planned("an image", text);
        memory.check(&script, &mut times);
        length = script.length();
    }
    table.tell_all(&format!("{IMAGES} images"), length, "passed", &times);
}

pub fn time_usual(told: Told) {
    let table = Table::begin(told, "checker");
    let mut memory = Memory::new();
    let full = scripts::full();
    time_checker(&table, &full, &mut memory);
    time_images(&table, &mut memory);
    let sample = std::fs::read(SAMPLE).expect("it runs in the repository's root");
    let refused = (Some((8, scripts::ERASE_AT)), 1);
    for script in [
        Script::planned("four segments", Text::of("sample", sample)),
        scripts::zeros(),
        full.with_ranges("with range checksums"),
        full.without_erase("no erase", refused),
        full.with_other_byte("another byte"),
    ] {
        time_checker(&table, &script, &mut memory);
    }
    if told == Told::Tables {
        println!(
            "bytes are those of text and script; memory lent to a check: {SIZE} + {} bytes",
            SIZE / 8
        );
        parts::show(&full, |script, times| memory.check(script, times));
    }
}

/// As many packets as the longest script holds, checked once by each checker.
pub fn time_hostile() {
    let bare = scripts::bare();
    let kinds = [
        ("erases", packet::erase()),
        ("ranges of 65,535", packet::range_checksum(0, u16::MAX)),
    ];
    println!("One check each; s per script");
    println!("script                    bytes  packets     proved      plain");
    for (name, packet) in kinds {
        let count = (LONGEST - bare.bytes.len()) / packet.len();
        let script = bare.with_packets(name, &vec![packet; count]);
        let mut times = Beside::default();
        Memory::new().check(&script, &mut times);
        let [proved, plain] = [times.proved[0], times.plain[0]].map(|took| took / 1e9);
        let (bytes, packets) = (script.bytes.len(), script.packets());
        println!("{name:<22} {bytes:>8} {packets:>8} {proved:>10.1} {plain:>10.1}");
    }
}
