//! `cardtool sums` beside the plain implementation: every line that the program prints of sound
//! texts, and the number of the refusal of others.

use differential::inputs::{lent, texts};
use differential::random::Random;
use reference::{SegmentSums, Stretch};
use std::fs;
use std::path::{Path, PathBuf};
use std::process::Command;

const HEADING: &str = "  at       bytes  checksum  packet that asks for it              reply";
const ALL: &str = "of all bytes of the region, 0xff where no segment stands";
const REPLIES: &str = "replies are those of an unlocked loader that holds the image; \
    a locked one wants its password first";

/// The program, which tests/library has built by now.
fn program() -> PathBuf {
    let home = Path::new(env!("CARGO_MANIFEST_DIR")).join("../..");
    let program = home.join("target/bin/cardtool");
    assert!(program.exists(), "./cardtool builds the program");
    program
}

/// What the program prints of a text in a file of this name.
fn printed(name: &str, text: &[u8], size: usize) -> Vec<String> {
    let file = Path::new(env!("CARGO_TARGET_TMPDIR")).join(name);
    fs::write(&file, text).expect("a file for the text");
    let size = size.to_string();
    let words = [
        "sums".as_ref(),
        file.as_os_str(),
        "--size".as_ref(),
        size.as_ref(),
    ];
    let output = Command::new(program()).args(words).output();
    let said = output.expect("the program").stdout;
    let said = String::from_utf8(said).expect("words");
    said.lines().map(str::to_string).collect()
}

fn bytes(bytes: &[u8]) -> String {
    let pairs: Vec<String> = bytes.iter().map(|byte| format!("{byte:02x}")).collect();
    pairs.join(" ")
}

fn stretch_line(stretch: &Stretch) -> String {
    let begin = format!("  0x{:x}", stretch.address);
    let number = stretch.length.to_string();
    let room = 16 - begin.len();
    let sum = format!("0x{:04x}", stretch.sum);
    let (asked, reply) = (bytes(&stretch.asked), bytes(&stretch.reply));
    format!("{begin}{number:>room$}  {sum:<10}{asked:<37}{reply}")
}

fn segment_lines((index, segment): (usize, &SegmentSums)) -> Vec<String> {
    let many = if segment.length == 1 { "" } else { "s" };
    let of = match segment.stretches.len() {
        0 => ", nothing to ask for",
        1 => "",
        _ => ", which its replies give when joined",
    };
    let whole = format!(
        "segment {} at 0x{:x}, {} byte{many}, checksum 0x{:04x}{of}",
        index + 1,
        segment.address,
        segment.length,
        segment.sum
    );
    let stretches = segment.stretches.iter().map(stretch_line);
    [whole].into_iter().chain(stretches).collect()
}

/// What the program is to print of a sound text.
fn lines(sums: &[SegmentSums], text: &[u8], size: usize) -> Vec<String> {
    let mut region = vec![0; size];
    reference::read(text, size, &mut region).expect("a sound text");
    let all = reference::checksum(reference::START, &region);
    let mut lines = vec![format!("checksums in a region of {size} bytes")];
    match sums {
        [] => lines.push("no segment".to_string()),
        _ => {
            lines.push(HEADING.to_string());
            lines.extend(sums.iter().enumerate().flat_map(segment_lines));
            if sums.iter().any(|segment| segment.length != 0) {
                lines.push(REPLIES.to_string());
            }
        }
    }
    lines.push(format!("image checksum 0x{all:04x}, {ALL}"));
    lines
}

/// Compares what is printed of a text, and answers whether it is sound.
fn compare(name: &str, text: &[u8], size: usize) -> bool {
    let printed = printed(name, text, size);
    match reference::sums(text, size) {
        Ok(sums) => assert_eq!(printed, lines(&sums, text, size)),
        Err(refused) => {
            let begin = format!("refused {}:", refused.number);
            assert!(printed[0].starts_with(&begin), "{begin} {printed:?}");
            return false;
        }
    }
    true
}

/// A segment of so many bytes.
fn segment(address: usize, count: usize, random: &mut Random) -> Vec<u8> {
    let mut text = format!("@{address:x}\n");
    for line in random.bytes(count).chunks(16) {
        text.push_str(&bytes(line));
        text.push('\n');
    }
    text.into_bytes()
}

/// Segments around the ends of one, two, three and four stretches.
#[test]
fn sums_of_long_segments() {
    let random = &mut Random::new(4);
    for count in [
        65_534, 65_535, 65_536, 131_070, 131_071, 196_605, 196_606, 262_144,
    ] {
        let most = 262_144 - count;
        for address in [0, most / 2, most] {
            let text = [&segment(address, count, random)[..], b"q"].concat();
            assert!(compare("long.txt", &text, 262_144), "refused");
        }
    }
}

/// Texts of every kind, good and damaged.
#[test]
fn sums_of_any_text() {
    let mut sound = 0;
    for seed in 0..400 {
        let random = &mut Random::new(seed);
        let size = lent::good_size(random);
        let text = texts::any(random, size);
        sound += usize::from(compare("any.txt", &text, size));
    }
    assert!((40..360).contains(&sound), "{sound} texts are sound");
}
