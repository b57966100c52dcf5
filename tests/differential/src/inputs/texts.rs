//! Firmware texts: well-formed with every freedom, unsound in every rule, and damaged.

use crate::random::Random;
use reference::text::Segment;

/// How one text uses the freedoms of the format.
struct Style {
    case: Choice,
    line_end: Choice,
    space: Choice,
    bytes_a_line: usize,
    digits: usize,
}

/// One way always, the other always, or each time anew.
#[derive(Clone, Copy)]
enum Choice {
    Never,
    Always,
    Mixed,
}

impl Choice {
    fn any(random: &mut Random) -> Choice {
        random.pick(&[Choice::Never, Choice::Always, Choice::Mixed])
    }

    fn take(self, random: &mut Random) -> bool {
        match self {
            Choice::Never => false,
            Choice::Always => true,
            Choice::Mixed => random.coin(),
        }
    }
}

/// Any text for a region of this size, most of them sound.
pub fn any(random: &mut Random, size: usize) -> Vec<u8> {
    match random.weighted(&[50, 12, 12, 12, 8, 6]) {
        0 => sound(random, size),
        1 => unsound(random, size),
        2 => malformed(random, size),
        3 => mutated(random, size),
        4 => from_alphabet(random),
        _ => {
            let length = random.below(60);
            random.bytes(length)
        }
    }
}

/// A sound text.
pub fn sound(random: &mut Random, size: usize) -> Vec<u8> {
    let segments = segments(random, size);
    render(random, &segments)
}

/// A well-formed text that breaks the rules of addresses.
pub fn unsound(random: &mut Random, size: usize) -> Vec<u8> {
    let mut segments = segments(random, size);
    let faults = random.below(3);
    if faults != 1 {
        add_outside(random, size, &mut segments);
    }
    if faults != 0 {
        add_repeated(random, &mut segments);
    }
    render(random, &segments)
}

/// A text with a fault of the format, over a sound or unsound one.
pub fn malformed(random: &mut Random, size: usize) -> Vec<u8> {
    let mut text = if random.percent(80) {
        sound(random, size)
    } else {
        unsound(random, size)
    };
    break_format(random, &mut text);
    text
}

/// A text with some bytes changed at random.
pub fn mutated(random: &mut Random, size: usize) -> Vec<u8> {
    let mut text = sound(random, size);
    for _ in 0..random.between(1, 3) {
        mutate(random, &mut text);
    }
    text
}

/// Random bytes of the text's alphabet.
pub fn from_alphabet(random: &mut Random) -> Vec<u8> {
    const ALPHABET: &[u8] = b"00001289abcdefABCDEF@@@q   \n\n\n\r\n\rGgQ";
    let mut text = random.pick(&[&b""[..], b"@0\n", b"@0\n00"]).to_vec();
    for _ in 0..random.below(50) {
        text.push(random.pick(ALPHABET));
    }
    text
}

/// Disjoint segments inside the region in any order, with empty ones anywhere.
pub fn segments(random: &mut Random, size: usize) -> Vec<Segment> {
    let mut segments = match random.weighted(&[6, 70, 8, 8, 8]) {
        0 => Vec::new(),
        1 => sparse(random, size),
        2 => at_the_edges(random, size),
        3 => side_by_side(random, size),
        _ => full(random, size),
    };
    if random.percent(60) {
        random.shuffle(&mut segments);
    }
    if random.percent(25) {
        for _ in 0..random.between(1, 3) {
            add_empty(random, size, &mut segments);
        }
    }
    segments
}

/// Some segments with gaps between them.
fn sparse(random: &mut Random, size: usize) -> Vec<Segment> {
    let count = random.between(1, 6);
    let window = size / count;
    (0..count)
        .map(|index| {
            let longest = window.min(1_200);
            let length = segment_length(random).min(longest);
            let first = index * window + random.below(window - length + 1);
            segment(random, first, length)
        })
        .collect()
}

fn segment_length(random: &mut Random) -> usize {
    if random.coin() {
        random.pick(&[1, 2, 15, 16, 17, 255, 256, 257, 511, 512, 513, 1_024])
    } else {
        random.between(1, 700)
    }
}

/// The first and the last bytes of the region.
fn at_the_edges(random: &mut Random, size: usize) -> Vec<Segment> {
    let (first, last) = (random.between(1, 300), random.between(1, 300));
    vec![
        segment(random, 0, first),
        segment(random, size - last, last),
    ]
}

/// Segments that touch each other.
fn side_by_side(random: &mut Random, size: usize) -> Vec<Segment> {
    let mut first = random.below(size / 2);
    (0..random.between(2, 8))
        .map(|_| {
            let length = random.between(1, 250);
            first += length;
            segment(random, first - length, length)
        })
        .collect()
}

/// Every byte of the region.
fn full(random: &mut Random, size: usize) -> Vec<Segment> {
    let cut = random.below(size);
    let mut segments = vec![segment(random, 0, cut), segment(random, cut, size - cut)];
    segments.retain(|segment| !segment.bytes.is_empty());
    segments
}

fn segment(random: &mut Random, first: usize, length: usize) -> Segment {
    let mut bytes = vec![0; length];
    match random.weighted(&[60, 10, 10, 20]) {
        0 => random.fill(&mut bytes),
        1 => {}
        2 => bytes.fill(0xFF),
        _ => bytes
            .iter_mut()
            .for_each(|byte| *byte = random.pick(&[0x00, 0xFF, 0xFE, 0x7F, 0x01])),
    }
    Segment {
        address: first as u64,
        bytes,
    }
}

fn insert(random: &mut Random, segments: &mut Vec<Segment>, segment: Segment) {
    let place = random.below(segments.len() + 1);
    segments.insert(place, segment);
}

fn add_empty(random: &mut Random, size: usize, segments: &mut Vec<Segment>) {
    let size = size as u64;
    let address = random.pick(&[0, 1, 0x200, size - 1, size, size + 1, 0xFFFF_FFFF]);
    let bytes = Vec::new();
    insert(random, segments, Segment { address, bytes });
}

/// A segment that ends or lies above the region.
fn add_outside(random: &mut Random, size: usize, segments: &mut Vec<Segment>) {
    let first = match random.below(4) {
        0 => size - random.between(1, 40),
        1 => size + random.below(3),
        2 => random.pick(&[0xFFFF_FFFF, 0xFFFF_FFFE, 0x8000_0000, 0x1_0000 + size]),
        _ => size + random.below(1 << 20),
    };
    let length = size.saturating_sub(first) + random.between(1, 40);
    let outside = segment(random, first, length);
    insert(random, segments, outside);
}

/// A segment over bytes that another one gives, its bytes equal or not.
fn add_repeated(random: &mut Random, segments: &mut Vec<Segment>) {
    // One past 0xFFFFFFFF could not be written as an address.
    let filled: Vec<Segment> = segments
        .iter()
        .filter(|segment| !segment.bytes.is_empty() && segment.address < 0x8000_0000)
        .cloned()
        .collect();
    if filled.is_empty() {
        segments.push(segment(random, 0x100, 2));
        segments.push(segment(random, 0x101, 1));
        return;
    }
    let other = &filled[random.below(filled.len())];
    let from = random.below(other.bytes.len());
    let length = random.between(1, other.bytes.len() - from);
    let mut repeated = segment(random, other.address as usize + from, length);
    if random.coin() {
        repeated.bytes = other.bytes[from..from + length].to_vec();
    }
    insert(random, segments, repeated);
}

/// The text of these segments, with the freedoms of the format used at random.
pub fn render(random: &mut Random, segments: &[Segment]) -> Vec<u8> {
    let bytes_a_line = random.pick(&[16, 16, 16, 1, 0]);
    render_with(random, segments, bytes_a_line)
}

/// The same in full lines, so that the text of no region is too long.
pub fn render_short(random: &mut Random, segments: &[Segment]) -> Vec<u8> {
    render_with(random, segments, 16)
}

/// `bytes_a_line` 0 stands for lines of any length.
fn render_with(random: &mut Random, segments: &[Segment], bytes_a_line: usize) -> Vec<u8> {
    let style = Style {
        case: Choice::any(random),
        line_end: Choice::any(random),
        space: Choice::any(random),
        bytes_a_line,
        digits: random.pick(&[1, 1, 4, 8, 0]),
    };
    let mut text = Vec::new();
    for segment in segments {
        address_line(random, &style, segment.address, &mut text);
        data_lines(random, &style, &segment.bytes, &mut text);
    }
    text.push(b'q');
    if random.percent(75) {
        line_end(random, &style, &mut text);
    }
    text
}

fn address_line(random: &mut Random, style: &Style, address: u64, text: &mut Vec<u8>) {
    let width = match style.digits {
        0 => random.between(1, 8),
        digits => digits,
    };
    text.push(b'@');
    for digit in format!("{address:0width$x}").bytes() {
        push_digit(random, style, digit, text);
    }
    line_end(random, style, text);
}

fn data_lines(random: &mut Random, style: &Style, bytes: &[u8], text: &mut Vec<u8>) {
    let mut rest = bytes;
    while !rest.is_empty() {
        let count = match style.bytes_a_line {
            0 => random.between(1, 16),
            count => count,
        };
        let (line, after) = rest.split_at(count.min(rest.len()));
        for (index, byte) in line.iter().enumerate() {
            if index > 0 {
                text.push(b' ');
            }
            for digit in [byte >> 4, byte & 15] {
                push_digit(random, style, b"0123456789abcdef"[usize::from(digit)], text);
            }
        }
        if style.space.take(random) {
            text.push(b' ');
        }
        line_end(random, style, text);
        rest = after;
    }
}

fn push_digit(random: &mut Random, style: &Style, digit: u8, text: &mut Vec<u8>) {
    if style.case.take(random) {
        text.push(digit.to_ascii_uppercase());
    } else {
        text.push(digit);
    }
}

fn line_end(random: &mut Random, style: &Style, text: &mut Vec<u8>) {
    if style.line_end.take(random) {
        text.push(b'\r');
    }
    text.push(b'\n');
}

/// Puts `piece` at a place of the text instead of `removed` bytes.
fn splice(text: &mut Vec<u8>, place: usize, removed: usize, piece: &[u8]) {
    let place = place.min(text.len());
    let end = (place + removed).min(text.len());
    text.splice(place..end, piece.iter().copied());
}

/// A place right after a line end, or the beginning.
fn line_start(random: &mut Random, text: &[u8]) -> usize {
    let starts: Vec<usize> = std::iter::once(0)
        .chain((0..text.len()).filter(|&i| text[i] == b'\n').map(|i| i + 1))
        .collect();
    random.pick(&starts)
}

/// A place with this byte, or the beginning.
fn place_of(random: &mut Random, text: &[u8], byte: u8) -> usize {
    let places: Vec<usize> = (0..text.len()).filter(|&i| text[i] == byte).collect();
    if places.is_empty() {
        0
    } else {
        random.pick(&places)
    }
}

/// One fault of the format.
fn break_format(random: &mut Random, text: &mut Vec<u8>) {
    let start = line_start(random, text);
    match random.below(18) {
        0 => splice(text, start, 0, b"@000000001\n"),
        1 => splice(text, start, 0, b"@\n"),
        2 => splice(
            text,
            start,
            0,
            random.pick(&[&b"@0 \n"[..], b"@ 0\n", b"@0x1\n"]),
        ),
        3 => splice(text, start, 0, seventeen_bytes(random).as_bytes()),
        4 => {
            let space = place_of(random, text, b' ');
            splice(
                text,
                space,
                1,
                random.pick(&[&b"  "[..], b"", b"\t", b"   "]),
            );
        }
        5 => splice(
            text,
            start,
            0,
            random.pick(&[&b"\n"[..], b"\r\n", b" \n", b"\r"]),
        ),
        6 => {
            let end = place_of(random, text, b'\n');
            splice(
                text,
                end,
                1,
                random.pick(&[&b"\r"[..], b"", b"\n\r", b"\r\r\n"]),
            );
        }
        7 => {
            let last = place_of(random, text, b'q');
            splice(text, last, 1, random.pick(&[&b"Q"[..], b"", b"qq", b" q"]));
        }
        8 => text.extend(random.pick(&[&b" "[..], b"\n", b"q", b"\r", b"\r\n", b"@0\n", b"00\n"])),
        9 => splice(text, 0, 0, random.pick(&[&b"00\n"[..], b" ", b"\n", b"0"])),
        10 => {
            let place = random.below(text.len());
            text[place] = random.pick(b"/:@G`g\x00\x80\xFF\tqQx+- ");
        }
        11 => {
            let place = random.below(text.len());
            splice(text, place, 1, b"");
        }
        12 => splice(text, start, 0, b" "),
        13 => splice(text, start, 0, random.pick(&[&b"q\n"[..], b"q"])),
        14 => {
            let place = random.below(text.len() + 1);
            text.truncate(place);
        }
        15 => splice(
            text,
            start,
            0,
            random.pick(&[&b"0\n"[..], b"0 1\n", b"000\n", b"00 0\n"]),
        ),
        16 => splice(
            text,
            start,
            0,
            random.pick(&[&b"00  00\n"[..], b"00  \n", b"00\t00\n"]),
        ),
        _ => {
            *text = random
                .pick(&[&b""[..], b"q\r", b"q ", b"@2", b"@0\n", b"@0\n00", b"q\n\n"])
                .to_vec();
        }
    }
}

/// A line with one byte too many, or some more.
fn seventeen_bytes(random: &mut Random) -> String {
    let count = random.pick(&[17, 17, 18, 32]);
    format!("{}\n", vec!["5a"; count].join(" "))
}

/// One change at random.
pub fn mutate(random: &mut Random, bytes: &mut Vec<u8>) {
    if bytes.is_empty() {
        bytes.push(random.byte());
        return;
    }
    let place = random.below(bytes.len());
    match random.below(7) {
        0 => bytes[place] ^= 1 << random.below(8),
        1 => bytes[place] = random.byte(),
        2 => splice(bytes, place, 1, b""),
        3 => bytes.insert(place, random.pick(b"0aF@q \r\n")),
        4 => bytes.truncate(place),
        5 => {
            let end = (place + random.between(1, 20)).min(bytes.len());
            let piece = bytes[place..end].to_vec();
            splice(bytes, place, 0, &piece);
        }
        _ => {
            let other = random.below(bytes.len());
            bytes.swap(place, other);
        }
    }
}

/// The text with lines of empty segments before it, so that it has this length; at least 3 more.
pub fn lengthened(text: &[u8], length: usize) -> Vec<u8> {
    let mut long = Vec::with_capacity(length);
    let mut missing = length - text.len();
    while missing > 0 {
        // A line has 3 to 10 bytes; never leave 1 or 2.
        let line = match missing {
            3..=10 => missing,
            11 | 12 => 6,
            _ => 10,
        };
        long.push(b'@');
        long.extend(std::iter::repeat_n(b'0', line - 2));
        long.push(b'\n');
        missing -= line;
    }
    long.extend_from_slice(text);
    long
}

#[cfg(test)]
mod tests {
    use super::*;
    use reference::text::{image, parse, TI_TXT};

    #[test]
    fn sound_texts_are_sound() {
        for seed in 0..2_000 {
            let text = sound(&mut Random::new(seed), 4_096);
            assert!(image(&text, 4_096).is_ok(), "seed {seed}");
        }
    }

    #[test]
    fn unsound_texts_break_the_rules_of_addresses_only() {
        for seed in 0..2_000 {
            let text = unsound(&mut Random::new(seed), 4_096);
            let parsed = parse(&text, 4_096, TI_TXT).unwrap();
            let broken = parsed.outside.or(parsed.repeated);
            assert!(broken.is_some(), "seed {seed}");
        }
    }

    #[test]
    fn lengthened_texts_have_their_length() {
        for more in 3..60 {
            let text = lengthened(b"q", 1 + more);
            assert_eq!(text.len(), 1 + more);
            assert!(image(&text, 4_096).is_ok());
        }
    }
}
