//! Document 01, "Firmware text": TI-TXT read into segments, and the picture of an image.

use crate::refusal::{is_region_size, require, Refused, LONGEST_TEXT};

/// The bytes under one `@` line.
#[derive(Clone, Debug, PartialEq, Eq)]
pub struct Segment {
    pub address: u64,
    pub bytes: Vec<u8>,
}

/// The greatest numbers of the grammar.
#[derive(Clone, Copy, Debug)]
pub struct Grammar {
    pub address_digits: usize,
    pub bytes_a_line: usize,
}

pub const TI_TXT: Grammar = Grammar {
    address_digits: 8,
    bytes_a_line: 16,
};

/// A well-formed text, with the first pairs that break the rules of addresses.
#[derive(Debug)]
pub struct Parsed {
    pub segments: Vec<Segment>,
    /// Place of the first pair at address N or above.
    pub outside: Option<usize>,
    /// Place of the first pair at an address below N that was given before.
    pub repeated: Option<usize>,
}

/// Takes what the lines of a text give, in text order.
trait Taker {
    /// A segment begins.
    fn open(&mut self, address: u64);

    /// The next byte of the segment, at this address.
    fn take(&mut self, address: u64, value: u8);
}

impl Taker for Vec<Segment> {
    fn open(&mut self, address: u64) {
        let bytes = Vec::new();
        self.push(Segment { address, bytes });
    }

    fn take(&mut self, _address: u64, value: u8) {
        if let Some(segment) = self.last_mut() {
            segment.bytes.push(value);
        }
    }
}

/// A region takes the bytes at their addresses.
impl Taker for [u8] {
    fn open(&mut self, _address: u64) {}

    fn take(&mut self, address: u64, value: u8) {
        if let Some(byte) = self.get_mut(address as usize) {
            *byte = value;
        }
    }
}

/// Fills the region with the picture of the text.
pub fn read(text: &[u8], size: usize, region: &mut [u8]) -> Result<(), Refused> {
    require(is_region_size(size) && region.len() == size, 1)?;
    draw(&image(text, size)?, region);
    Ok(())
}

/// The segments of a sound text, by refusals 18, 3, 4 and 5.
pub fn image(text: &[u8], size: usize) -> Result<Vec<Segment>, Refused> {
    require(text.len() <= LONGEST_TEXT, 18)?;
    let parsed = parse(text, size, TI_TXT)?;
    require_addresses(parsed.outside, parsed.repeated)?;
    Ok(parsed.segments)
}

/// The picture of a sound text, by the same refusals. It is drawn as the text is parsed, without
/// the segments.
pub fn picture(text: &[u8], size: usize) -> Result<Vec<u8>, Refused> {
    require(text.len() <= LONGEST_TEXT, 18)?;
    let mut picture = vec![0xFF; size];
    let mut parser = Parser::new(text, size, TI_TXT, picture.as_mut_slice());
    parser.lines()?;
    require_addresses(parser.outside, parser.repeated)?;
    Ok(picture)
}

/// Refusal 4 is judged over the whole text before refusal 5.
fn require_addresses(outside: Option<usize>, repeated: Option<usize>) -> Result<(), Refused> {
    match (outside, repeated) {
        (Some(place), _) => Err(Refused::at(4, place)),
        (None, Some(place)) => Err(Refused::at(5, place)),
        (None, None) => Ok(()),
    }
}

/// The picture of segments that lie inside the region.
pub fn draw(segments: &[Segment], region: &mut [u8]) {
    region.fill(0xFF);
    for segment in segments {
        // An empty segment may stand at any address.
        if !segment.bytes.is_empty() {
            let first = segment.address as usize;
            region[first..first + segment.bytes.len()].copy_from_slice(&segment.bytes);
        }
    }
}

/// Parses a text, or refuses it with 3 where no well-formed text goes on.
pub fn parse(text: &[u8], size: usize, grammar: Grammar) -> Result<Parsed, Refused> {
    let mut segments = Vec::new();
    let mut parser = Parser::new(text, size, grammar, &mut segments);
    parser.lines()?;
    let (outside, repeated) = (parser.outside, parser.repeated);
    Ok(Parsed {
        segments,
        outside,
        repeated,
    })
}

struct Parser<'a, T: Taker + ?Sized> {
    text: &'a [u8],
    at: usize,
    grammar: Grammar,
    /// The address of the next pair, once a segment is open.
    next: Option<u64>,
    /// For each address of the region, whether a pair gave it.
    given: Vec<bool>,
    outside: Option<usize>,
    repeated: Option<usize>,
    taker: &'a mut T,
}

impl<'a, T: Taker + ?Sized> Parser<'a, T> {
    fn new(text: &'a [u8], size: usize, grammar: Grammar, taker: &'a mut T) -> Self {
        Parser {
            text,
            at: 0,
            grammar,
            next: None,
            given: vec![false; size],
            outside: None,
            repeated: None,
            taker,
        }
    }

    fn lines(&mut self) -> Result<(), Refused> {
        loop {
            match self.peek() {
                Some(b'@') => self.segment_line()?,
                Some(b'q') => return self.last_line(),
                Some(_) if self.next.is_some() => self.data_line()?,
                _ => return Err(self.malformed()),
            }
        }
    }

    /// `@` with 1 to 8 hex digits, nothing after.
    fn segment_line(&mut self) -> Result<(), Refused> {
        self.at += 1;
        let mut address = u64::from(self.digit()?);
        for _ in 1..self.grammar.address_digits {
            match self.peek().and_then(hex_digit) {
                Some(digit) => address = address << 4 | u64::from(digit),
                None => break,
            }
            self.at += 1;
        }
        self.line_end()?;
        self.next = Some(address);
        self.taker.open(address);
        Ok(())
    }

    /// 1 to 16 pairs, single spaces between, at most one space before the line end.
    fn data_line(&mut self) -> Result<(), Refused> {
        let mut pairs = 0;
        loop {
            let place = self.at;
            let value = self.digit()? << 4 | self.digit()?;
            self.give(value, place);
            pairs += 1;
            let goes_on = self.skip_space() && self.peek().and_then(hex_digit).is_some();
            if !goes_on || pairs == self.grammar.bytes_a_line {
                return self.line_end();
            }
        }
    }

    /// `q`, its line end optional, and nothing follows.
    fn last_line(&mut self) -> Result<(), Refused> {
        self.at += 1;
        if self.peek().is_some() {
            self.line_end()?;
        }
        match self.peek() {
            None => Ok(()),
            Some(_) => Err(self.malformed()),
        }
    }

    /// LF or CR LF.
    fn line_end(&mut self) -> Result<(), Refused> {
        if self.peek() == Some(b'\r') {
            self.at += 1;
        }
        if self.peek() != Some(b'\n') {
            return Err(self.malformed());
        }
        self.at += 1;
        Ok(())
    }

    fn digit(&mut self) -> Result<u8, Refused> {
        match self.peek().and_then(hex_digit) {
            Some(digit) => {
                self.at += 1;
                Ok(digit)
            }
            None => Err(self.malformed()),
        }
    }

    fn skip_space(&mut self) -> bool {
        let space = self.peek() == Some(b' ');
        self.at += usize::from(space);
        space
    }

    fn peek(&self) -> Option<u8> {
        self.text.get(self.at).copied()
    }

    /// All before the cursor begins some well-formed text; the byte at it, or the end, is wrong.
    fn malformed(&self) -> Refused {
        Refused::at(3, self.at)
    }

    /// Hands on the next byte of the open segment and judges its address.
    fn give(&mut self, value: u8, place: usize) {
        let Some(address) = self.next else {
            return;
        };
        self.next = Some(address + 1);
        self.taker.take(address, value);
        match self.given.get_mut(address as usize) {
            None => {
                self.outside.get_or_insert(place);
            }
            Some(given) if *given => {
                self.repeated.get_or_insert(place);
            }
            Some(given) => *given = true,
        }
    }
}

/// The value of a hex digit in either letter case.
fn hex_digit(byte: u8) -> Option<u8> {
    match byte {
        b'0'..=b'9' => Some(byte - b'0'),
        b'a'..=b'f' => Some(byte - b'a' + 10),
        b'A'..=b'F' => Some(byte - b'A' + 10),
        _ => None,
    }
}

#[cfg(test)]
mod tests {
    use super::*;

    fn refused(text: &str) -> (u8, usize) {
        let refused = image(text.as_bytes(), 4_096).unwrap_err();
        assert_eq!(super::picture(text.as_bytes(), 4_096), Err(refused));
        (refused.number, refused.place)
    }

    fn segments(text: &str) -> Vec<(u64, Vec<u8>)> {
        let segments = image(text.as_bytes(), 4_096).unwrap();
        segments.into_iter().map(|s| (s.address, s.bytes)).collect()
    }

    #[test]
    fn worked_texts() {
        assert_eq!(refused("@10\n01 02\n@11\n03\nq"), (5, 14));
        assert_eq!(refused("@2"), (3, 2));
    }

    #[test]
    fn every_freedom() {
        assert_eq!(segments("q"), []);
        assert_eq!(segments("q\r\n"), []);
        assert_eq!(segments("@F\r\naB \nC0\r\nq\n"), [(15, vec![0xAB, 0xC0])]);
        assert_eq!(segments("@ffffffff\n@FFFFFFFF\nq").len(), 2);
        let line = "00 01 02 03 04 05 06 07 08 09 0a 0b 0c 0d 0e 0f \n";
        assert_eq!(segments(&format!("@0\n{line}q"))[0].1.len(), 16);
    }

    #[test]
    fn malformed_places() {
        for (text, place) in [
            ("", 0),
            ("\n", 0),
            ("00\nq", 0),
            ("Q", 0),
            ("@", 1),
            ("@g", 1),
            ("@0 \nq", 2),
            ("@123456789\nq", 9),
            ("@0\n0 \nq", 4),
            ("@0\n00  \nq", 6),
            ("@0\n0000\nq", 5),
            ("@0\n00\n\nq", 6),
            ("@0\n00\r \nq", 6),
            ("@0\n00 @\nq", 6),
            ("@0\n00\n", 6),
            ("q ", 1),
            ("q\r", 2),
            ("q\n\n", 2),
            ("q\r\nq", 3),
        ] {
            assert_eq!(refused(text), (3, place), "{text:?}");
        }
        let seventeen = format!("@0\n{}\nq", ["00"; 17].join(" "));
        assert_eq!(refused(&seventeen), (3, 3 + 16 * 3));
    }

    #[test]
    fn each_rule_is_judged_over_the_whole_text_before_the_next() {
        assert_eq!(refused("@1000\n00\n@0\n00\n@0\n00\nq"), (4, 6));
        assert_eq!(refused("@0\n00\n@0\n00\n@1000\n00\nq"), (4, 18));
        assert_eq!(refused("@0\n00\n@0\n00\n@1000\n00\nQ"), (3, 21));
        assert_eq!(refused("@ffffffff\n00 01\nq"), (4, 10));
        assert_eq!(refused("@fff\n00 01\nq"), (4, 8));
    }

    #[test]
    fn picture() {
        let mut region = vec![7; 4_096];
        let text = b"@fff\n01\n@ffffffff\n@0\n02\nq";
        read(text, 4_096, &mut region).unwrap();
        assert_eq!((region[0], region[1], region[4_095]), (2, 0xFF, 1));
        assert_eq!(super::picture(text, 4_096).unwrap(), region);
        assert_eq!(
            read(b"q", 8_192, &mut region).unwrap_err(),
            Refused::plain(1)
        );
    }
}
