//! Scripts, and what the checker must answer to each.

use crate::texts::{self, Text, SIZE};
use reference::packet;
use std::rc::Rc;

pub const ENTRY: u32 = 513;
pub const LONGEST: usize = 2_097_152;
/// Where the first packet stands, then the erase and the first write of the planner's scripts.
pub const HEAD: usize = 5;
pub const ERASE_AT: usize = 267;
pub const WRITES_AT: usize = 273;
/// The length of a start, and of a full write.
pub const START: usize = 10;
const WRITE: usize = 266;

pub fn password() -> [u8; 256] {
    std::array::from_fn(|i| i as u8)
}

/// What the checker answers: a refusal's number and place, and the number of packets.
pub type Answer = (Option<(u8, usize)>, usize);

#[derive(Clone)]
pub struct Script {
    pub name: &'static str,
    pub text: Rc<Text>,
    pub bytes: Vec<u8>,
    pub expected: u16,
    pub answer: Answer,
}

impl Script {
    /// The planner's script of a text, which passes.
    pub fn planned(name: &'static str, text: Text) -> Script {
        let segments = reference::text::image(&text.bytes, SIZE).expect("a text is sound");
        let bytes = reference::planner::script(&segments, &password(), ENTRY, 256);
        let mut picture = vec![0; SIZE];
        reference::read(&text.bytes, SIZE, &mut picture).expect("a text is sound");
        let packets = reference::script::frames(&bytes).map_or(0, |frames| frames.len());
        Script {
            name,
            text: Rc::new(text),
            bytes,
            expected: reference::checksum(reference::START, &picture),
            answer: (None, packets),
        }
    }

    pub fn packets(&self) -> usize {
        self.answer.1
    }

    /// How many bytes a check reads: those of the text and of the script.
    pub fn length(&self) -> usize {
        self.text.bytes.len() + self.bytes.len()
    }

    /// Without its erase.
    pub fn without_erase(&self, name: &'static str, answer: Answer) -> Script {
        let bytes = [&self.bytes[..ERASE_AT], &self.bytes[WRITES_AT..]].concat();
        Script {
            name,
            bytes,
            answer,
            ..self.clone()
        }
    }

    /// With further packets before its start, which pass.
    pub fn with_packets(&self, name: &'static str, packets: &[Vec<u8>]) -> Script {
        let (front, start) = self.bytes.split_at(self.bytes.len() - START);
        Script {
            name,
            bytes: [front, &packets.concat(), start].concat(),
            answer: (None, self.packets() + packets.len()),
            ..self.clone()
        }
    }

    /// With range checksums of the whole region before its start.
    pub fn with_ranges(&self, name: &'static str) -> Script {
        let most = u16::MAX as usize;
        let ranges: Vec<Vec<u8>> = (0..SIZE)
            .step_by(most)
            .map(|from| packet::range_checksum(from as u32, most.min(SIZE - from) as u16))
            .collect();
        self.with_packets(name, &ranges)
    }

    /// With another last byte of the image, in a packet without fault.
    pub fn with_other_byte(&self, name: &'static str) -> Script {
        let start = self.bytes.len() - START;
        let mut core = self.bytes[start - WRITE + 3..start - 2].to_vec();
        *core.last_mut().expect("a write has bytes") ^= 1;
        let (front, end) = (&self.bytes[..start - WRITE], &self.bytes[start..]);
        Script {
            name,
            bytes: [front, &packet::packet(&core), end].concat(),
            answer: (Some((10, start)), self.packets() - 1),
            ..self.clone()
        }
    }

    /// With a fault in its start, which shows only once the region has been compared.
    pub fn with_bad_start(&self) -> Script {
        let mut script = self.clone();
        *script.bytes.last_mut().expect("a script has bytes") ^= 1;
        script.answer = (Some((8, self.bytes.len() - START)), self.packets() - 1);
        script
    }

    /// Cut behind so many bytes, and of another text.
    pub fn cut(&self, text: &Rc<Text>, length: usize, packets: usize) -> Script {
        Script {
            text: Rc::clone(text),
            bytes: self.bytes[..length].to_vec(),
            answer: (Some((12, length)), packets),
            ..self.clone()
        }
    }
}

/// The script of a text with no byte.
pub fn bare() -> Script {
    Script::planned("bare", Text::of("empty", b"q\n".to_vec()))
}

/// The script of a whole region.
pub fn full() -> Script {
    Script::planned("full region", texts::full())
}

/// Zeros over everything, without an erase, which passes since zeros can be written over any byte.
pub fn zeros() -> Script {
    let script = Script::planned("zeros", texts::whole("zeros", &vec![0; SIZE], "\n"));
    script.without_erase("zeros, no erase", (None, script.packets() - 1))
}
