//! Wrong readers of firmware text.

use super::Wrong;
use crate::implementation::{Implementation, REFERENCE};
use crate::run::Function;
use reference::text::{self, Grammar, Segment, TI_TXT};
use reference::Refused;

/// The reader over a text parsed by other rules.
fn read_parsed(
    text: &[u8],
    size: usize,
    region: &mut [u8],
    grammar: Grammar,
) -> Result<(), Refused> {
    let right = reference::read(text, size, region);
    if !matches!(right, Err(Refused { number: 3, .. })) {
        return right;
    }
    let parsed = text::parse(text, size, grammar)?;
    match (parsed.outside, parsed.repeated) {
        (Some(place), _) => Err(Refused::at(4, place)),
        (None, Some(place)) => Err(Refused::at(5, place)),
        (None, None) => {
            text::draw(&parsed.segments, region);
            Ok(())
        }
    }
}

pub fn readers() -> Vec<Wrong> {
    vec![
        wrong!("17 bytes a line", Read, read: |text, size, region| {
            read_parsed(text, size, region, Grammar { bytes_a_line: 17, ..TI_TXT })
        }),
        wrong!("nine address digits", Read, read: |text, size, region| {
            read_parsed(text, size, region, Grammar { address_digits: 9, ..TI_TXT })
        }),
        wrong!("large q taken", Read, read: |text, size, region| {
            let small: Vec<u8> =
                text.iter().map(|&byte| if byte == b'Q' { b'q' } else { byte }).collect();
            reference::read(&small, size, region)
        }),
        wrong!("tab taken for a space", Read, read: |text, size, region| {
            let spaced: Vec<u8> =
                text.iter().map(|&byte| if byte == b'\t' { b' ' } else { byte }).collect();
            reference::read(&spaced, size, region)
        }),
        wrong!("q needs a line end", Read, read: |text, size, region| {
            let mut read = vec![0; region.len()];
            reference::read(text, size, &mut read)?;
            if text.last() == Some(&b'q') {
                return Err(Refused::at(3, text.len()));
            }
            region.copy_from_slice(&read);
            Ok(())
        }),
        wrong!("empty text taken", Read, read: |text, size, region| {
            let text = if text.is_empty() { b"q" } else { text };
            reference::read(text, size, region)
        }),
        wrong!("picture over 0x00", Read, read: |text, size, region| {
            reference::read(text, size, region)?;
            for byte in region.iter_mut().filter(|byte| **byte == 0xFF) {
                *byte = 0;
            }
            Ok(())
        }),
        wrong!("refused reading clears the region", Read, read: |text, size, region| {
            let read = reference::read(text, size, region);
            if matches!(read, Err(Refused { number: 4, .. })) {
                region.fill(0xFF);
            }
            read
        }),
    ]
}

pub fn refusals() -> Vec<Wrong> {
    vec![
        wrong!("5 before 4", Read, read: |text, size, region| {
            let read = reference::read(text, size, region);
            if let Err(Refused { number: 4, .. }) = read {
                if let Some(place) = text::parse(text, size, TI_TXT)?.repeated {
                    return Err(Refused::at(5, place));
                }
            }
            read
        }),
        wrong!("4 before 3", Read, read: |text, size, region| {
            let read = reference::read(text, size, region);
            if let Err(Refused { number: 3, place }) = read {
                let ended = [&text[..place], b"\nq"].concat();
                if let Err(Refused { number: 4, place }) = text::image(&ended, size) {
                    return Err(Refused::at(4, place));
                }
            }
            read
        }),
        wrong!("place of 5 one byte late", Read, read: |text, size, region| {
            reference::read(text, size, region).map_err(|refused| match refused.number {
                5 => Refused::at(5, refused.place + 1),
                _ => refused,
            })
        }),
        wrong!("place of 3 at the line's start", Read, read: |text, size, region| {
            reference::read(text, size, region).map_err(|refused| match refused.number {
                3 => {
                    let before = &text[..refused.place];
                    let start = before.iter().rposition(|&byte| byte == b'\n');
                    Refused::at(3, start.map_or(0, |end| end + 1))
                }
                _ => refused,
            })
        }),
        wrong!("equal bytes may be given twice", Read, read: |text, size, region| {
            let read = reference::read(text, size, region);
            if !matches!(read, Err(Refused { number: 5, .. })) {
                return read;
            }
            let segments = text::parse(text, size, TI_TXT)?.segments;
            let mut picture = vec![0; size];
            text::draw(&segments, &mut picture);
            let equal = |segment: &Segment| {
                let first = segment.address as usize;
                segment.bytes.is_empty() || picture[first..].starts_with(&segment.bytes)
            };
            if segments.iter().all(equal) {
                region.copy_from_slice(&picture);
                return Ok(());
            }
            read
        }),
        wrong!("longest text one byte shorter", Read, read: |text, size, region| {
            if text.len() == 1_048_576 {
                return Err(Refused::plain(18));
            }
            reference::read(text, size, region)
        }),
        wrong!("3 before 18", Read, read: |text, size, region| {
            match reference::read(text, size, region) {
                Err(Refused { number: 18, .. }) => {
                    text::parse(text, size, TI_TXT)?;
                    Err(Refused::plain(18))
                }
                read => read,
            }
        }),
        wrong!("region longer than N taken", Read, read: |text, size, region| {
            let length = region.len().min(size);
            reference::read(text, size, &mut region[..length])
        }),
        wrong!("sizes need not be multiples", Read, read: |text, size, region| {
            if region.len() != size || !(4_096..=262_144).contains(&size) {
                return Err(Refused::plain(1));
            }
            text::draw(&text::image(text, size)?, region);
            Ok(())
        }),
    ]
}
