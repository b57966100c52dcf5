//! Wrong planners.

use super::Wrong;
use crate::implementation::{Implementation, REFERENCE};
use crate::run::Function;
use reference::text::{self, Segment};
use reference::{packet, planner, Refused};

/// The planner with another way to write the script of the segments.
macro_rules! wrong_plan {
    ($name:literal, $script:expr) => {
        wrong!($name, Plan, plan: |text, password, entry, size, out| {
            let script: fn(Vec<Segment>, &[u8], u32) -> Vec<u8> = $script;
            reference::plan(text, password, entry, size, out)?;
            let script = script(text::image(text, size)?, password, entry);
            let written = script.len().min(out.len());
            out[..written].copy_from_slice(&script[..written]);
            Ok(script.len())
        })
    };
}

pub fn scripts() -> Vec<Wrong> {
    vec![
        wrong_plan!("blocks of 255", |segments, password, entry| {
            planner::script(&segments, password, entry, 255)
        }),
        wrong_plan!(
            "segments in rising order",
            |mut segments, password, entry| {
                segments.sort_by_key(|segment| segment.address);
                planner::script(&segments, password, entry, 256)
            }
        ),
        wrong_plan!(
            "neighbouring segments joined",
            |segments, password, entry| {
                let mut joined: Vec<Segment> = Vec::new();
                for segment in segments {
                    match joined.last_mut() {
                        Some(last) if last.address + last.bytes.len() as u64 == segment.address => {
                            last.bytes.extend(segment.bytes);
                        }
                        _ => joined.push(segment),
                    }
                }
                planner::script(&joined, password, entry, 256)
            }
        ),
        wrong_plan!(
            "blocks cut at multiples of 256",
            |segments, password, entry| {
                let mut cut: Vec<Segment> = Vec::new();
                for segment in segments {
                    let first = (256 - segment.address as usize % 256).min(segment.bytes.len());
                    let (front, back) = segment.bytes.split_at(first);
                    let middle = segment.address + first as u64;
                    cut.push(Segment {
                        address: segment.address,
                        bytes: front.to_vec(),
                    });
                    cut.push(Segment {
                        address: middle,
                        bytes: back.to_vec(),
                    });
                }
                planner::script(&cut, password, entry, 256)
            }
        ),
        wrong_plan!(
            "an empty segment as a packet",
            |segments, password, entry| {
                let mut script = planner::script(&segments, password, entry, 256);
                for segment in segments.iter().filter(|segment| segment.bytes.is_empty()) {
                    let start = script.len() - 10;
                    let packet = packet::write(segment.address as u32, &[]);
                    script.splice(start..start, packet);
                }
                script
            }
        ),
        wrong_plan!(
            "no erase for an empty image",
            |segments, password, entry| {
                let mut script = planner::script(&segments, password, entry, 256);
                if segments.iter().all(|segment| segment.bytes.is_empty()) {
                    script.drain(267..273);
                }
                script
            }
        ),
        wrong!("length without the head", Plan, plan: |text, password, entry, size, out| {
            reference::plan(text, password, entry, size, out).map(|length| length - 5)
        }),
        wrong!("output after the script cleared", Plan, plan: |text, password, entry, size, out| {
            let length = reference::plan(text, password, entry, size, out)?;
            out[length..].fill(0);
            Ok(length)
        }),
    ]
}

pub fn refusals() -> Vec<Wrong> {
    vec![
        wrong!("14 after 13", Plan, plan: |text, password, entry, size, out| {
            match reference::plan(text, password, entry, size, out) {
                Err(Refused { number: 14, .. }) => {
                    let mut copy = out.to_vec();
                    reference::plan(text, password, 0, size, &mut copy)?;
                    Err(Refused::plain(14))
                }
                answer => answer,
            }
        }),
        wrong!("entry address N taken", Plan, plan: |text, password, entry, size, out| {
            if entry as usize != size || size < 4_096 {
                return reference::plan(text, password, entry, size, out);
            }
            let length = reference::plan(text, password, entry - 1, size, out)?;
            out[length - 10..length].copy_from_slice(&packet::start(entry));
            Ok(length)
        }),
        wrong!("output must be longer than the script", Plan,
            plan: |text, password, entry, size, out| {
            let mut copy = out.to_vec();
            if reference::plan(text, password, entry, size, &mut copy) == Ok(out.len()) {
                return Err(Refused::plain(13));
            }
            reference::plan(text, password, entry, size, out)
        }),
        wrong!("short output partly written", Plan, plan: |text, password, entry, size, out| {
            let answer = reference::plan(text, password, entry, size, out);
            if matches!(answer, Err(Refused { number: 13, .. })) {
                let head = out.len().min(5);
                out[..head].copy_from_slice(&reference::script::HEAD[..head]);
            }
            answer
        }),
        wrong!("passwords of 56 bytes filled up", Plan,
            plan: |text, password, entry, size, out| {
            let mut password = password.to_vec();
            if password.len() == 56 {
                password.resize(256, 0xFF);
            }
            reference::plan(text, &password, entry, size, out)
        }),
    ]
}
