//! Wrong checkers of T-09: slips in what becomes known, in what an unknown byte is, and in what is
//! counted, filled and judged of the lent memory.

use super::ran::{bits, command, unknown, Learn, Ran};
use super::Wrong;
use crate::implementation::{Implementation, REFERENCE};
use crate::inputs::lent::Lent;
use crate::run::Function;
use reference::loader::Command;
use std::ops::Range;

/// The right rule: an erase makes every byte known, and a write its range.
fn learn(known: &mut [bool], command: &Command) {
    match command {
        Command::Erase => known.fill(true),
        _ => mark(known, written(command)),
    }
}

/// The range of a write, and an empty one for any other command.
fn written(command: &Command) -> Range<usize> {
    match *command {
        Command::Write { address, data } => address..address + data.len(),
        _ => 0..0,
    }
}

/// Marks what of a range is inside the region.
fn mark(known: &mut [bool], range: Range<usize>) {
    let end = range.end.min(known.len());
    known[range.start.min(end)..end].fill(true);
}

/// The reference's checker with another rule of what a packet makes known.
macro_rules! wrong_learning {
    ($name:literal, $learn:expr) => {
        wrong_check!($name, |ran| {
            let learn: Learn = $learn;
            if ran.has_run() {
                ran.relearn(vec![false; ran.size], learn);
            }
        })
    };
}

/// The same with another range that a write marks.
macro_rules! wrong_range {
    ($name:literal, $range:expr) => {
        wrong_learning!($name, |known, command| {
            let range: fn(Range<usize>) -> Range<usize> = $range;
            match command {
                Command::Write { .. } => mark(known, range(written(command))),
                _ => learn(known, command),
            }
        })
    };
}

/// Writes that mark another range than theirs.
pub fn ranges() -> Vec<Wrong> {
    vec![
        wrong_range!("range marked one byte late", |range| {
            range.start + 1..range.end + 1
        }),
        wrong_range!("first byte of a write not marked", |range| {
            range.start + 1..range.end
        }),
        wrong_range!("last byte of a write not marked", |range| {
            range.start..range.end - 1
        }),
        wrong_range!("whole bytes of the bits marked", |range| {
            range.start / 8 * 8..range.end.next_multiple_of(8)
        }),
        wrong_range!("nothing marked behind a word of the bits", |range| {
            range.start..range.end.min((range.start + 1).next_multiple_of(64))
        }),
        // A write that succeeds over an unknown byte writes 0.
        wrong_range!("zero leaves an unknown byte unknown", |_| 0..0),
    ]
}

/// Other packets that make too much or too little known.
pub fn learnings() -> Vec<Wrong> {
    vec![
        wrong_learning!("marks of the same byte forgotten", |known, command| {
            let range = written(command);
            let bytes = range.start / 8 * 8..range.end.next_multiple_of(8);
            known[bytes].fill(false);
            learn(known, command);
        }),
        wrong_learning!("erase leaves each eighth byte unknown", |known, command| {
            match command {
                Command::Erase => known.chunks_mut(8).for_each(|eight| eight[..7].fill(true)),
                _ => learn(known, command),
            }
        }),
        wrong_learning!("erase makes nothing known", |known, command| {
            mark(known, written(command));
        }),
        wrong_learning!("range checksum makes its range known", |known, command| {
            match *command {
                Command::RangeChecksum { address, length } => {
                    mark(known, address..address + length);
                }
                _ => learn(known, command),
            }
        }),
    ]
}

/// Bits that begin wrong, or are set too early.
pub fn moments() -> Vec<Wrong> {
    vec![
        wrong_check!("lent bits not cleared", |ran| {
            if ran.has_run() {
                ran.relearn(bits(&ran.lent.known), learn);
            }
        }),
        wrong_check!("every byte known at first", |ran| {
            if ran.has_run() {
                ran.relearn(vec![true; ran.size], learn);
            }
        }),
        wrong_check!("refused write marks its range", |ran| {
            if let Some(place) = ran.refused(8) {
                let command = ran.frame(place).and_then(command);
                if let Some(command) = command.filter(|command| command.is_inside(ran.size)) {
                    let mut bits = bits(ran.known);
                    mark(&mut bits, written(&command));
                    ran.leave(&bits);
                }
            }
        }),
    ]
}

/// Slips in what an unknown byte is.
pub fn unknowns() -> Vec<Wrong> {
    vec![
        wrong_check!("unknown bytes stand as 0xFF", |ran| {
            if ran.has_run() {
                ran.region.copy_from_slice(&ran.ones());
            }
        }),
        wrong_check!("unknown bytes accept anything", |ran| {
            if let Some(place) = ran.refused(8) {
                if ran.succeeds_over(ran.ones(), place) {
                    ran.checked.packets += 1;
                    ran.refuse(12, ran.script.len());
                }
            }
        }),
        wrong_check!("unknown bytes compared as 0xFF", |ran| {
            if let Some(place) = ran.refused(10) {
                if ran.ones() == ran.picture() {
                    ran.refuse(8, place);
                }
            }
        }),
        wrong_check!("only the region compared", |ran| ran.start_over_unknown()),
    ]
}

/// Slips in how bits are written down and counted.
pub fn counts() -> Vec<Wrong> {
    vec![
        wrong_check!("bits high bit first", |ran| {
            if ran.has_run() {
                for byte in ran.known.iter_mut() {
                    *byte = byte.reverse_bits();
                }
            }
        }),
        wrong_check!("known bytes counted", |ran| {
            if ran.has_run() {
                ran.checked.unknown = ran.size - ran.checked.unknown;
            }
        }),
        wrong_check!("last word of the bits not counted", |ran| {
            if ran.has_run() {
                let counted = unknown(&bits(ran.known)[..ran.size - 64]);
                ran.checked.unknown = counted;
                if counted == 0 {
                    ran.start_over_unknown();
                }
            }
        }),
        wrong_check!("nothing counted where the script ends", |ran| {
            if ran.refused(7).or(ran.refused(12)).is_some() {
                ran.checked.unknown = 0;
            }
        }),
    ]
}

/// Memory that is filled too late or not left, or of refusals that must leave it alone.
pub fn memory() -> Vec<Wrong> {
    vec![
        wrong_check!("memory filled by the first packet", |ran| {
            if ran.has_run() && ran.checked.packets == 0 {
                ran.restore();
            }
        }),
        wrong_check!("memory left as lent at 8", |ran| {
            if ran.refused(8).is_some() {
                ran.restore();
            }
        }),
        wrong_check!("memory cleared by 1", |ran| {
            if ran.refused(1).is_some() {
                ran.clear();
            }
        }),
        wrong_check!("memory cleared by a refused text", |ran| {
            let text = ran.refused(3).or(ran.refused(4)).or(ran.refused(5));
            if text.is_some() {
                ran.clear();
            }
        }),
        wrong_check!("memory cleared by 6", |ran| {
            if ran.refused(6).is_some() {
                ran.clear();
            }
        }),
        wrong_check!("every byte unknown before the run", |ran| {
            if !ran.has_run() {
                ran.checked.unknown = ran.size;
            }
        }),
    ]
}

/// Lengths of lent memory that refusal 1 doesn't cover.
pub fn lengths() -> Vec<Wrong> {
    vec![
        wrong_check!("length of the region not judged", |ran| {
            if ran.refused(1).is_some() && ran.known.len() == ran.size / 8 {
                ran.check_anyway();
            }
        }),
        wrong_check!("length of the bits not judged", |ran| {
            if ran.refused(1).is_some() && ran.region.len() == ran.size {
                ran.check_anyway();
            }
        }),
        wrong_check!("more bits taken than an eighth", |ran| {
            let is_longer = ran.known.len() > ran.size / 8;
            if ran.refused(1).is_some() && ran.region.len() == ran.size && is_longer {
                ran.check_anyway();
            }
        }),
        wrong_check!("lengths judged by each other", |ran| {
            if ran.refused(1).is_some() && ran.region.len() == ran.known.len() * 8 {
                ran.check_anyway();
            }
        }),
    ]
}

#[cfg(test)]
mod tests {
    use super::*;
    use crate::compare::{self, Sides};
    use crate::inputs::scripts;
    use crate::listed;
    use crate::random::Random;

    /// With the right rule nothing is altered, so each wrong one is found for its own sake.
    #[test]
    fn the_right_rule_alters_nothing() {
        let right = wrong_learning!("the right rule", learn);
        let sides = Sides {
            left: &REFERENCE,
            right: &right.implementation,
        };
        let random = (0..1_000).map(|seed| scripts::check_input(&mut Random::new(seed)));
        for input in listed::claimed().chain(random) {
            compare::check(sides, &input).unwrap();
        }
    }
}
