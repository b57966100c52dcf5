//! Cases by function and number: listed ones, and random ones each from its own seed.

use crate::accepted;
use crate::compare::{self, Class, Difference, Sides};
use crate::conversation;
use crate::demand3;
use crate::inputs::{lent, records, scripts, texts};
use crate::listed;
use crate::random::{mix, Random};
use crate::recovery;
use reference::START;
use std::collections::BTreeMap;
use std::fmt::{self, Display, Formatter};

/// The public functions.
#[derive(Clone, Copy, Debug, PartialEq, Eq, PartialOrd, Ord)]
pub enum Function {
    Checksum,
    Call,
    Read,
    Plan,
    Check,
    ReadRecord,
    WriteRecord,
    TotalPower,
    Cut,
    Restart,
    Joined,
}

impl Function {
    pub const ALL: [Function; 11] = [
        Function::Checksum,
        Function::Call,
        Function::Read,
        Function::Plan,
        Function::Check,
        Function::ReadRecord,
        Function::WriteRecord,
        Function::TotalPower,
        Function::Cut,
        Function::Restart,
        Function::Joined,
    ];

    pub fn name(self) -> &'static str {
        match self {
            Function::Checksum => "checksum",
            Function::Call => "call",
            Function::Read => "read",
            Function::Plan => "plan",
            Function::Check => "check",
            Function::ReadRecord => "read_record",
            Function::WriteRecord => "write_record",
            Function::TotalPower => "total_power",
            Function::Cut => "cut",
            Function::Restart => "restart",
            Function::Joined => "joined",
        }
    }

    pub fn named(name: &str) -> Option<Function> {
        Function::ALL.into_iter().find(|f| f.name() == name)
    }

    /// How many random cases the bounded run has.
    pub fn bounded(self) -> usize {
        match self {
            Function::Checksum => 20_000,
            Function::Call => 40_000,
            Function::Read => 40_000,
            Function::Plan => 30_000,
            Function::Check => 28_000,
            Function::ReadRecord => 200_000,
            Function::WriteRecord => 200_000,
            Function::TotalPower => 2_000_000,
            Function::Cut => 12_000,
            Function::Restart => 8_000,
            Function::Joined => 4_000,
        }
    }

    /// Its part of the longer run's time, in hundredths.
    pub fn part(self) -> u32 {
        match self {
            Function::Checksum => 4,
            Function::Call => 16,
            Function::Read => 16,
            Function::Plan => 13,
            Function::Check => 32,
            Function::ReadRecord => 3,
            Function::WriteRecord => 3,
            Function::TotalPower => 2,
            Function::Cut => 6,
            Function::Restart => 4,
            Function::Joined => 1,
        }
    }

    /// Every kind of answer that the function can give. Number 9 is unused since T-08.
    pub fn answers(self) -> Vec<Class> {
        let refusals: &[u8] = match self {
            Function::Checksum | Function::Joined | Function::TotalPower => &[],
            Function::Call => &[1, 2, 13, 15, 16, 17],
            Function::Read => &[1, 18, 3, 4, 5],
            Function::Plan => &[1, 2, 14, 18, 3, 4, 5, 13],
            Function::Check => &[1, 2, 18, 3, 4, 5, 6, 7, 10, 8, 11, 12],
            Function::ReadRecord => &[17],
            Function::WriteRecord => &[13, 17],
            Function::Cut => &[1, 2, 21],
            Function::Restart => &[1],
        };
        let others = match self {
            Function::Call => call_answers(),
            Function::Cut => vec![Class::CutBefore, Class::CutInside, Class::CutBehind],
            Function::Restart => vec![Class::UpInApplication, Class::UpLocked],
            Function::Check => check_answers(),
            _ => vec![Class::Answered],
        };
        let refusals = refusals.iter().map(|&number| Class::Refusal(number));
        refusals.chain(others).collect()
    }
}

/// A pass, and the refusals that can leave some bytes unknown and others known.
fn check_answers() -> Vec<Class> {
    let partly_known = [7, 10, 8, 12].map(Class::PartlyKnown);
    [&[Class::Answered], &partly_known[..]].concat()
}

/// The answers of a call that is not refused.
fn call_answers() -> Vec<Class> {
    let bytes = [0x01, 0x51, 0x52, 0x53, 0x54, 0x55].map(Class::Byte);
    let messages = [0x00, 0x01, 0x04, 0x05, 0x07].map(Class::Message);
    let requests = [0x02, 0x03, 0x04, 0x05, 0x0F, 0x20, 0x31, 0x32].map(Class::Request);
    let others = [Class::Data, Class::Started];
    bytes
        .into_iter()
        .chain(messages)
        .chain(requests)
        .chain(others)
        .collect()
}

/// One case: from a list, or made from a seed.
#[derive(Clone, Copy, Debug, PartialEq, Eq)]
pub enum Case {
    Listed(usize),
    Seed(u64),
}

impl Display for Case {
    fn fmt(&self, f: &mut Formatter) -> fmt::Result {
        match self {
            Case::Listed(index) => write!(f, "listed:{index}"),
            Case::Seed(seed) => write!(f, "seed:{seed}"),
        }
    }
}

/// The seed of a run's case.
pub fn case_seed(seed: u64, function: Function, index: usize) -> u64 {
    mix(mix(seed ^ ((function as u64) << 56)) ^ index as u64)
}

/// The bounded run's cases of one function.
pub fn bounded_cases(seed: u64, function: Function) -> impl Iterator<Item = Case> {
    let listed = (0..listed::count(function)).map(Case::Listed);
    let random = (0..function.bounded()).map(move |index| case_seed(seed, function, index));
    listed.chain(random.map(Case::Seed))
}

/// Tries one case and answers the kinds of answer seen.
pub fn try_case(sides: Sides, function: Function, case: Case) -> Result<Vec<Class>, Difference> {
    match case {
        Case::Listed(index) => listed::try_listed(sides, function, index),
        Case::Seed(seed) => try_random(sides, function, &mut Random::new(seed)),
    }
}

fn try_random(
    sides: Sides,
    function: Function,
    random: &mut Random,
) -> Result<Vec<Class>, Difference> {
    let class = match function {
        Function::Call => return conversation::calls(sides, random),
        Function::Cut | Function::Restart => {
            return conversation::with_cuts(sides, random, function);
        }
        Function::Checksum => random_checksum(sides, random)?,
        Function::Joined => random_joined(sides, random)?,
        Function::Read => random_read(sides, random)?,
        Function::Plan => random_plan(sides, random)?,
        Function::Check => random_check(sides, random)?,
        Function::ReadRecord => compare::read_record(sides, &records::bytes(random))?,
        Function::WriteRecord => {
            compare::write_record(sides, &records::any(random), &records::output(random))?
        }
        Function::TotalPower => {
            compare::total_power(sides, random.number() as u16, random.number() as u16)?
        }
    };
    Ok(vec![class])
}

/// The papers' start, and others; any cut, nothing before it or behind it too.
fn random_checksum(sides: Sides, random: &mut Random) -> Result<Class, Difference> {
    let any = random.number() as u16;
    let start = random.pick(&[START, START, 0, any, any]);
    let length = random.pick(&[0, 1, 2, 7, 64, 261, 4_096, 5_000]);
    let length = random.below(length + 1);
    let bytes = random.bytes(length);
    let cut = random.below(length + 1);
    compare::checksum(sides, start, &bytes, random.pick(&[0, cut, cut, length]))
}

/// Any two checksums and any count, and those of two parts.
fn random_joined(sides: Sides, random: &mut Random) -> Result<Class, Difference> {
    let most = random.pick(&[2, 300, 300, 5_000, 65_535]);
    let count = random.below(most + 1);
    if random.coin() {
        let sums = random.number();
        return compare::joined(sides, sums as u16, (sums >> 16) as u16, count as u16);
    }
    let front = random.pick(&[0, 1, 300, 5_000]);
    let front = random.below(front + 1);
    compare::joined_parts(sides, &random.bytes(front + count), front)
}

fn random_read(sides: Sides, random: &mut Random) -> Result<Class, Difference> {
    let odds = lent::odds(random);
    let good = lent::good_size(random);
    let text = texts::any(random, good);
    let size = lent::size(random, good, odds);
    let region = lent::region(random, size, odds);
    compare::read(sides, &text, size, &region)
}

fn random_plan(sides: Sides, random: &mut Random) -> Result<Class, Difference> {
    let odds = lent::odds(random);
    let good = lent::good_size(random);
    let text = texts::any(random, good);
    let size = lent::size(random, good, odds);
    let password = lent::password(random, odds);
    let entry = if random.once_in(odds.min(20)) {
        random.pick(&[good, good + 1, u32::MAX as usize, 1 << 31])
    } else if random.once_in(8) {
        random.pick(&[0, good - 1])
    } else {
        random.below(good)
    };
    let out = planner_output(random, &text, good);
    compare::plan(sides, &text, &password, entry as u32, size, &out)
}

/// An output that is exactly long enough, longer, one short or far too short.
fn planner_output(random: &mut Random, text: &[u8], size: usize) -> Vec<u8> {
    let needed = match reference::text::image(text, size) {
        Ok(segments) => {
            let block = reference::planner::BLOCK;
            reference::planner::script(&segments, &[0; 256], 0, block).len()
        }
        Err(_) => 300,
    };
    let length = match random.below(8) {
        0..=2 => needed,
        3..=5 => needed + random.between(1, 300),
        6 => needed - 1,
        _ => random.below(needed),
    };
    random.bytes(length)
}

/// The checker, and with small regions demand 3 and what T-08 claims by the loader's own calls;
/// then, for a script that passes, what T-07 claims of it.
fn random_check(sides: Sides, random: &mut Random) -> Result<Class, Difference> {
    let input = scripts::check_input(random);
    let class = compare::check(sides, &input)?;
    if input.size <= 8_192 {
        demand3::holds(sides.left, &input, random)?;
        accepted::holds(sides.left, &input, accepted::PREMISES)?;
        if class == Class::Answered {
            recovery::holds(sides.left, &input, random, recovery::STEPS)?;
        }
    }
    Ok(class)
}

/// What came of the cases tried so far.
#[derive(Default)]
pub struct Tally {
    pub inputs: usize,
    pub answers: BTreeMap<Class, usize>,
    pub differences: usize,
    pub first: Option<String>,
}

impl Tally {
    /// Tries one case and counts it.
    pub fn add(&mut self, sides: Sides, function: Function, case: Case) {
        match try_case(sides, function, case) {
            Ok(classes) => {
                self.inputs += classes.len();
                for class in classes {
                    *self.answers.entry(class).or_default() += 1;
                }
            }
            Err(difference) => {
                self.inputs += 1;
                self.differences += 1;
                let name = function.name();
                self.first
                    .get_or_insert_with(|| format!("--case {name}:{case}: {difference}"));
            }
        }
    }

    /// The answers that the function can give and did not.
    pub fn missing(&self, function: Function) -> Vec<Class> {
        let mut answers = function.answers();
        answers.retain(|class| !self.answers.contains_key(class));
        answers
    }

    pub fn report(&self, function: Function) -> String {
        let answers: Vec<String> = self
            .answers
            .iter()
            .map(|(class, count)| format!("{class}: {count}"))
            .collect();
        let first = match &self.first {
            Some(first) => format!("\n    first difference {first}"),
            None => String::new(),
        };
        format!(
            "{:<12} {:>9} inputs, {} differences; {}{first}",
            function.name(),
            self.inputs,
            self.differences,
            answers.join(", ")
        )
    }
}

#[cfg(test)]
mod tests {
    use super::*;
    use crate::implementation::{Implementation, REFERENCE};

    /// The framework finds nothing between equal sides, and names the first case that differs.
    #[test]
    fn tally() {
        let wrong = Implementation {
            total_power: |_, _| 7,
            ..REFERENCE
        };
        let mut tally = Tally::default();
        let function = Function::TotalPower;
        let same = Sides {
            left: &REFERENCE,
            right: &REFERENCE,
        };
        tally.add(same, function, Case::Seed(1));
        assert_eq!((tally.inputs, tally.differences), (1, 0));
        let other = Sides {
            left: &REFERENCE,
            right: &wrong,
        };
        tally.add(other, function, Case::Seed(2));
        tally.add(other, function, Case::Seed(3));
        assert_eq!((tally.inputs, tally.differences), (3, 2));
        let first = tally.first.unwrap();
        assert!(first.starts_with("--case total_power:seed:2: watts"));
    }
}
