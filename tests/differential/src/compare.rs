//! One comparison for each public function: both sides get the same input and equal lent memory,
//! and must agree in the answer, the state and every lent byte.

use crate::implementation::Implementation;
use crate::inputs::messages::World;
use crate::inputs::scripts::CheckInput;
use reference::{Mode, Refused, Replied, SensorRecord, START};
use std::fmt::{self, Debug, Display, Formatter};

/// What kind of answer both sides gave.
#[derive(Clone, Copy, Debug, PartialEq, Eq, PartialOrd, Ord)]
pub enum Class {
    Answered,
    Refusal(u8),
    /// A refusal of the checker that leaves some bytes unknown and others known.
    PartlyKnown(u8),
    /// One byte from the loader.
    Byte(u8),
    /// A message of the loader.
    Message(u8),
    Data,
    Started,
    /// A request answered in application mode.
    Request(u8),
    /// A message cut before its work, inside it, and behind all of it.
    CutBefore,
    CutInside,
    CutBehind,
    /// A card that a restart brings up.
    UpInApplication,
    UpLocked,
}

impl Display for Class {
    fn fmt(&self, f: &mut Formatter) -> fmt::Result {
        match self {
            Class::Answered => write!(f, "answered"),
            Class::Refusal(number) => write!(f, "refusal {number}"),
            Class::PartlyKnown(number) => write!(f, "refusal {number}, partly known"),
            Class::Byte(byte) => write!(f, "byte 0x{byte:02X}"),
            Class::Message(message) => write!(f, "message 0x{message:02X}"),
            Class::Data => write!(f, "data"),
            Class::Started => write!(f, "started"),
            Class::Request(code) => write!(f, "request 0x{code:02X}"),
            Class::CutBefore => write!(f, "cut before the work"),
            Class::CutInside => write!(f, "cut inside"),
            Class::CutBehind => write!(f, "cut behind"),
            Class::UpInApplication => write!(f, "up in application"),
            Class::UpLocked => write!(f, "up locked"),
        }
    }
}

/// A description of an input and of what differs.
pub type Difference = String;

/// The two sides of a comparison.
#[derive(Clone, Copy)]
pub struct Sides<'a> {
    pub left: &'a Implementation,
    pub right: &'a Implementation,
}

/// The checksum of bytes from a start, at once and continued behind a cut.
pub fn checksum(sides: Sides, start: u16, bytes: &[u8], cut: usize) -> Result<Class, Difference> {
    let input = || format!("start {start:04X}, bytes {}, cut {cut}", show(bytes));
    let right = (sides.right.checksum)(start, bytes);
    same(
        "checksum",
        (sides.left.checksum)(start, bytes),
        right,
        input,
    )?;
    let (first, second) = bytes.split_at(cut);
    let met = (sides.left.checksum)(start, first);
    let continued = (sides.left.checksum)(met, second);
    same("checksum continued", continued, right, input)?;
    Ok(Class::Answered)
}

pub fn joined(sides: Sides, first: u16, second: u16, count: u16) -> Result<Class, Difference> {
    let input = || format!("first {first:04X}, second {second:04X}, count {count}");
    let left = (sides.left.joined)(first, second, count);
    let right = (sides.right.joined)(first, second, count);
    same("joined checksum", left, right, input)?;
    Ok(Class::Answered)
}

/// The checksums of two parts joined are that of the joined bytes.
pub fn joined_parts(sides: Sides, bytes: &[u8], cut: usize) -> Result<Class, Difference> {
    let input = || format!("bytes {}, cut {cut}", show(bytes));
    let (front, back) = bytes.split_at(cut);
    let first = (sides.left.checksum)(START, front);
    let second = (sides.left.checksum)(START, back);
    let left = (sides.left.joined)(first, second, back.len() as u16);
    let whole = (sides.right.checksum)(START, bytes);
    same("checksum of joined bytes", left, whole, input)?;
    joined(sides, first, second, back.len() as u16)
}

pub fn total_power(sides: Sides, volts: u16, amps: u16) -> Result<Class, Difference> {
    let input = || format!("volts {volts}, amps {amps}");
    let left = (sides.left.total_power)(volts, amps);
    same("watts", left, (sides.right.total_power)(volts, amps), input)?;
    Ok(Class::Answered)
}

pub fn read(sides: Sides, text: &[u8], size: usize, region: &[u8]) -> Result<Class, Difference> {
    let input = || format!("text {}, size {size}, region {}", show(text), region.len());
    let (mut left_region, mut right_region) = (region.to_vec(), region.to_vec());
    let left = (sides.left.read)(text, size, &mut left_region);
    let right = (sides.right.read)(text, size, &mut right_region);
    same("answer", left, right, input)?;
    same_bytes("region", &left_region, &right_region, input)?;
    kept_if_refused(&left, &[("region", region, &left_region)], input)?;
    Ok(class(left))
}

pub fn plan(
    sides: Sides,
    text: &[u8],
    password: &[u8],
    entry: u32,
    size: usize,
    out: &[u8],
) -> Result<Class, Difference> {
    let input = || {
        let (text, password) = (show(text), show(password));
        format!(
            "text {text}, password {password}, entry {entry}, size {size}, output {}",
            out.len()
        )
    };
    let (mut left_out, mut right_out) = (out.to_vec(), out.to_vec());
    let left = (sides.left.plan)(text, password, entry, size, &mut left_out);
    let right = (sides.right.plan)(text, password, entry, size, &mut right_out);
    same("answer", left, right, input)?;
    same_bytes("output", &left_out, &right_out, input)?;
    kept_if_refused(&left, &[("output", out, &left_out)], input)?;
    Ok(class(left))
}

pub fn check(sides: Sides, given: &CheckInput) -> Result<Class, Difference> {
    let input = || given.to_string();
    let (left, left_lent) = given.checked_by(sides.left);
    let (right, right_lent) = given.checked_by(sides.right);
    same("answer", left, right, input)?;
    same_bytes("region", &left_lent.region, &right_lent.region, input)?;
    same_bytes("known bits", &left_lent.known, &right_lent.known, input)?;
    if !matches!(left.answer, Err(Refused { number: 7..=12, .. })) {
        let lent = [
            ("region", &given.lent.region[..], &left_lent.region[..]),
            ("known bits", &given.lent.known, &left_lent.known),
        ];
        kept_if_refused(&left.answer, &lent, input)?;
    }
    Ok(match left.answer {
        Err(refused) if (1..given.size).contains(&left.unknown) => {
            Class::PartlyKnown(refused.number)
        }
        answer => class(answer),
    })
}

/// One call; the world is left as both sides leave it.
pub fn call(
    sides: Sides,
    world: &mut World,
    message: &[u8],
    reply: &[u8],
) -> Result<Class, Difference> {
    let before = world.clone();
    let input = || {
        format!(
            "message {}, {before}, reply buffer {}",
            show(message),
            reply.len()
        )
    };
    let run = |side: &Implementation| {
        let (mut after, mut reply) = (before.clone(), reply.to_vec());
        let World {
            card,
            size,
            region,
            password,
        } = &mut after;
        let replied = (side.call)(card, *size, region, password, message, &mut reply);
        (replied, after, reply)
    };
    let (left, left_world, left_reply) = run(sides.left);
    let (right, right_world, right_reply) = run(sides.right);
    same("answer", left, right, input)?;
    same("card", left_world.card, right_world.card, input)?;
    same_bytes("region", &left_world.region, &right_world.region, input)?;
    same_bytes("reply buffer", &left_reply, &right_reply, input)?;
    if left.is_err() {
        same("card kept", left_world.card, before.card, input)?;
    }
    let lent = [
        ("region", &before.region[..], &left_world.region[..]),
        ("reply buffer", reply, &left_reply),
    ];
    kept_if_refused(&left, &lent, input)?;
    let mode = before.card.mode;
    *world = left_world;
    Ok(match left {
        Err(refused) => Class::Refusal(refused.number),
        Ok(_) if mode == Mode::Application => Class::Request(message[0]),
        Ok(replied) => loader_class(replied, &left_reply),
    })
}

fn loader_class(replied: Replied, reply: &[u8]) -> Class {
    match replied.count {
        0 => Class::Started,
        1 => Class::Byte(reply[0]),
        8 => Class::Message(reply[5]),
        _ => Class::Data,
    }
}

/// One cut; the world is left as both sides leave it.
pub fn cut(
    sides: Sides,
    world: &mut World,
    message: &[u8],
    place: usize,
) -> Result<Class, Difference> {
    let before = world.clone();
    let input = || format!("message {}, place {place}, {before}", show(message));
    let run = |side: &Implementation| {
        let mut after = before.clone();
        let World {
            card,
            size,
            region,
            password,
        } = &mut after;
        let cut = (side.cut)(card, *size, region, password, message, place);
        (cut, after)
    };
    let (left, left_world) = run(sides.left);
    let (right, right_world) = run(sides.right);
    same("answer", left, right, input)?;
    same("card", left_world.card, right_world.card, input)?;
    same_bytes("region", &left_world.region, &right_world.region, input)?;
    same("card kept", left_world.card, before.card, input)?;
    let lent = [("region", &before.region[..], &left_world.region[..])];
    kept_if_refused(&left, &lent, input)?;
    *world = left_world;
    Ok(match (left, place) {
        (Err(refused), _) => Class::Refusal(refused.number),
        (Ok(()), 0) => Class::CutBefore,
        (Ok(()), _) if place < work(&before, message) => Class::CutInside,
        (Ok(()), _) => Class::CutBehind,
    })
}

fn work(world: &World, message: &[u8]) -> usize {
    reference::work(&world.card, &world.region, &world.password, message)
}

/// One restart; the world is left as both sides leave it.
pub fn restart(sides: Sides, world: &mut World) -> Result<Class, Difference> {
    let before = world.clone();
    let input = || before.to_string();
    let run = |side: &Implementation| {
        let mut after = before.clone();
        let restarted = (side.restart)(&mut after.card, after.size, &after.region);
        (restarted, after)
    };
    let (left, left_world) = run(sides.left);
    let (right, right_world) = run(sides.right);
    same("answer", left, right, input)?;
    same("card", left_world.card, right_world.card, input)?;
    same_bytes("region", &left_world.region, &before.region, input)?;
    if left.is_err() {
        same("card kept", left_world.card, before.card, input)?;
    }
    *world = left_world;
    Ok(match (left, world.card.mode) {
        (Err(refused), _) => Class::Refusal(refused.number),
        (Ok(()), Mode::Application) => Class::UpInApplication,
        (Ok(()), _) => Class::UpLocked,
    })
}

pub fn read_record(sides: Sides, bytes: &[u8]) -> Result<Class, Difference> {
    let input = || show(bytes);
    let left = (sides.left.read_record)(bytes);
    same("answer", left, (sides.right.read_record)(bytes), input)?;
    Ok(class(left))
}

pub fn write_record(sides: Sides, record: &SensorRecord, out: &[u8]) -> Result<Class, Difference> {
    let input = || format!("{record:?}, output {}", out.len());
    let (mut left_out, mut right_out) = (out.to_vec(), out.to_vec());
    let left = (sides.left.write_record)(record, &mut left_out);
    let right = (sides.right.write_record)(record, &mut right_out);
    same("answer", left, right, input)?;
    same_bytes("output", &left_out, &right_out, input)?;
    kept_if_refused(&left, &[("output", out, &left_out)], input)?;
    Ok(class(left))
}

fn class<T>(answer: Result<T, Refused>) -> Class {
    match answer {
        Ok(_) => Class::Answered,
        Err(refused) => Class::Refusal(refused.number),
    }
}

fn same<T: PartialEq + Debug>(
    what: &str,
    left: T,
    right: T,
    input: impl Fn() -> String,
) -> Result<(), Difference> {
    if left == right {
        return Ok(());
    }
    Err(format!(
        "{what}: left {left:?}, right {right:?}; input: {}",
        input()
    ))
}

fn same_bytes(
    what: &str,
    left: &[u8],
    right: &[u8],
    input: impl Fn() -> String,
) -> Result<(), Difference> {
    if left == right {
        return Ok(());
    }
    let place = left.iter().zip(right).take_while(|(l, r)| l == r).count();
    Err(format!(
        "{what} at {place}: left {:02X?}, right {:02X?}; input: {}",
        left.get(place),
        right.get(place),
        input()
    ))
}

/// A refused call leaves what it was lent.
fn kept_if_refused<T>(
    answer: &Result<T, Refused>,
    lent: &[(&str, &[u8], &[u8])],
    input: impl Fn() -> String,
) -> Result<(), Difference> {
    if answer.is_ok() {
        return Ok(());
    }
    for (what, before, after) in lent {
        same_bytes(&format!("{what}, refused"), after, before, &input)?;
    }
    Ok(())
}

impl Display for CheckInput {
    fn fmt(&self, f: &mut Formatter) -> fmt::Result {
        write!(
            f,
            "script {}, text {}, password {}, expected {:04X}, size {}, region {}, known bits {}",
            show(&self.script),
            show(&self.text),
            show(&self.password),
            self.expected,
            self.size,
            self.lent.region.len(),
            self.lent.known.len()
        )
    }
}

impl Display for World {
    fn fmt(&self, f: &mut Formatter) -> fmt::Result {
        write!(
            f,
            "card {:?}, size {}, region {}, password {}",
            self.card,
            self.size,
            show(&self.region),
            show(&self.password)
        )
    }
}

/// Short byte strings whole, long ones by their ends and length.
fn show(bytes: &[u8]) -> String {
    const WHOLE: usize = 400;
    if bytes.len() <= WHOLE {
        return format!("\"{}\"", bytes.escape_ascii());
    }
    let (front, back) = (&bytes[..100], &bytes[bytes.len() - 60..]);
    format!(
        "({} bytes) \"{}\"...\"{}\"",
        bytes.len(),
        front.escape_ascii(),
        back.escape_ascii()
    )
}
