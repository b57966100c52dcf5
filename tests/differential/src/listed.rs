//! Listed cases: small sets taken whole, and lengths at the limits.

use crate::accepted;
use crate::compare::{self, Class, Difference, Sides};
use crate::in_two;
use crate::inputs::messages::World;
use crate::inputs::records::{fields, Field};
use crate::inputs::scripts::{long_script, short_script, CheckInput, Ending, SHORT_SCRIPTS};
use crate::inputs::{records, regions, texts};
use crate::random::Random;
use crate::run::Function;
use reference::record::encode;
use reference::refusal::{LONGEST_SCRIPT, LONGEST_TEXT};
use reference::{checksum, packet, Card, Mode, SensorRecord, START};

/// The symbols of which all short texts are made.
const SYMBOLS: &[u8; 8] = b"@0bq \r\nG";
/// The number of texts of at most five symbols.
const SHORT_TEXTS: usize = 1 + 8 + 64 + 512 + 4_096 + 32_768;
const PREFIXES: [&[u8]; 6] = [
    b"",
    b"@0\n",
    b"@0\n00",
    b"@000000",
    b"@0\n00 01 02 03 04 05 06 07 08 09 0a 0b 0c 0d 0e",
    b"@ffe\n00",
];
/// The strings of no, one and two bytes.
const SHORT_STRINGS: usize = 1 + 256 + 65_536;
/// The lengths of which a checksum is listed: as many as some blocks of 256 bytes have, and what may be left behind them.
const LENGTHS: usize = 1_200;
/// Every value of one byte at every place of two blocks.
const ONE_SET: usize = 512 * 256;
/// How many numbers of bytes joined behind others are listed.
const JOINED: usize = 2_000 + 16;
const LIMIT_TEXTS: usize = 8;
const LIMIT_SCRIPTS: usize = 5;
const ONE_BYTE: usize = 3 * 256;
const TWO_BYTES: usize = 3 * 256 * 4;
const HEADERS: usize = 512 * 2;
const MODES: [Mode; 3] = [Mode::Application, Mode::Locked, Mode::Unlocked];
const SMALL_SIZES: [usize; 2] = [4_096, 8_192];
/// Every mode with every small size.
const SMALL_WORLDS: usize = MODES.len() * SMALL_SIZES.len();
/// The places of a full write and of an erase of one or two blocks, and one or two beyond.
const WRITE_PLACES: usize = 258;
const ERASE_PLACES: usize = 4;
/// The expected checksums before a restart: the region's, none of its bits, and each bit wrong.
const SUMS: usize = 18;

/// How many listed cases a function has.
pub fn count(function: Function) -> usize {
    match function {
        Function::Checksum => SHORT_STRINGS + 65_536 + LENGTHS + ONE_SET + 65_536,
        Function::Joined => JOINED,
        Function::Call => ONE_BYTE + TWO_BYTES + HEADERS,
        Function::Read => LIMIT_TEXTS + PREFIXES.len() * SHORT_TEXTS,
        Function::Plan => LIMIT_TEXTS,
        Function::Check => CHECKS.iter().map(|kind| kind.count).sum(),
        Function::ReadRecord => 2 * 512 + 64 * 256 + 130,
        Function::WriteRecord => field_count() * 256 + 130,
        Function::TotalPower => 65_536,
        Function::Cut => SMALL_WORLDS * (WRITE_PLACES + ERASE_PLACES),
        Function::Restart => SMALL_WORLDS * SUMS,
    }
}

/// Tries the listed case of this index.
pub fn try_listed(
    sides: Sides,
    function: Function,
    index: usize,
) -> Result<Vec<Class>, Difference> {
    let class = match function {
        Function::Checksum => checksum_from(sides, index)?,
        Function::Joined => {
            let sums = Random::new(index as u64).number();
            let (first, second) = (sums as u16, (sums >> 16) as u16);
            compare::joined(sides, first, second, joined_count(index))?
        }
        Function::Call => call(sides, index)?,
        Function::Read => {
            let text = text(index);
            let region = Random::new(index as u64).bytes(4_096);
            compare::read(sides, &text, 4_096, &region)?
        }
        Function::Plan => {
            let out = Random::new(index as u64).bytes(300);
            compare::plan(sides, &limit_text(index), &[7; 256], 0, 4_096, &out)?
        }
        Function::Check => check(sides, index)?,
        Function::ReadRecord => compare::read_record(sides, &record_bytes(index))?,
        Function::WriteRecord => write_record(sides, index)?,
        Function::TotalPower => compare::total_power(sides, index as u16, !(index as u16) | 255)?,
        Function::Cut => cut(sides, index)?,
        Function::Restart => restart(sides, index)?,
    };
    Ok(vec![class])
}

/// Every short string from the papers' start, then every start over a few bytes.
fn checksum_from(sides: Sides, index: usize) -> Result<Class, Difference> {
    if index < SHORT_STRINGS {
        let bytes = short_bytes(index);
        return compare::checksum(sides, START, &bytes, index % (bytes.len() + 1));
    }
    let index = index - SHORT_STRINGS;
    if index < 65_536 {
        let bytes = Random::new(index as u64).bytes(index % 7);
        return compare::checksum(sides, index as u16, &bytes, index / 7 % (bytes.len() + 1));
    }
    blocks_from(sides, index - 65_536)
}

/// Checksums for which an implementation may take many bytes at once (T-05): every length, every value at every place, and
/// every register over a block of zeros.
fn blocks_from(sides: Sides, index: usize) -> Result<Class, Difference> {
    let random = &mut Random::new(index as u64);
    if index < LENGTHS {
        let (start, bytes) = (random.number() as u16, random.bytes(index));
        return compare::checksum(sides, start, &bytes, index / 2);
    }
    let index = index - LENGTHS;
    if index < ONE_SET {
        let mut bytes = vec![0; 512];
        bytes[index / 256] = index as u8;
        return compare::checksum(sides, 0, &bytes, index / 256);
    }
    compare::checksum(sides, (index - ONE_SET) as u16, &[0; 256], 64)
}

/// Every small number of bytes, then great ones.
fn joined_count(index: usize) -> u16 {
    match index {
        0..2_000 => index as u16,
        _ => u16::MAX - (index as u16 - 2_000) * 4_096,
    }
}

/// All strings of no, one and two bytes.
fn short_bytes(index: usize) -> Vec<u8> {
    match index {
        0 => Vec::new(),
        1..=256 => vec![(index - 1) as u8],
        _ => ((index - 257) as u16).to_le_bytes().to_vec(),
    }
}

fn text(index: usize) -> Vec<u8> {
    if index < LIMIT_TEXTS {
        return limit_text(index);
    }
    let index = index - LIMIT_TEXTS;
    let prefix = PREFIXES[index / SHORT_TEXTS];
    [prefix, &short_text(index % SHORT_TEXTS)].concat()
}

/// All texts of at most five symbols, the shorter first.
fn short_text(mut index: usize) -> Vec<u8> {
    let mut length = 0;
    while index >= SYMBOLS.len().pow(length) {
        index -= SYMBOLS.len().pow(length);
        length += 1;
    }
    (0..length)
        .map(|place| SYMBOLS[index / SYMBOLS.len().pow(place) % SYMBOLS.len()])
        .collect()
}

/// Texts at the limit of their length: sound, malformed and unsound.
fn limit_text(index: usize) -> Vec<u8> {
    let end: &[u8] = match index % 4 {
        0 => b"@0\n00 01\nq\n",
        1 => b"@0\n00 01\nQ\n",
        2 => b"@fff\n00 01\nq\n",
        _ => b"@0\n00 01\n@1\n01\nq\n",
    };
    texts::lengthened(end, LONGEST_TEXT + index / 4)
}

/// One kind of input of the checker.
struct CheckKind {
    count: usize,
    input: fn(usize) -> CheckInput,
    /// Whether what T-08 and T-09 claim is tried too.
    is_claimed: bool,
}

impl CheckKind {
    const fn claimed(count: usize, input: fn(usize) -> CheckInput) -> CheckKind {
        CheckKind {
            count,
            input,
            is_claimed: true,
        }
    }

    const fn compared(count: usize, input: fn(usize) -> CheckInput) -> CheckKind {
        CheckKind {
            count,
            input,
            is_claimed: false,
        }
    }
}

/// The kinds, those first that find most of the wrong references.
const CHECKS: [CheckKind; 7] = [
    CheckKind::claimed(regions::EARLY, regions::early),
    CheckKind::claimed(regions::BEFORE_THE_RUN, regions::before_the_run),
    CheckKind::claimed(SHORT_SCRIPTS, short_script),
    CheckKind::compared(regions::LENT_LENGTHS, regions::lent_length),
    CheckKind::claimed(regions::AROUND_HOLES, regions::around_a_hole),
    CheckKind::compared(LIMIT_SCRIPTS + LIMIT_TEXTS, limit_check),
    CheckKind::claimed(regions::AROUND_WRITES, regions::around_a_write),
];

/// The inputs of which T-08 and T-09 make their claims.
pub fn claimed() -> impl Iterator<Item = CheckInput> {
    let kinds = CHECKS.iter().filter(|kind| kind.is_claimed);
    kinds.flat_map(|kind| (0..kind.count).map(kind.input))
}

/// The input of this index, and its kind.
fn check_input(mut index: usize) -> (CheckInput, &'static CheckKind) {
    for kind in &CHECKS {
        match index.checked_sub(kind.count) {
            None => return ((kind.input)(index), kind),
            Some(behind) => index = behind,
        }
    }
    unreachable!("an index below the number of the listed cases")
}

fn check(sides: Sides, index: usize) -> Result<Class, Difference> {
    let (input, kind) = check_input(index);
    let class = compare::check(sides, &input)?;
    if kind.is_claimed {
        in_two::holds(sides.left, &input)?;
        accepted::holds(sides.left, &input, accepted::PREMISES)?;
    }
    Ok(class)
}

/// Scripts at the limit of their length, and a short one with each of the longest texts.
fn limit_check(index: usize) -> CheckInput {
    let mut random = Random::new(index as u64);
    if index >= LIMIT_SCRIPTS {
        let text = limit_text(index - LIMIT_SCRIPTS);
        return CheckInput {
            text,
            ..long_script(&mut random, 1_000, Ending::Passing)
        };
    }
    let (length, ending) = [
        (LONGEST_SCRIPT, Ending::Passing),
        (LONGEST_SCRIPT + 1, Ending::Passing),
        (LONGEST_SCRIPT, Ending::Cut),
        (LONGEST_SCRIPT - 1, Ending::Longer),
        (LONGEST_SCRIPT, Ending::Longer),
    ][index];
    long_script(&mut random, length, ending)
}

/// Short messages in every mode, and three-byte heads of packets.
fn call(sides: Sides, index: usize) -> Result<Class, Difference> {
    let (mode, message) = if index < ONE_BYTE {
        (MODES[index / 256], vec![index as u8])
    } else if index < ONE_BYTE + TWO_BYTES {
        let index = index - ONE_BYTE;
        (
            MODES[index / 1_024],
            vec![(index / 4) as u8, (index % 4) as u8],
        )
    } else {
        let index = index - ONE_BYTE - TWO_BYTES;
        let [low, high] = ((index / 2) as u16).to_le_bytes();
        (MODES[1 + index % 2], vec![0x80, low, high])
    };
    let mut random = Random::new(index as u64);
    let mut world = world(&mut random, mode, 4_096);
    compare::call(sides, &mut world, &message, &random.bytes(64))
}

fn world(random: &mut Random, mode: Mode, size: usize) -> World {
    World {
        card: Card {
            mode,
            expected: 0x1234,
            version: [6, 2, 11],
            record: records::any(random),
        },
        size,
        region: random.bytes(size),
        password: random.bytes(256),
    }
}

fn small_world(random: &mut Random, index: usize) -> World {
    let size = SMALL_SIZES[index % SMALL_SIZES.len()];
    world(random, MODES[index / SMALL_SIZES.len()], size)
}

/// Every place of a full write at the region's end and of an erase.
fn cut(sides: Sides, index: usize) -> Result<Class, Difference> {
    let mut random = Random::new(index as u64);
    let mut world = small_world(&mut random, index % SMALL_WORLDS);
    let place = index / SMALL_WORLDS;
    if place >= WRITE_PLACES {
        let erase = packet::erase();
        return compare::cut(sides, &mut world, &erase, place - WRITE_PLACES);
    }
    let address = world.size - 256;
    let mut data = random.bytes(256);
    for (new, old) in data.iter_mut().zip(&world.region[address..]) {
        *new &= old;
    }
    let write = packet::write(address as u32, &data);
    compare::cut(sides, &mut world, &write, place)
}

/// The region's checksum expected, and others that are like it.
fn restart(sides: Sides, index: usize) -> Result<Class, Difference> {
    let mut world = small_world(&mut Random::new(index as u64), index % SMALL_WORLDS);
    let sum = checksum(START, &world.region);
    world.card.expected = match index / SMALL_WORLDS {
        0 => sum,
        1 => !sum,
        bit => sum ^ (1 << (bit - 2)),
    };
    compare::restart(sides, &mut world)
}

/// Each bit over zeros and over a sound record, each byte with each value, and each length.
fn record_bytes(index: usize) -> Vec<u8> {
    let mut random = Random::new(index as u64);
    let mut bytes = vec![0; 64];
    match index {
        0..512 => bytes[index / 8] = 1 << (index % 8),
        512..1_024 => {
            bytes = encode(&records::sound(&mut random)).to_vec();
            let bit = index - 512;
            bytes[bit / 8] ^= 1 << (bit % 8);
        }
        1_024..17_408 => bytes[(index - 1_024) / 256] = index as u8,
        _ => bytes.resize(index - 17_408, 0),
    }
    bytes
}

fn field_count() -> usize {
    fields(&mut SensorRecord::default()).len()
}

/// Each field with 256 values over zeros, and each length of output.
fn write_record(sides: Sides, index: usize) -> Result<Class, Difference> {
    let mut random = Random::new(index as u64);
    let mut record = SensorRecord::default();
    if index >= field_count() * 256 {
        let length = index - field_count() * 256;
        return compare::write_record(sides, &record, &random.bytes(length));
    }
    let value = index as u8;
    match fields(&mut record).swap_remove(index / 256) {
        Field::Bits(place, ..) => *place = value,
        Field::Temperature(place, _) => *place = value as i8,
        Field::Word(place, _) => *place = u16::from(value).rotate_left(index as u32 % 3 * 4),
        Field::Long(place, _) => *place = u32::from(value).rotate_left(index as u32 % 4 * 8),
    }
    compare::write_record(sides, &record, &random.bytes(70))
}
