//! Safe calls of the proved functions in `libzlatopysk.a`, in Rust's terms: the papers' answers as values, and lent
//! memory as slices. Every function takes any input, keeps no state, and changes nothing where it refuses, if its
//! comment does not say otherwise. What each answers and leaves is proved; what this crate does is to pass it on.

mod record;

pub use record::{
    BoardSensors, BoardStatus, Device, DeviceStatus, ErrorCounters, FlashControl, InputSensor,
    ModuleStatus, NetworkModule, SecurityStatus, SensorRecord,
};

/// The library's own interface, as `bindings/c/zlatopysk.h` has it: a slice is a pointer and a length.
mod library {
    use crate::record::LENGTH;

    extern "C" {
        pub fn zlatopysk_checksum(start: u16, bytes: *const u8, n: usize) -> u16;

        pub fn zlatopysk_joined(first: u16, second: u16, count: u16) -> u16;

        pub fn zlatopysk_read(
            text: *const u8,
            text_n: usize,
            size: usize,
            region: *mut u8,
            region_n: usize,
            answer: *mut [u64; 3],
        );

        pub fn zlatopysk_plan(
            text: *const u8,
            text_n: usize,
            password: *const u8,
            password_n: usize,
            entry: u32,
            size: usize,
            out: *mut u8,
            out_n: usize,
            answer: *mut [u64; 3],
        );

        pub fn zlatopysk_check(
            script: *const u8,
            script_n: usize,
            text: *const u8,
            text_n: usize,
            password: *const u8,
            password_n: usize,
            expected: u16,
            size: usize,
            region: *mut u8,
            region_n: usize,
            known: *mut u8,
            known_n: usize,
            checked: *mut [u64; 4],
        );

        pub fn zlatopysk_call(
            mode: u8,
            expected: u16,
            version: *const [u8; 3],
            record: *const [u8; LENGTH],
            size: usize,
            region: *mut u8,
            region_n: usize,
            password: *const u8,
            password_n: usize,
            message: *const u8,
            message_n: usize,
            reply: *mut u8,
            reply_n: usize,
            called: *mut [u64; 4],
        );

        pub fn zlatopysk_cut(
            mode: u8,
            expected: u16,
            version: *const [u8; 3],
            record: *const [u8; LENGTH],
            size: usize,
            region: *mut u8,
            region_n: usize,
            password: *const u8,
            password_n: usize,
            message: *const u8,
            message_n: usize,
            place: usize,
            answer: *mut [u64; 3],
        );

        pub fn zlatopysk_restart(
            mode: u8,
            expected: u16,
            version: *const [u8; 3],
            record: *const [u8; LENGTH],
            size: usize,
            region: *const u8,
            region_n: usize,
            restarted: *mut [u64; 2],
        );

        pub fn zlatopysk_read_record(
            bytes: *const u8,
            n: usize,
            record: *mut [u8; LENGTH],
            answer: *mut [u64; 3],
        );

        pub fn zlatopysk_write_record(
            record: *const [u8; LENGTH],
            out: *mut u8,
            out_n: usize,
            answer: *mut [u64; 3],
        );

        pub fn zlatopysk_total_power(volts: u16, amps: u16) -> u16;
    }
}

/// A refusal of documents 01 and 02: its number, and its place (0 where the papers name none). Number 9 is unused.
#[derive(Clone, Copy, Debug, PartialEq, Eq)]
pub struct Refused {
    pub number: u8,
    pub place: usize,
}

/// What the checker answers: `Ok` on pass; the number of packets that succeeded; and that of the bytes still unknown at
/// the end of the run, 0 on pass and for a refusal other than 7 to 12.
#[derive(Clone, Copy, Debug, PartialEq, Eq)]
pub struct Checked {
    pub answer: Result<(), Refused>,
    pub packets: usize,
    pub unknown: usize,
}

/// The mode of a card.
#[derive(Clone, Copy, Debug, PartialEq, Eq)]
pub enum Mode {
    Application,
    Locked,
    Unlocked,
}

impl Mode {
    fn number(self) -> u8 {
        match self {
            Mode::Application => 0,
            Mode::Locked => 1,
            Mode::Unlocked => 2,
        }
    }

    fn of(number: u64) -> Mode {
        match number {
            0 => Mode::Application,
            1 => Mode::Locked,
            _ => Mode::Unlocked,
        }
    }
}

/// A card's state. `version` is xx, yy, zz of the version xx.yy.zz.
#[derive(Clone, Copy, Debug, PartialEq, Eq)]
pub struct Card {
    pub mode: Mode,
    pub expected: u16,
    pub version: [u8; 3],
    pub record: SensorRecord,
}

/// A reply: how many bytes it has over the front of the lent buffer, and whether it is document 01's success.
#[derive(Clone, Copy, Debug, PartialEq, Eq)]
pub struct Replied {
    pub count: usize,
    pub success: bool,
}

/// The count of an answer, or its refusal. No refusal has the number 0.
fn answered([refusal, place, count]: [u64; 3]) -> Result<usize, Refused> {
    match refusal {
        0 => Ok(count as usize),
        _ => Err(Refused {
            number: refusal as u8,
            place: place as usize,
        }),
    }
}

/// The register that every checksum of the papers starts from.
pub const CHECKSUM_START: u16 = 0xFFFF;

/// The register of CRC16-CCITT from a start over bytes. With the start `CHECKSUM_START` it is their checksum; with the
/// register over earlier bytes it is the register over the earlier bytes and these behind them.
pub fn checksum(start: u16, bytes: &[u8]) -> u16 {
    // SAFETY: the pointer and the length are those of a slice, which the library reads.
    unsafe { library::zlatopysk_checksum(start, bytes.as_ptr(), bytes.len()) }
}

/// The checksum of joined bytes, from the checksums of the two parts, both from `CHECKSUM_START`, and the number of the
/// second part's bytes. So a card's range checksums of ranges that adjoin are put together, if nobody writes its region
/// meanwhile: beginning with `CHECKSUM_START`, the checksum of no bytes, each reply is joined behind those before it.
pub fn joined(first: u16, second: u16, count: u16) -> u16 {
    // SAFETY: numbers alone are passed.
    unsafe { library::zlatopysk_joined(first, second, count) }
}

/// Fills the region, which has to be `size` long, with the picture of the text.
pub fn read(text: &[u8], size: usize, region: &mut [u8]) -> Result<(), Refused> {
    let mut answer = [0; 3];
    // SAFETY: each pointer and length are those of a slice; `region` and `answer` are lent to this call alone.
    unsafe {
        library::zlatopysk_read(
            text.as_ptr(),
            text.len(),
            size,
            region.as_mut_ptr(),
            region.len(),
            &mut answer,
        );
    }
    answered(answer).map(|_| ())
}

/// Writes the script that puts the text into a card over the front of the output; answers the script's length.
pub fn plan(
    text: &[u8],
    password: &[u8],
    entry: u32,
    size: usize,
    out: &mut [u8],
) -> Result<usize, Refused> {
    let mut answer = [0; 3];
    // SAFETY: each pointer and length are those of a slice; `out` and `answer` are lent to this call alone.
    unsafe {
        library::zlatopysk_plan(
            text.as_ptr(),
            text.len(),
            password.as_ptr(),
            password.len(),
            entry,
            size,
            out.as_mut_ptr(),
            out.len(),
            &mut answer,
        );
    }
    answered(answer)
}

/// Says whether the script puts the text's image into every card, whatever its flash held before. It runs the script in
/// the region, of `size` bytes, and keeps a bit for each of them in `known`, of `size / 8` bytes, the low bit of each byte
/// first: 1 where the byte is known whatever the flash held. An unknown byte stands as 0. Refusals 7 to 12 and a pass
/// leave in both what the packets that succeeded left, and on pass every bit is 1; the other refusals change neither.
pub fn check(
    script: &[u8],
    text: &[u8],
    password: &[u8],
    expected: u16,
    size: usize,
    region: &mut [u8],
    known: &mut [u8],
) -> Checked {
    let mut checked = [0; 4];
    // SAFETY: each pointer and length are those of a slice; `region`, `known` and `checked` are lent to this call alone.
    unsafe {
        library::zlatopysk_check(
            script.as_ptr(),
            script.len(),
            text.as_ptr(),
            text.len(),
            password.as_ptr(),
            password.len(),
            expected,
            size,
            region.as_mut_ptr(),
            region.len(),
            known.as_mut_ptr(),
            known.len(),
            &mut checked,
        );
    }
    let [refusal, place, packets, unknown] = checked;
    Checked {
        answer: answered([refusal, place, 0]).map(|_| ()),
        packets: packets as usize,
        unknown: unknown as usize,
    }
}

/// One message to a card, whose flash is the region: the reply stands over the front of the lent buffer, and the
/// card's mode is the one behind it. No other part of the state changes.
pub fn call(
    card: &mut Card,
    size: usize,
    region: &mut [u8],
    password: &[u8],
    message: &[u8],
    reply: &mut [u8],
) -> Result<Replied, Refused> {
    let values = record::bytes(&card.record);
    let mut called = [0; 4];
    // SAFETY: each pointer and length are those of a slice or an array of the length that the library expects;
    // `region`, `reply` and `called` are lent to this call alone.
    unsafe {
        library::zlatopysk_call(
            card.mode.number(),
            card.expected,
            &card.version,
            &values,
            size,
            region.as_mut_ptr(),
            region.len(),
            password.as_ptr(),
            password.len(),
            message.as_ptr(),
            message.len(),
            reply.as_mut_ptr(),
            reply.len(),
            &mut called,
        );
    }
    let [refusal, count, success, mode] = called;
    card.mode = Mode::of(mode);
    let count = answered([refusal, 0, count])?;
    Ok(Replied {
        count,
        success: success != 0,
    })
}

/// A message to a card that loses its mains at a place of the message's work: the region is left with a write's first
/// `place` new bytes or an erase's first `place` blocks of 4,096 bytes, and else as it was. The restart settles the
/// mode.
pub fn cut(
    card: &Card,
    size: usize,
    region: &mut [u8],
    password: &[u8],
    message: &[u8],
    place: usize,
) -> Result<(), Refused> {
    let values = record::bytes(&card.record);
    let mut answer = [0; 3];
    // SAFETY: each pointer and length are those of a slice or an array of the length that the library expects;
    // `region` and `answer` are lent to this call alone.
    unsafe {
        library::zlatopysk_cut(
            card.mode.number(),
            card.expected,
            &card.version,
            &values,
            size,
            region.as_mut_ptr(),
            region.len(),
            password.as_ptr(),
            password.len(),
            message.as_ptr(),
            message.len(),
            place,
            &mut answer,
        );
    }
    answered(answer).map(|_| ())
}

/// The mains come back: the card comes up in application if the region's checksum is the expected one, else locked. No
/// other part of the state changes.
pub fn restart(card: &mut Card, size: usize, region: &[u8]) -> Result<(), Refused> {
    let values = record::bytes(&card.record);
    let mut restarted = [0; 2];
    // SAFETY: each pointer and length are those of a slice or an array of the length that the library expects;
    // `restarted` is lent to this call alone.
    unsafe {
        library::zlatopysk_restart(
            card.mode.number(),
            card.expected,
            &card.version,
            &values,
            size,
            region.as_ptr(),
            region.len(),
            &mut restarted,
        );
    }
    let [refusal, mode] = restarted;
    card.mode = Mode::of(mode);
    answered([refusal, 0, 0]).map(|_| ())
}

/// The values of a card's sensor record in 64 bytes.
pub fn read_record(bytes: &[u8]) -> Result<SensorRecord, Refused> {
    let mut values = [0; record::LENGTH];
    let mut answer = [0; 3];
    // SAFETY: the pointer and the length are those of a slice; both arrays are of the length that the library
    // expects, and lent to this call alone.
    unsafe {
        library::zlatopysk_read_record(bytes.as_ptr(), bytes.len(), &mut values, &mut answer);
    }
    answered(answer).map(|_| record::values(&values))
}

/// Writes the 64 bytes of a sensor record over the front of the output.
pub fn write_record(record: &SensorRecord, out: &mut [u8]) -> Result<(), Refused> {
    let values = record::bytes(record);
    let mut answer = [0; 3];
    // SAFETY: the pointer and the length are those of a slice; both arrays are of the length that the library
    // expects; `out` and `answer` are lent to this call alone.
    unsafe {
        library::zlatopysk_write_record(&values, out.as_mut_ptr(), out.len(), &mut answer);
    }
    answered(answer).map(|_| ())
}

/// Total power in watts from the raw 12 V readings.
pub fn total_power(volts: u16, amps: u16) -> u16 {
    // SAFETY: numbers alone.
    unsafe { library::zlatopysk_total_power(volts, amps) }
}
