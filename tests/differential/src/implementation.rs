//! The two sides of a comparison: every public function as a pointer, in the reference's types.

use reference::{Card, Checked, Mode, Refused, Replied, SensorRecord};

pub type Read = fn(&[u8], usize, &mut [u8]) -> Result<(), Refused>;
pub type Plan = fn(&[u8], &[u8], u32, usize, &mut [u8]) -> Result<usize, Refused>;
pub type Check = fn(&[u8], &[u8], &[u8], u16, usize, &mut [u8], &mut [u8]) -> Checked;
pub type Call =
    fn(&mut Card, usize, &mut [u8], &[u8], &[u8], &mut [u8]) -> Result<Replied, Refused>;
/// A cut gets the state to change, as a call does, so that one that changes it is found.
pub type Cut = fn(&mut Card, usize, &mut [u8], &[u8], &[u8], usize) -> Result<(), Refused>;
pub type Restart = fn(&mut Card, usize, &[u8]) -> Result<(), Refused>;
pub type ReadRecord = fn(&[u8]) -> Result<SensorRecord, Refused>;
pub type WriteRecord = fn(&SensorRecord, &mut [u8]) -> Result<(), Refused>;

/// One implementation of documents 01 and 02.
#[derive(Clone, Copy)]
pub struct Implementation {
    pub checksum: fn(u16, &[u8]) -> u16,
    pub joined: fn(u16, u16, u16) -> u16,
    pub read: Read,
    pub plan: Plan,
    pub check: Check,
    pub call: Call,
    pub cut: Cut,
    pub restart: Restart,
    pub read_record: ReadRecord,
    pub write_record: WriteRecord,
    pub total_power: fn(u16, u16) -> u16,
}

/// The plain implementation.
pub const REFERENCE: Implementation = Implementation {
    checksum: reference::checksum,
    joined: reference::joined,
    read: reference::read,
    plan: reference::plan,
    check: reference::check,
    call: reference::call,
    cut: |card, size, region, password, message, place| {
        reference::cut(card, size, region, password, message, place)
    },
    restart: reference::restart,
    read_record: reference::read_record,
    write_record: reference::write_record,
    total_power: reference::total_power,
};

/// The proved library.
pub const LIBRARY: Implementation = Implementation {
    checksum: zlatopysk::checksum,
    joined: zlatopysk::joined,
    read: |text, size, region| across(zlatopysk::read(text, size, region)),
    plan: |text, password, entry, size, out| {
        across(zlatopysk::plan(text, password, entry, size, out))
    },
    check: |script, text, password, expected, size, region, known| {
        let checked = zlatopysk::check(script, text, password, expected, size, region, known);
        Checked {
            answer: across(checked.answer),
            packets: checked.packets,
            unknown: checked.unknown,
        }
    },
    call: library_call,
    cut: library_cut,
    restart: library_restart,
    read_record: |bytes| across(zlatopysk::read_record(bytes)).map(Across::across),
    write_record: |record, out| across(zlatopysk::write_record(&record.across(), out)),
    total_power: zlatopysk::total_power,
};

fn library_call(
    card: &mut Card,
    size: usize,
    region: &mut [u8],
    password: &[u8],
    message: &[u8],
    reply: &mut [u8],
) -> Result<Replied, Refused> {
    let mut theirs = card.across();
    let replied = zlatopysk::call(&mut theirs, size, region, password, message, reply);
    *card = theirs.across();
    across(replied).map(|replied| Replied {
        count: replied.count,
        success: replied.success,
    })
}

fn library_cut(
    card: &mut Card,
    size: usize,
    region: &mut [u8],
    password: &[u8],
    message: &[u8],
    place: usize,
) -> Result<(), Refused> {
    let theirs = card.across();
    across(zlatopysk::cut(
        &theirs, size, region, password, message, place,
    ))
}

fn library_restart(card: &mut Card, size: usize, region: &[u8]) -> Result<(), Refused> {
    let mut theirs = card.across();
    let restarted = zlatopysk::restart(&mut theirs, size, region);
    *card = theirs.across();
    across(restarted)
}

fn across<T>(answer: Result<T, zlatopysk::Refused>) -> Result<T, Refused> {
    answer.map_err(|refused| Refused::at(refused.number, refused.place))
}

/// The same value in the other crate's type.
trait Across<T> {
    fn across(self) -> T;
}

/// Both directions for a struct, field by field.
macro_rules! struct_across {
    ($($ours:path, $theirs:path { $($field:ident),+ };)+) => {$(
        impl Across<$theirs> for $ours {
            fn across(self) -> $theirs {
                $theirs { $($field: self.$field.across()),+ }
            }
        }
        impl Across<$ours> for $theirs {
            fn across(self) -> $ours {
                $ours { $($field: self.$field.across()),+ }
            }
        }
    )+};
}

macro_rules! same_across {
    ($($number:ty),+) => {$(
        impl Across<$number> for $number {
            fn across(self) -> $number {
                self
            }
        }
    )+};
}

same_across!(u8, i8, u16, u32, [u8; 3]);

impl Across<zlatopysk::Mode> for Mode {
    fn across(self) -> zlatopysk::Mode {
        match self {
            Mode::Application => zlatopysk::Mode::Application,
            Mode::Locked => zlatopysk::Mode::Locked,
            Mode::Unlocked => zlatopysk::Mode::Unlocked,
        }
    }
}

impl Across<Mode> for zlatopysk::Mode {
    fn across(self) -> Mode {
        match self {
            zlatopysk::Mode::Application => Mode::Application,
            zlatopysk::Mode::Locked => Mode::Locked,
            zlatopysk::Mode::Unlocked => Mode::Unlocked,
        }
    }
}

use reference::record as ours;
use zlatopysk as theirs;

struct_across! {
    Card, theirs::Card { mode, expected, version, record };
    ours::SensorRecord, theirs::SensorRecord {
        status, security, sensors, device1, device2, module0, module1
    };
    ours::BoardStatus, theirs::BoardStatus {
        tcrit, power_good, twarn, hbm_cattrip, module0_present, module1_present, aux_cable,
        flash_writes
    };
    ours::SecurityStatus, theirs::SecurityStatus {
        spi_device, flash1, flash2, authentication, jtag
    };
    ours::FlashControl, theirs::FlashControl { recovery, mode, write_enable };
    ours::BoardSensors, theirs::BoardSensors {
        inlet, outlet, input_3v3, input_12v, input_aux, total_power
    };
    ours::InputSensor, theirs::InputSensor { current, voltage };
    ours::Device, theirs::Device { status, fpga_temperature, hbm_temperature, errors };
    ours::DeviceStatus, theirs::DeviceStatus {
        done, init_b, error_out, error_status, keep_alive
    };
    ours::ErrorCounters, theirs::ErrorCounters {
        ddr_uncorrectable, ddr_correctable, pcie_uncorrectable, pcie_correctable
    };
    ours::NetworkModule, theirs::NetworkModule { temperature, status };
    ours::ModuleStatus, theirs::ModuleStatus {
        present, interrupt, low_power, rate_select, rx_loss, tx_disable, tx_fault, power_enable,
        over_current
    };
}
