//! Document 01, "Sensor record", with the offsets, sizes and bits of source document 004.

use crate::refusal::{require, Refused};

/// The length of a record.
pub const RECORD: usize = 64;

#[derive(Clone, Copy, Debug, Default, PartialEq, Eq)]
pub struct SensorRecord {
    pub status: BoardStatus,
    pub security: SecurityStatus,
    pub sensors: BoardSensors,
    pub device1: Device,
    pub device2: Device,
    pub module0: NetworkModule,
    pub module1: NetworkModule,
}

#[derive(Clone, Copy, Debug, Default, PartialEq, Eq)]
pub struct BoardStatus {
    pub tcrit: u8,
    pub power_good: u8,
    pub twarn: u8,
    pub hbm_cattrip: u8,
    pub module0_present: u8,
    pub module1_present: u8,
    pub aux_cable: u8,
    pub flash_writes: u8,
}

#[derive(Clone, Copy, Debug, Default, PartialEq, Eq)]
pub struct SecurityStatus {
    pub spi_device: u8,
    pub flash1: FlashControl,
    pub flash2: FlashControl,
    pub authentication: u8,
    pub jtag: u8,
}

#[derive(Clone, Copy, Debug, Default, PartialEq, Eq)]
pub struct FlashControl {
    pub recovery: u8,
    pub mode: u8,
    pub write_enable: u8,
}

#[derive(Clone, Copy, Debug, Default, PartialEq, Eq)]
pub struct BoardSensors {
    pub inlet: i8,
    pub outlet: i8,
    pub input_3v3: InputSensor,
    pub input_12v: InputSensor,
    pub input_aux: InputSensor,
    pub total_power: u16,
}

#[derive(Clone, Copy, Debug, Default, PartialEq, Eq)]
pub struct InputSensor {
    pub current: u16,
    pub voltage: u16,
}

#[derive(Clone, Copy, Debug, Default, PartialEq, Eq)]
pub struct Device {
    pub status: DeviceStatus,
    pub fpga_temperature: i8,
    pub hbm_temperature: i8,
    pub errors: ErrorCounters,
}

#[derive(Clone, Copy, Debug, Default, PartialEq, Eq)]
pub struct DeviceStatus {
    pub done: u8,
    pub init_b: u8,
    pub error_out: u8,
    pub error_status: u8,
    pub keep_alive: u8,
}

#[derive(Clone, Copy, Debug, Default, PartialEq, Eq)]
pub struct ErrorCounters {
    pub ddr_uncorrectable: u16,
    pub ddr_correctable: u16,
    pub pcie_uncorrectable: u16,
    pub pcie_correctable: u32,
}

#[derive(Clone, Copy, Debug, Default, PartialEq, Eq)]
pub struct NetworkModule {
    pub temperature: i8,
    pub status: ModuleStatus,
}

#[derive(Clone, Copy, Debug, Default, PartialEq, Eq)]
pub struct ModuleStatus {
    pub present: u8,
    pub interrupt: u8,
    pub low_power: u8,
    pub rate_select: u8,
    pub rx_loss: u8,
    pub tx_disable: u8,
    pub tx_fault: u8,
    pub power_enable: u8,
    pub over_current: u8,
}

/// The record that 64 sound bytes hold.
pub fn read_record(bytes: &[u8]) -> Result<SensorRecord, Refused> {
    let bytes: &[u8; RECORD] = bytes.try_into().map_err(|_| Refused::plain(17))?;
    let record = decode(bytes);
    require(reserved_bits_are_0(bytes) && is_sound(&record), 17)?;
    Ok(record)
}

/// Writes 64 bytes over the front of the output.
pub fn write_record(record: &SensorRecord, out: &mut [u8]) -> Result<(), Refused> {
    require(out.len() >= RECORD, 13)?;
    require(is_sound(record), 17)?;
    out[..RECORD].copy_from_slice(&encode(record));
    Ok(())
}

/// The rule: every value fits its bits, no flash mode is 3, and what the U30 lacks is 0.
pub fn is_sound(record: &SensorRecord) -> bool {
    values_fit(record) && flash_modes_are_valid(record) && u30_leaves_out(record)
}

fn values_fit(record: &SensorRecord) -> bool {
    let SensorRecord {
        status, security, ..
    } = record;
    let (flash1, flash2) = (security.flash1, security.flash2);
    let (device1, device2) = (record.device1.status, record.device2.status);
    let (module0, module1) = (record.module0.status, record.module1.status);
    [
        (status.tcrit, 4),
        (status.power_good, 4),
        (status.twarn, 4),
        (status.hbm_cattrip, 4),
        (status.module0_present, 1),
        (status.module1_present, 1),
        (status.aux_cable, 1),
        (security.spi_device, 1),
        (security.authentication, 4),
        (security.jtag, 1),
    ]
    .into_iter()
    .chain([flash1, flash2].into_iter().flat_map(flash_bits))
    .chain([device1, device2].into_iter().flat_map(device_bits))
    .chain([module0, module1].into_iter().flat_map(module_bits))
    .all(|(value, bits)| value < 1 << bits)
}

/// Each value of a flash control with its number of bits.
fn flash_bits(flash: FlashControl) -> [(u8, u32); 3] {
    [
        (flash.recovery, 1),
        (flash.mode, 2),
        (flash.write_enable, 1),
    ]
}

fn device_bits(status: DeviceStatus) -> [(u8, u32); 5] {
    [
        (status.done, 1),
        (status.init_b, 1),
        (status.error_out, 1),
        (status.error_status, 1),
        (status.keep_alive, 4),
    ]
}

fn module_bits(status: ModuleStatus) -> [(u8, u32); 9] {
    [
        (status.present, 1),
        (status.interrupt, 1),
        (status.low_power, 1),
        (status.rate_select, 4),
        (status.rx_loss, 2),
        (status.tx_disable, 2),
        (status.tx_fault, 2),
        (status.power_enable, 1),
        (status.over_current, 1),
    ]
}

fn flash_modes_are_valid(record: &SensorRecord) -> bool {
    record.security.flash1.mode != 3 && record.security.flash2.mode != 3
}

/// Board status bits 18 to 8, the 3.3 V and AUX fields, status bits 3 and 2 of device 1, both HBM
/// bytes and bytes 50 to 55.
fn u30_leaves_out(record: &SensorRecord) -> bool {
    let none = SensorRecord::default();
    let SensorRecord {
        status, sensors, ..
    } = record;
    status.twarn == 0
        && status.hbm_cattrip == 0
        && status.module0_present == 0
        && status.module1_present == 0
        && status.aux_cable == 0
        && sensors.input_3v3 == none.sensors.input_3v3
        && sensors.input_aux == none.sensors.input_aux
        && record.device1.status.error_out == 0
        && record.device1.status.error_status == 0
        && record.device1.hbm_temperature == 0
        && record.device2.hbm_temperature == 0
        && record.module0 == none.module0
        && record.module1 == none.module1
}

/// Board status 31 to 27; security 31 to 16, 10 and 5; bit 15 of both network status words; bytes
/// 56 to 63.
fn reserved_bits_are_0(bytes: &[u8; RECORD]) -> bool {
    bits(bytes, 0, 27, 5) == 0
        && bits(bytes, 4, 16, 16) == 0
        && bits(bytes, 4, 10, 1) == 0
        && bits(bytes, 4, 5, 1) == 0
        && bits(bytes, 51, 15, 1) == 0
        && bits(bytes, 54, 15, 1) == 0
        && bytes[56..] == [0; 8]
}

/// `count` bits from bit `low` of the field that starts at this offset, low byte first.
fn bits(bytes: &[u8; RECORD], offset: usize, low: usize, count: usize) -> u32 {
    (0..count).fold(0, |value, bit| {
        let place = low + bit;
        let byte = bytes[offset + place / 8];
        value | u32::from(byte >> (place % 8) & 1) << bit
    })
}

/// Sets `count` bits to a value that fits them.
fn set_bits(bytes: &mut [u8; RECORD], offset: usize, low: usize, count: usize, value: u32) {
    for bit in 0..count {
        let place = low + bit;
        let mask = 1 << (place % 8);
        if value >> bit & 1 == 1 {
            bytes[offset + place / 8] |= mask;
        } else {
            bytes[offset + place / 8] &= !mask;
        }
    }
}

/// Goes over every field of the record with its offset, lowest bit and number of bits.
macro_rules! each_field {
    ($record:ident, $field:ident) => {
        $field!($record.status.tcrit, 0, 0, 4);
        $field!($record.status.power_good, 0, 4, 4);
        $field!($record.status.twarn, 0, 8, 4);
        $field!($record.status.hbm_cattrip, 0, 12, 4);
        $field!($record.status.module0_present, 0, 16, 1);
        $field!($record.status.module1_present, 0, 17, 1);
        $field!($record.status.aux_cable, 0, 18, 1);
        $field!($record.status.flash_writes, 0, 19, 8);
        $field!($record.security.spi_device, 4, 0, 1);
        $field!($record.security.flash1.recovery, 4, 1, 1);
        $field!($record.security.flash1.mode, 4, 2, 2);
        $field!($record.security.flash1.write_enable, 4, 4, 1);
        $field!($record.security.flash2.recovery, 4, 6, 1);
        $field!($record.security.flash2.mode, 4, 7, 2);
        $field!($record.security.flash2.write_enable, 4, 9, 1);
        $field!($record.security.authentication, 4, 11, 4);
        $field!($record.security.jtag, 4, 15, 1);
        $field!($record.sensors.inlet, 8, 0, 8);
        $field!($record.sensors.outlet, 9, 0, 8);
        $field!($record.sensors.input_3v3.current, 10, 0, 16);
        $field!($record.sensors.input_3v3.voltage, 12, 0, 16);
        $field!($record.sensors.input_12v.current, 14, 0, 16);
        $field!($record.sensors.input_12v.voltage, 16, 0, 16);
        $field!($record.sensors.input_aux.current, 18, 0, 16);
        $field!($record.sensors.input_aux.voltage, 20, 0, 16);
        $field!($record.sensors.total_power, 22, 0, 16);
        each_field!(device $record.device1, 24, $field);
        each_field!(device $record.device2, 37, $field);
        each_field!(module $record.module0, 50, $field);
        each_field!(module $record.module1, 53, $field);
    };
    (device $record:ident.$device:ident, $offset:expr, $field:ident) => {
        $field!($record.$device.status.done, $offset, 0, 1);
        $field!($record.$device.status.init_b, $offset, 1, 1);
        $field!($record.$device.status.error_out, $offset, 2, 1);
        $field!($record.$device.status.error_status, $offset, 3, 1);
        $field!($record.$device.status.keep_alive, $offset, 4, 4);
        $field!($record.$device.fpga_temperature, $offset + 1, 0, 8);
        $field!($record.$device.hbm_temperature, $offset + 2, 0, 8);
        $field!($record.$device.errors.ddr_uncorrectable, $offset + 3, 0, 16);
        $field!($record.$device.errors.ddr_correctable, $offset + 5, 0, 16);
        $field!($record.$device.errors.pcie_uncorrectable, $offset + 7, 0, 16);
        $field!($record.$device.errors.pcie_correctable, $offset + 9, 0, 32);
    };
    (module $record:ident.$module:ident, $offset:expr, $field:ident) => {
        $field!($record.$module.temperature, $offset, 0, 8);
        $field!($record.$module.status.present, $offset + 1, 0, 1);
        $field!($record.$module.status.interrupt, $offset + 1, 1, 1);
        $field!($record.$module.status.low_power, $offset + 1, 2, 1);
        $field!($record.$module.status.rate_select, $offset + 1, 3, 4);
        $field!($record.$module.status.rx_loss, $offset + 1, 7, 2);
        $field!($record.$module.status.tx_disable, $offset + 1, 9, 2);
        $field!($record.$module.status.tx_fault, $offset + 1, 11, 2);
        $field!($record.$module.status.power_enable, $offset + 1, 13, 1);
        $field!($record.$module.status.over_current, $offset + 1, 14, 1);
    };
}

/// The values of any 64 bytes, their rule aside.
pub fn decode(bytes: &[u8; RECORD]) -> SensorRecord {
    let mut record = SensorRecord::default();
    macro_rules! take {
        ($($part:ident).+, $offset:expr, $low:expr, $count:expr) => {
            $($part).+ = bits(bytes, $offset, $low, $count) as _
        };
    }
    each_field!(record, take);
    record
}

/// The 64 bytes of a record whose values fit; reserved bits are 0.
pub fn encode(record: &SensorRecord) -> [u8; RECORD] {
    let mut bytes = [0; RECORD];
    macro_rules! put {
        ($($part:ident).+, $offset:expr, $low:expr, $count:expr) => {
            set_bits(&mut bytes, $offset, $low, $count, $($part).+ as u32)
        };
    }
    each_field!(record, put);
    bytes
}

#[cfg(test)]
mod tests {
    use super::*;

    #[test]
    fn low_byte_first() {
        let mut bytes = [0; 64];
        bytes[14..18].copy_from_slice(&[0x10, 0x27, 0x70, 0x25]);
        bytes[22..24].copy_from_slice(&[0x20, 0x01]);
        bytes[8..10].copy_from_slice(&[0xFE, 0x80]);
        bytes[25] = 0x7F;
        let record = read_record(&bytes).unwrap();
        assert_eq!(record.sensors.input_12v.current, 10_000);
        assert_eq!(record.sensors.input_12v.voltage, 9_584);
        assert_eq!(record.sensors.total_power, 288);
        assert_eq!(record.sensors.inlet, -2);
        assert_eq!(record.sensors.outlet, -128);
        assert_eq!(record.device1.fpga_temperature, 127);
    }

    #[test]
    fn flash_writes_are_bits_26_to_19() {
        let mut bytes = [0; 64];
        bytes[..4].copy_from_slice(&(0xFF_u32 << 19).to_le_bytes());
        assert_eq!(read_record(&bytes).unwrap().status.flash_writes, 0xFF);
        bytes[..4].copy_from_slice(&(1_u32 << 27).to_le_bytes());
        assert_eq!(read_record(&bytes), Err(Refused::plain(17)));
    }

    /// The bits that a U30 record may have set, one at a time.
    #[test]
    fn each_bit() {
        let mut free = [0; 64];
        free[..4].copy_from_slice(&0x07F8_00FF_u32.to_le_bytes());
        free[4..8].copy_from_slice(&0x0000_FBDF_u32.to_le_bytes());
        for range in [8..10, 14..18, 22..24, 27..37, 37..39, 40..50] {
            free[range].fill(0xFF);
        }
        free[24] = 0xF3;
        free[25] = 0xFF;
        for bit in 0..512 {
            let mut bytes = [0; 64];
            bytes[bit / 8] = 1 << (bit % 8);
            let may_be_set = free[bit / 8] & bytes[bit / 8] != 0;
            let read = read_record(&bytes);
            assert_eq!(read.is_ok(), may_be_set, "bit {bit}");
            if let Ok(record) = read {
                let mut out = [0; 64];
                write_record(&record, &mut out).unwrap();
                assert_eq!(out, bytes);
            }
        }
    }

    #[test]
    fn refusals() {
        let mut record = SensorRecord::default();
        record.security.flash2.mode = 3;
        let mut out = [0; 64];
        assert_eq!(
            write_record(&record, &mut out[..63]),
            Err(Refused::plain(13))
        );
        assert_eq!(write_record(&record, &mut out), Err(Refused::plain(17)));
        record.security.flash2.mode = 2;
        assert_eq!(write_record(&record, &mut out), Ok(()));
        record.status.tcrit = 16;
        assert_eq!(write_record(&record, &mut out), Err(Refused::plain(17)));
        for length in [0, 63, 65] {
            assert_eq!(read_record(&vec![0; length]), Err(Refused::plain(17)));
        }
    }
}
