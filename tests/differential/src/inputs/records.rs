//! Sensor records as values and as bytes.

use crate::random::Random;
use reference::record::{encode, Device, NetworkModule, SensorRecord, RECORD};

/// One field of a record: where it is, and whether the U30 may fill it.
pub enum Field<'a> {
    Bits(&'a mut u8, u32, bool),
    Temperature(&'a mut i8, bool),
    Word(&'a mut u16, bool),
    Long(&'a mut u32, bool),
}

/// Every field of the record.
pub fn fields(record: &mut SensorRecord) -> Vec<Field<'_>> {
    use Field::{Bits, Temperature, Word};
    let SensorRecord {
        status,
        security,
        sensors,
        device1,
        device2,
        module0,
        module1,
    } = record;
    let mut fields = vec![
        Bits(&mut status.tcrit, 4, true),
        Bits(&mut status.power_good, 4, true),
        Bits(&mut status.twarn, 4, false),
        Bits(&mut status.hbm_cattrip, 4, false),
        Bits(&mut status.module0_present, 1, false),
        Bits(&mut status.module1_present, 1, false),
        Bits(&mut status.aux_cable, 1, false),
        Bits(&mut status.flash_writes, 8, true),
        Bits(&mut security.spi_device, 1, true),
        Bits(&mut security.flash1.recovery, 1, true),
        Bits(&mut security.flash1.mode, 2, true),
        Bits(&mut security.flash1.write_enable, 1, true),
        Bits(&mut security.flash2.recovery, 1, true),
        Bits(&mut security.flash2.mode, 2, true),
        Bits(&mut security.flash2.write_enable, 1, true),
        Bits(&mut security.authentication, 4, true),
        Bits(&mut security.jtag, 1, true),
        Temperature(&mut sensors.inlet, true),
        Temperature(&mut sensors.outlet, true),
        Word(&mut sensors.input_3v3.current, false),
        Word(&mut sensors.input_3v3.voltage, false),
        Word(&mut sensors.input_12v.current, true),
        Word(&mut sensors.input_12v.voltage, true),
        Word(&mut sensors.input_aux.current, false),
        Word(&mut sensors.input_aux.voltage, false),
        Word(&mut sensors.total_power, true),
    ];
    device_fields(device1, false, &mut fields);
    device_fields(device2, true, &mut fields);
    module_fields(module0, &mut fields);
    module_fields(module1, &mut fields);
    fields
}

fn device_fields<'a>(device: &'a mut Device, error_pins: bool, fields: &mut Vec<Field<'a>>) {
    use Field::{Bits, Long, Temperature, Word};
    fields.extend([
        Bits(&mut device.status.done, 1, true),
        Bits(&mut device.status.init_b, 1, true),
        Bits(&mut device.status.error_out, 1, error_pins),
        Bits(&mut device.status.error_status, 1, error_pins),
        Bits(&mut device.status.keep_alive, 4, true),
        Temperature(&mut device.fpga_temperature, true),
        Temperature(&mut device.hbm_temperature, false),
        Word(&mut device.errors.ddr_uncorrectable, true),
        Word(&mut device.errors.ddr_correctable, true),
        Word(&mut device.errors.pcie_uncorrectable, true),
        Long(&mut device.errors.pcie_correctable, true),
    ]);
}

fn module_fields<'a>(module: &'a mut NetworkModule, fields: &mut Vec<Field<'a>>) {
    use Field::{Bits, Temperature};
    fields.extend([
        Temperature(&mut module.temperature, false),
        Bits(&mut module.status.present, 1, false),
        Bits(&mut module.status.interrupt, 1, false),
        Bits(&mut module.status.low_power, 1, false),
        Bits(&mut module.status.rate_select, 4, false),
        Bits(&mut module.status.rx_loss, 2, false),
        Bits(&mut module.status.tx_disable, 2, false),
        Bits(&mut module.status.tx_fault, 2, false),
        Bits(&mut module.status.power_enable, 1, false),
        Bits(&mut module.status.over_current, 1, false),
    ]);
}

/// Any record, most of them sound.
pub fn any(random: &mut Random) -> SensorRecord {
    match random.weighted(&[60, 5, 30, 5]) {
        0 => sound(random),
        1 => SensorRecord::default(),
        2 => with_one_field_changed(random),
        _ => {
            let mut record = SensorRecord::default();
            fields(&mut record)
                .into_iter()
                .for_each(|field| scramble(random, field));
            record
        }
    }
}

pub fn sound(random: &mut Random) -> SensorRecord {
    let mut record = SensorRecord::default();
    for field in fields(&mut record) {
        match field {
            Field::Bits(value, bits, true) => *value = random.below(1 << bits) as u8,
            Field::Temperature(value, true) => *value = temperature(random),
            Field::Word(value, true) => *value = random.number() as u16,
            Field::Long(value, true) => *value = random.number() as u32,
            _ => {}
        }
    }
    let security = &mut record.security;
    for mode in [&mut security.flash1.mode, &mut security.flash2.mode] {
        *mode = (*mode).min(2);
    }
    record
}

fn temperature(random: &mut Random) -> i8 {
    if random.once_in(4) {
        random.pick(&[-128, -127, -2, -1, 0, 1, 126, 127])
    } else {
        random.byte() as i8
    }
}

/// A sound record with any one value in one field.
fn with_one_field_changed(random: &mut Random) -> SensorRecord {
    let mut record = sound(random);
    let mut fields = fields(&mut record);
    let index = random.below(fields.len());
    scramble(random, fields.swap_remove(index));
    record
}

/// Any value, small ones often.
fn scramble(random: &mut Random, field: Field) {
    let value = match random.below(3) {
        0 => 1 << random.below(32),
        1 => random.below(20) as u32,
        _ => random.number() as u32,
    };
    match field {
        Field::Bits(place, ..) => *place = value as u8,
        Field::Temperature(place, _) => *place = value as i8,
        Field::Word(place, _) => *place = value as u16,
        Field::Long(place, _) => *place = value,
    }
}

/// Bytes to read as a record.
pub fn bytes(random: &mut Random) -> Vec<u8> {
    match random.weighted(&[40, 40, 10, 10]) {
        0 => encode(&sound(random)).to_vec(),
        1 => {
            let mut bytes = encode(&sound(random)).to_vec();
            for _ in 0..random.between(1, 2) {
                bytes[random.below(RECORD)] ^= 1 << random.below(8);
            }
            bytes
        }
        2 => {
            let mut bytes = encode(&sound(random)).to_vec();
            let length = random.pick(&[0, 1, 32, 63, 65, 66, 128]);
            bytes.resize(length, 0);
            bytes
        }
        _ => random.bytes(RECORD),
    }
}

/// A lent output, of 64 bytes, longer or too short.
pub fn output(random: &mut Random) -> Vec<u8> {
    let length = random.pick(&[64, 64, 64, 64, 65, 100, 63, 0, 1]);
    random.bytes(length)
}

#[cfg(test)]
mod tests {
    use super::*;
    use reference::record::{is_sound, read_record};

    #[test]
    fn sound_records_are_sound() {
        for seed in 0..2_000 {
            let record = sound(&mut Random::new(seed));
            assert!(is_sound(&record));
            assert_eq!(read_record(&encode(&record)), Ok(record));
        }
    }
}
