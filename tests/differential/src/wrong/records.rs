//! Wrong readers and writers of records.

use super::Wrong;
use crate::implementation::{Implementation, REFERENCE};
use crate::run::Function;
use reference::record::{self, SensorRecord};
use reference::Refused;

pub fn readers() -> Vec<Wrong> {
    /// Reads the bytes without these bits.
    fn without(bytes: &[u8], byte: usize, bits: u8) -> Result<SensorRecord, Refused> {
        let mut bytes = bytes.to_vec();
        if let Some(byte) = bytes.get_mut(byte) {
            *byte &= !bits;
        }
        reference::read_record(&bytes)
    }
    vec![
        wrong!("bit 27 of the status taken", ReadRecord, read_record: |bytes| {
            without(bytes, 3, 0x08)
        }),
        wrong!("bit 10 of the security taken", ReadRecord, read_record: |bytes| {
            without(bytes, 5, 0x04)
        }),
        wrong!("last reserved byte taken", ReadRecord, read_record: |bytes| {
            without(bytes, 63, 0xFF)
        }),
        wrong!("HBM byte of device 2 taken", ReadRecord, read_record: |bytes| {
            without(bytes, 39, 0xFF)
        }),
        wrong!("mode 3 read", ReadRecord, read_record: |bytes| {
            let mut record = without(bytes, 4, 0x0C)?;
            record.security.flash1.mode = bytes[4] >> 2 & 3;
            Ok(record)
        }),
        wrong!("device 2's error pins refused", ReadRecord, read_record: |bytes| {
            let record = reference::read_record(bytes)?;
            let status = record.device2.status;
            if status.error_out + status.error_status > 0 {
                return Err(Refused::plain(17));
            }
            Ok(record)
        }),
        wrong!("voltage before current", ReadRecord, read_record: |bytes| {
            let mut record = reference::read_record(bytes)?;
            let input = &mut record.sensors.input_12v;
            std::mem::swap(&mut input.current, &mut input.voltage);
            Ok(record)
        }),
        wrong!("correctable and uncorrectable swapped", ReadRecord, read_record: |bytes| {
            let mut record = reference::read_record(bytes)?;
            let errors = &mut record.device2.errors;
            std::mem::swap(&mut errors.ddr_correctable, &mut errors.ddr_uncorrectable);
            Ok(record)
        }),
        wrong!("bit 26 reserved", ReadRecord, read_record: |bytes| {
            let record = reference::read_record(bytes)?;
            if record.status.flash_writes > 0x7F {
                return Err(Refused::plain(17));
            }
            Ok(record)
        }),
        wrong!("longer records read", ReadRecord, read_record: |bytes| {
            reference::read_record(bytes.get(..64).unwrap_or(bytes))
        }),
    ]
}

pub fn writers() -> Vec<Wrong> {
    vec![
        wrong!("17 before 13", WriteRecord, write_record: |record, out| {
            if !record::is_sound(record) {
                return Err(Refused::plain(17));
            }
            reference::write_record(record, out)
        }),
        wrong!("too big a count cut", WriteRecord, write_record: |record, out| {
            let mut record = *record;
            record.status.power_good &= 15;
            reference::write_record(&record, out)
        }),
        wrong!("mode 3 written", WriteRecord, write_record: |record, out| {
            if record.security.flash2.mode != 3 {
                return reference::write_record(record, out);
            }
            let mut allowed = *record;
            allowed.security.flash2.mode = 0;
            reference::write_record(&allowed, out)?;
            out[4] |= 0x80;
            out[5] |= 0x01;
            Ok(())
        }),
        wrong!("flash writes one bit lower", WriteRecord, write_record: |record, out| {
            reference::write_record(record, out)?;
            let word = u32::from_le_bytes([out[0], out[1], out[2], out[3]]);
            let moved = word & 0x0000_00FF | u32::from(record.status.flash_writes) << 18;
            out[..4].copy_from_slice(&moved.to_le_bytes());
            Ok(())
        }),
        wrong!("output after the record cleared", WriteRecord, write_record: |record, out| {
            reference::write_record(record, out)?;
            out[64..].fill(0);
            Ok(())
        }),
        wrong!("network module written", WriteRecord, write_record: |record, out| {
            let mut allowed = *record;
            allowed.module1.temperature = 0;
            reference::write_record(&allowed, out)?;
            out[53] = record.module1.temperature as u8;
            Ok(())
        }),
        wrong!("refused write clears the output", WriteRecord, write_record: |record, out| {
            let written = reference::write_record(record, out);
            if written.is_err() {
                out.fill(0);
            }
            written
        }),
    ]
}
