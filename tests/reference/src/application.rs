//! Document 01, "Application mode": the standard commands, and the helper for total power.

use crate::card::{Card, Mode};
use crate::record::{self, SensorRecord};
use crate::refusal::Refused;

/// What a request is answered.
#[derive(Clone, Debug, PartialEq, Eq)]
pub enum Answer {
    Bytes(Vec<u8>),
    EnterLoader,
}

/// Judges one request.
pub fn answer(card: &Card, request: &[u8]) -> Result<Answer, Refused> {
    let bytes = match *request {
        [0x01] | [0x06] => return Err(Refused::plain(16)),
        [0x02] => {
            let sensors = sound(card)?.sensors;
            vec![sensors.inlet.max(sensors.outlet) as u8]
        }
        [0x03] => sound(card)?.sensors.total_power.to_le_bytes().to_vec(),
        [0x04] => version(card.version).to_vec(),
        [0x05] => {
            let record = sound(card)?;
            let (first, second) = (record.device1, record.device2);
            vec![first.fpga_temperature.max(second.fpga_temperature) as u8]
        }
        [0x0F, 1 | 2] => vec![0x01],
        [0x0F, _] => vec![0x02],
        [0x20] => record::encode(sound(card)?).to_vec(),
        [0x31] => vec![0x02],
        [0x32] => return Ok(Answer::EnterLoader),
        _ => return Err(Refused::plain(15)),
    };
    Ok(Answer::Bytes(bytes))
}

/// The card's record, refused if it breaks its rule.
fn sound(card: &Card) -> Result<&SensorRecord, Refused> {
    if record::is_sound(&card.record) {
        Ok(&card.record)
    } else {
        Err(Refused::plain(17))
    }
}

/// The reply for version xx.yy.zz.
pub fn version([xx, yy, zz]: [u8; 3]) -> [u8; 4] {
    [0, zz, yy, xx]
}

impl Answer {
    pub fn bytes(&self) -> &[u8] {
        match self {
            Answer::Bytes(bytes) => bytes,
            Answer::EnterLoader => &[],
        }
    }

    pub fn mode(&self) -> Mode {
        match self {
            Answer::Bytes(_) => Mode::Application,
            Answer::EnterLoader => Mode::Locked,
        }
    }
}

/// Total power in watts from the 12 V readings, each unit 1.25 mV or 1.25 mA, the fraction dropped.
pub fn total_power(volts: u16, amps: u16) -> u16 {
    (u32::from(volts) * u32::from(amps) / 640_000) as u16
}

#[cfg(test)]
mod tests {
    use super::*;

    fn card() -> Card {
        let mut record = SensorRecord::default();
        record.sensors.inlet = -2;
        record.sensors.outlet = -128;
        record.sensors.total_power = 288;
        record.device1.fpga_temperature = 127;
        record.device2.fpga_temperature = -1;
        Card {
            mode: Mode::Application,
            expected: 0,
            version: [6, 2, 11],
            record,
        }
    }

    fn bytes(request: &[u8]) -> Vec<u8> {
        answer(&card(), request).unwrap().bytes().to_vec()
    }

    #[test]
    fn worked_numbers() {
        assert_eq!(bytes(&[0x02]), [0xFE]);
        assert_eq!(bytes(&[0x03]), [0x20, 0x01]);
        assert_eq!(bytes(&[0x04]), [0x00, 0x0B, 0x02, 0x06]);
        assert_eq!(bytes(&[0x05]), [0x7F]);
        assert_eq!(version([7, 13, 9]), [0x00, 0x09, 0x0D, 0x07]);
        assert_eq!(total_power(9_584, 10_000), 149);
        assert_eq!(total_power(u16::MAX, u16::MAX), 6_710);
    }

    #[test]
    fn other_requests() {
        assert_eq!(bytes(&[0x0F, 1]), [1]);
        assert_eq!(bytes(&[0x0F, 2]), [1]);
        assert_eq!(bytes(&[0x0F, 0]), [2]);
        assert_eq!(bytes(&[0x31]), [2]);
        assert_eq!(bytes(&[0x20]).len(), 64);
        assert_eq!(answer(&card(), &[0x32]), Ok(Answer::EnterLoader));
    }

    #[test]
    fn refused_requests() {
        let refused = |request: &[u8]| answer(&card(), request).unwrap_err().number;
        assert_eq!(refused(&[]), 15);
        assert_eq!(refused(&[0x99]), 15);
        assert_eq!(refused(&[0x0F]), 15);
        assert_eq!(refused(&[0x01, 0x00]), 15);
        assert_eq!(refused(&[0x01]), 16);
        assert_eq!(refused(&[0x06]), 16);
        let mut broken = card();
        broken.record.security.flash1.mode = 3;
        for request in [0x02, 0x03, 0x05, 0x20] {
            assert_eq!(answer(&broken, &[request]), Err(Refused::plain(17)));
        }
        assert!(answer(&broken, &[0x04]).is_ok());
    }
}
