//! Document 01, "The loader" and "Application mode": the card's state and its one call.

use crate::application;
use crate::loader::Loader;
use crate::record::SensorRecord;
use crate::refusal::{is_region_size, require, Refused, PASSWORD};

#[derive(Clone, Copy, Debug, PartialEq, Eq)]
pub enum Mode {
    Application,
    Locked,
    Unlocked,
}

/// A card's state. `version` is xx, yy, zz of the version xx.yy.zz.
#[derive(Clone, Copy, Debug, PartialEq, Eq)]
pub struct Card {
    pub mode: Mode,
    pub expected: u16,
    pub version: [u8; 3],
    pub record: SensorRecord,
}

/// How many bytes the reply has over the front of the lent buffer, and whether it is a success.
#[derive(Clone, Copy, Debug, PartialEq, Eq)]
pub struct Replied {
    pub count: usize,
    pub success: bool,
}

/// One message to the card.
pub fn call(
    card: &mut Card,
    size: usize,
    region: &mut [u8],
    password: &[u8],
    message: &[u8],
    reply: &mut [u8],
) -> Result<Replied, Refused> {
    require(is_region_size(size) && region.len() == size, 1)?;
    require(password.len() == PASSWORD, 2)?;
    require(reply.len() >= shortest_reply_buffer(card.mode), 13)?;
    let (bytes, success) = match card.mode {
        Mode::Application => {
            let answer = application::answer(card, message)?;
            card.mode = answer.mode();
            (answer.bytes().to_vec(), false)
        }
        Mode::Locked | Mode::Unlocked => {
            let mut loader = Loader {
                mode: card.mode,
                expected: card.expected,
                password,
                region,
            };
            let outcome = loader.judge(message);
            loader.apply(outcome);
            card.mode = loader.mode;
            (outcome.reply(), outcome.is_success())
        }
    };
    reply[..bytes.len()].copy_from_slice(&bytes);
    Ok(Replied {
        count: bytes.len(),
        success,
    })
}

/// 9 bytes in the loader, 64 in application mode, whatever the message.
fn shortest_reply_buffer(mode: Mode) -> usize {
    match mode {
        Mode::Application => 64,
        Mode::Locked | Mode::Unlocked => 9,
    }
}

#[cfg(test)]
mod tests {
    use super::*;
    use crate::checksum::{checksum, START};
    use crate::packet;

    fn card(mode: Mode, expected: u16) -> Card {
        Card {
            mode,
            expected,
            version: [1, 2, 3],
            record: SensorRecord::default(),
        }
    }

    #[test]
    fn refusals_come_first_and_in_order() {
        let mut region = [0; 4_096];
        let mut reply = [0; 64];
        let mut refused = |mode, size, password: &[u8], room: usize| {
            let mut card = card(mode, 0);
            call(
                &mut card,
                size,
                &mut region,
                password,
                &[],
                &mut reply[..room],
            )
            .map_err(|refused| refused.number)
        };
        let short = [0; 255];
        let right = [0; 256];
        assert_eq!(refused(Mode::Locked, 8_192, &short, 8), Err(1));
        assert_eq!(refused(Mode::Locked, 4_096, &short, 8), Err(2));
        assert_eq!(refused(Mode::Locked, 4_096, &right, 8), Err(13));
        assert!(refused(Mode::Locked, 4_096, &right, 9).is_ok());
        assert_eq!(refused(Mode::Application, 4_096, &right, 63), Err(13));
        assert_eq!(refused(Mode::Application, 4_096, &right, 64), Err(15));
    }

    #[test]
    fn start_answers_nothing_and_keeps_the_reply_buffer() {
        let mut region = [0x12; 4_096];
        let mut card = card(Mode::Unlocked, checksum(START, &region));
        let mut reply = [7; 9];
        let start = packet::start(4_095);
        let replied = call(&mut card, 4_096, &mut region, &[0; 256], &start, &mut reply);
        let expected = Replied {
            count: 0,
            success: true,
        };
        assert_eq!(replied, Ok(expected));
        assert_eq!(card.mode, Mode::Application);
        assert_eq!(reply, [7; 9]);
    }

    #[test]
    fn status_in_every_mode() {
        let mut region = [0; 4_096];
        for (mode, status) in [
            (Mode::Locked, 1),
            (Mode::Unlocked, 1),
            (Mode::Application, 2),
        ] {
            let mut reply = [9; 64];
            let mut card = card(mode, 0);
            let replied = call(
                &mut card,
                4_096,
                &mut region,
                &[0; 256],
                &[0x31],
                &mut reply,
            );
            assert_eq!(replied.unwrap().count, 1);
            assert!(!replied.unwrap().success);
            assert_eq!(reply[..2], [status, 9]);
        }
    }
}
