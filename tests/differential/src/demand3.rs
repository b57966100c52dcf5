//! Demand 3 over some regions, by the loader's own calls: what the checker passes must succeed over
//! every region, and what it refuses must fail over zeros or over 0xFF.

use crate::compare::Difference;
use crate::implementation::Implementation;
use crate::inputs::scripts::CheckInput;
use crate::random::Random;
use reference::script::frames;
use reference::text::{draw, image};
use reference::{Card, Mode, Refused, SensorRecord};

/// Compares the checker's answer with the runs, where demand 3 speaks of the input.
pub fn holds(
    side: &Implementation,
    input: &CheckInput,
    random: &mut Random,
) -> Result<(), Difference> {
    let outside_its_limits = [1, 2, 18, 3, 4, 5];
    let (checked, _) = input.checked_by(side);
    match checked.answer {
        Err(Refused { number, .. }) if outside_its_limits.contains(&number) => Ok(()),
        answer => {
            let over_zeros = succeeds(side, input, vec![0x00; input.size]);
            let over_ones = succeeds(side, input, vec![0xFF; input.size]);
            let over_any = succeeds(side, input, random.bytes(input.size));
            let agrees = match answer {
                Ok(()) => over_zeros && over_ones && over_any,
                Err(_) => !over_zeros || !over_ones,
            };
            if agrees {
                return Ok(());
            }
            Err(format!(
                "demand 3: checker {answer:?}, over zeros {over_zeros}, over 0xFF {over_ones}, \
                 over other bytes {over_any}; input: {input}"
            ))
        }
    }
}

/// Whether the bytes are a script, every packet succeeds, the last and no other starts the
/// firmware, and the region then holds the picture.
fn succeeds(side: &Implementation, input: &CheckInput, mut region: Vec<u8>) -> bool {
    let Some(messages) = frames(&input.script) else {
        return false;
    };
    let Ok(segments) = image(&input.text, input.size) else {
        return false;
    };
    let mut picture = vec![0; input.size];
    draw(&segments, &mut picture);
    let mut card = entered(input.expected);
    let mut starts = Vec::new();
    for message in messages {
        let before = card.mode;
        let mut reply = [0; 64];
        let replied = (side.call)(
            &mut card,
            input.size,
            &mut region,
            &input.password,
            message,
            &mut reply,
        );
        if !replied.is_ok_and(|replied| replied.success) {
            return false;
        }
        starts.push(before == Mode::Unlocked && card.mode == Mode::Application);
    }
    let last_and_no_other = starts.iter().filter(|&&start| start).count() == 1;
    last_and_no_other && starts.last() == Some(&true) && region == picture
}

/// A card whose loader was freshly entered.
pub fn entered(expected: u16) -> Card {
    Card {
        mode: Mode::Locked,
        expected,
        version: [0; 3],
        record: SensorRecord::default(),
    }
}
