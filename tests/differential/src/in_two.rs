//! What T-09 claims, by the checker over two buffers itself. Pass, refusal, place and number of
//! packets are its own. The region is its buffer of zeros, a byte is known where its buffers agree,
//! and as many are unknown as differ. A pass leaves every byte known.

use crate::compare::Difference;
use crate::implementation::Implementation;
use crate::inputs::lent::Lent;
use crate::inputs::scripts::CheckInput;
use reference::{check_in_two, Checked, CheckedInTwo, Refused};

/// Checks a script in both ways, if both take what they are lent.
pub fn holds(side: &Implementation, input: &CheckInput) -> Result<(), Difference> {
    let (size, lent) = (input.size, &input.lent);
    if lent.region.len() != size || lent.known.len() != size / 8 {
        return Ok(());
    }
    let (mut zeros, mut ones) = (lent.region.clone(), lent.region.clone());
    let in_two = check_in_two(
        &input.script,
        &input.text,
        &input.password,
        input.expected,
        size,
        &mut zeros,
        &mut ones,
    );
    let (checked, left) = input.checked_by(side);
    let what = match in_two.answer {
        Err(Refused { number, .. }) if !(7..=12).contains(&number) => {
            is_untouched(checked, &left, lent)
        }
        _ => follows(checked, &left, &zeros, &ones),
    };
    is_answer(checked, in_two)
        .and(what)
        .map_err(|what| format!("T-09: {what}; input: {input}"))
}

fn is_answer(checked: Checked, in_two: CheckedInTwo) -> Result<(), String> {
    if (checked.answer, checked.packets) == (in_two.answer, in_two.packets) {
        return Ok(());
    }
    Err(format!("{checked:?}, and over two buffers {in_two:?}"))
}

/// A refusal before the run counts no byte as unknown.
fn is_untouched(checked: Checked, left: &Lent, lent: &Lent) -> Result<(), String> {
    if checked.unknown == 0 && left.region == lent.region && left.known == lent.known {
        return Ok(());
    }
    Err(format!("{checked:?}, or it touched what it was lent"))
}

fn follows(checked: Checked, left: &Lent, zeros: &[u8], ones: &[u8]) -> Result<(), String> {
    if left.region != zeros {
        return Err("the region is not the buffer of zeros".into());
    }
    let mut differing = 0;
    for (place, (zero, one)) in zeros.iter().zip(ones).enumerate() {
        let is_known = left.known[place / 8] >> (place % 8) & 1 == 1;
        if is_known != (zero == one) {
            return Err(format!("the bit of {place} is {is_known}"));
        }
        differing += usize::from(zero != one);
    }
    if checked.unknown != differing || (checked.answer.is_ok() && differing > 0) {
        return Err(format!("{checked:?}, and {differing} places differ"));
    }
    Ok(())
}
