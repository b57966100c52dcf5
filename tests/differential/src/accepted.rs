//! What T-08 claims, by the card's own calls: the packets of a script are sent to two freshly
//! entered loaders, one over zeros and one over 0xFF, refused ones too. What succeeds over zeros
//! succeeds over 0xFF, up to the first packet that begins a start; and so does that one, if both
//! regions are the picture.

use crate::compare::Difference;
use crate::demand3::entered;
use crate::implementation::Implementation;
use crate::inputs::scripts::CheckInput;
use reference::checker::is_start;
use reference::script::frames;
use reference::Card;

/// Where the claim is made.
#[derive(Clone, Copy, Debug)]
pub struct Premises {
    /// Of a packet that begins a start only where both regions are the picture.
    pub picture: bool,
    /// Of no packet behind one that begins a start.
    pub no_start_before: bool,
}

/// As the paper has it.
pub const PREMISES: Premises = Premises {
    picture: true,
    no_start_before: true,
};

/// Sends a script's packets to both loaders.
pub fn holds(
    side: &Implementation,
    input: &CheckInput,
    premises: Premises,
) -> Result<(), Difference> {
    let mut picture = vec![0; input.size];
    let read = (side.read)(&input.text, input.size, &mut picture);
    let (Ok(()), Some(messages)) = (read, frames(&input.script)) else {
        return Ok(());
    };
    let mut zeros = Entered::over(0x00, input);
    let mut ones = Entered::over(0xFF, input);
    for (index, message) in messages.iter().enumerate() {
        let starts = is_start(message);
        let settled = zeros.region == picture && ones.region == picture;
        let over_zeros = zeros.accepts(side, input, message);
        let over_ones = ones.accepts(side, input, message);
        let claimed = !starts || settled || !premises.picture;
        if claimed && over_zeros && !over_ones {
            return Err(format!(
                "T-08: packet {index} is accepted over zeros alone; input: {input}"
            ));
        }
        if starts && premises.no_start_before {
            break;
        }
    }
    Ok(())
}

/// A card whose loader was freshly entered, with its flash.
struct Entered {
    card: Card,
    region: Vec<u8>,
}

impl Entered {
    fn over(byte: u8, input: &CheckInput) -> Entered {
        Entered {
            card: entered(input.expected),
            region: vec![byte; input.size],
        }
    }

    /// Sends a packet, and tells whether it was a success.
    fn accepts(&mut self, side: &Implementation, input: &CheckInput, message: &[u8]) -> bool {
        let replied = (side.call)(
            &mut self.card,
            input.size,
            &mut self.region,
            &input.password,
            message,
            &mut [0; 64],
        );
        replied.is_ok_and(|replied| replied.success)
    }
}
