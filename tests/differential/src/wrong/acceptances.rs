//! What T-08 claims, of wrong loaders, or with a premise left out.

use super::address;
use crate::accepted::{Premises, PREMISES};
use crate::implementation::{Implementation, REFERENCE};
use reference::packet;

/// A claim that is wrong: of another loader, or made of too much.
pub struct WrongAcceptance {
    pub name: &'static str,
    pub side: Implementation,
    pub premises: Premises,
}

/// The address and the data of a write packet.
fn written(message: &[u8]) -> Option<(u32, Vec<u8>)> {
    let core = packet::core(message).ok()?;
    let write = core[0] == packet::WRITE && core.len() > 5;
    write.then(|| (address(core) as u32, core[5..].to_vec()))
}

fn invert(bytes: &mut [u8]) {
    for byte in bytes {
        *byte = !*byte;
    }
}

/// Over inverted bytes, a write that may only clear bits is one that may only set them.
const SETS_BITS: Implementation = Implementation {
    call: |card, size, region, password, message, reply| {
        let Some((address, mut data)) = written(message) else {
            return reference::call(card, size, region, password, message, reply);
        };
        invert(&mut data);
        invert(region);
        let inverted = packet::write(address, &data);
        let replied = reference::call(card, size, region, password, &inverted, reply);
        invert(region);
        replied
    },
    ..REFERENCE
};

/// No range checksum succeeds where the region holds 0xFF.
const CHECKSUMS_NO_FF: Implementation = Implementation {
    call: |card, size, region, password, message, reply| {
        let mut replied = reference::call(card, size, region, password, message, reply)?;
        let summed = packet::core(message).is_ok_and(|core| core[0] == packet::RANGE_CHECKSUM);
        replied.success &= !(summed && region.contains(&0xFF));
        Ok(replied)
    },
    ..REFERENCE
};

pub fn acceptances() -> Vec<WrongAcceptance> {
    let wrong = |name, side, premises| WrongAcceptance {
        name,
        side,
        premises,
    };
    let no_picture = Premises {
        picture: false,
        ..PREMISES
    };
    let behind_a_start = Premises {
        no_start_before: false,
        ..PREMISES
    };
    vec![
        wrong("writes that set bits", SETS_BITS, PREMISES),
        wrong("no checksum of 0xFF", CHECKSUMS_NO_FF, PREMISES),
        wrong("a start over any region", REFERENCE, no_picture),
        wrong("packets behind a start", REFERENCE, behind_a_start),
    ]
}
