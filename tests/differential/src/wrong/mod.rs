//! Deliberately wrong references, each with one rule of document 01 or 02 broken. The comparison
//! must find every one of them; else it would not find the same fault in the library.

use crate::implementation::Implementation;
use crate::run::Function;

/// The reference with one function replaced.
macro_rules! wrong {
    ($name:literal, $function:ident, $field:ident: $with:expr) => {
        Wrong {
            name: $name,
            function: Function::$function,
            implementation: Implementation {
                $field: $with,
                ..REFERENCE
            },
        }
    };
}

#[macro_use]
mod ran;

mod acceptances;
mod calls;
mod checks;
mod mains;
mod numbers;
mod plans;
mod records;
mod regions;
mod texts;

pub use acceptances::{acceptances, WrongAcceptance};
pub use mains::{recoveries, WrongRecovery};

/// The address in the core of a command that has one.
fn address(core: &[u8]) -> usize {
    u32::from_le_bytes([core[1], core[2], core[3], core[4]]) as usize
}

/// A wrong reference, and the function in which it is wrong.
pub struct Wrong {
    pub name: &'static str,
    pub function: Function,
    pub implementation: Implementation,
}

/// All wrong references.
pub fn all() -> Vec<Wrong> {
    [
        numbers::checksums(),
        numbers::starts(),
        numbers::blocks(),
        numbers::joins(),
        numbers::powers(),
        calls::packets(),
        calls::loaders(),
        calls::applications(),
        calls::refusals(),
        records::readers(),
        records::writers(),
        texts::readers(),
        texts::refusals(),
        plans::scripts(),
        plans::refusals(),
        checks::runs(),
        checks::refusals(),
        known_bits(),
        regions::memory(),
        regions::lengths(),
        mains::writes(),
        mains::erases(),
        mains::works(),
        mains::refusals(),
        mains::order(),
        mains::cut_states(),
        mains::restart_modes(),
        mains::restart_states(),
    ]
    .into_iter()
    .flatten()
    .collect()
}

/// The wrong references whose runs break what T-09 claims.
pub fn known_bits() -> Vec<Wrong> {
    [
        regions::ranges(),
        regions::learnings(),
        regions::moments(),
        regions::unknowns(),
        regions::counts(),
    ]
    .into_iter()
    .flatten()
    .collect()
}
