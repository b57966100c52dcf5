//! Generators of inputs, valid and damaged.

pub mod lent;
pub mod mains;
pub mod messages;
pub mod records;
pub mod regions;
pub mod scripts;
pub mod texts;
