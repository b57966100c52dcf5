//! A plain implementation of document 01 and of T-04, T-05 and T-07 to T-09 of document 02,
//! written from the papers and not from the proved code, so that the two can be compared. One
//! module for each subject; each names the section it follows.

#![forbid(unsafe_code)]

pub mod application;
pub mod bit_loops;
pub mod card;
pub mod checker;
pub mod checksum;
pub mod loader;
pub mod mains;
pub mod one_region;
pub mod packet;
pub mod planner;
pub mod record;
pub mod refusal;
pub mod runs;
pub mod script;
pub mod sums;
pub mod text;
pub mod two_buffers;

#[cfg(test)]
mod trials;

pub use application::total_power;
pub use card::{call, Card, Mode, Replied};
pub use checker::{check, Checked};
pub use checksum::{checksum, checksum_bit_by_bit, joined, START};
pub use mains::{cut, restart, work};
pub use one_region::check_directly;
pub use planner::plan;
pub use record::{read_record, write_record, SensorRecord};
pub use refusal::Refused;
pub use runs::{cuts, trace};
pub use sums::{sums, SegmentSums, Stretch};
pub use text::read;
pub use two_buffers::{check_in_two, CheckedInTwo};
