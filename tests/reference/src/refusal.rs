//! Document 01, "Refusal numbers", and the limits that the first refusals judge. Document 02, T-08,
//! took number 9 from the table: it stays unused, and nothing answers it. T-09 made number 1 judge
//! the checker's region and its N/8 bytes of known bits.

/// A refusal: its number, and its place (0 where the paper names none).
#[derive(Clone, Copy, Debug, PartialEq, Eq)]
pub struct Refused {
    pub number: u8,
    pub place: usize,
}

impl Refused {
    /// A refusal for which no place is named.
    pub const fn plain(number: u8) -> Refused {
        Refused { number, place: 0 }
    }

    pub const fn at(number: u8, place: usize) -> Refused {
        Refused { number, place }
    }
}

pub const SECTOR: usize = 4_096;
pub const GREATEST_REGION: usize = 262_144;
pub const PASSWORD: usize = 256;
pub const LONGEST_TEXT: usize = 1_048_576;
pub const LONGEST_SCRIPT: usize = 2_097_152;

/// N is a multiple of 4,096 from 4,096 to 262,144.
pub fn is_region_size(size: usize) -> bool {
    (SECTOR..=GREATEST_REGION).contains(&size) && size.is_multiple_of(SECTOR)
}

/// Refuses with this number unless the condition holds.
pub fn require(condition: bool, number: u8) -> Result<(), Refused> {
    if condition {
        Ok(())
    } else {
        Err(Refused::plain(number))
    }
}

#[cfg(test)]
mod tests {
    use super::*;

    #[test]
    fn region_sizes() {
        for good in [4_096, 8_192, 258_048, 262_144] {
            assert!(is_region_size(good));
        }
        for bad in [0, 1, 4_095, 4_097, 6_000, 262_143, 266_240, usize::MAX] {
            assert!(!is_region_size(bad));
        }
    }
}
