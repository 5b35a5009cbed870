//! Count and length in one number that adds and compares as the aim does.

use crate::sheet::Sheet;

/// "No lawful way"; adding to it leaves it as it is.
pub const NONE: u32 = u32::MAX;
/// A length is below 2 to the 25.
const LENGTH_BITS: u32 = 25;
/// A count is below 2 to the 6.
const COUNT_BITS: u32 = 6;

#[derive(Clone, Copy)]
pub struct Aim {
    shortest: bool,
}

impl Aim {
    pub fn of(sheet: &Sheet) -> Aim {
        Aim { shortest: sheet.shortest }
    }

    pub fn cost(self, count: u32, length: u32) -> u32 {
        if self.shortest {
            length << COUNT_BITS | count
        } else {
            count << LENGTH_BITS | length
        }
    }

    /// The layout's first word for a cost.
    pub fn stated(self, cost: u32) -> u32 {
        let (count, length) = if self.shortest {
            (cost & ((1 << COUNT_BITS) - 1), cost >> COUNT_BITS)
        } else {
            (cost >> LENGTH_BITS, cost & ((1 << LENGTH_BITS) - 1))
        };
        8 << 28 | count << 21 | length
    }
}
