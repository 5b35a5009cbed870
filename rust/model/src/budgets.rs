//! Budgets: how many labels each bounded colour may still open, as one number in mixed radix.

use crate::costs::NONE;
use crate::sheet::{Sheet, MOST_BUDGETS, MOST_COLOURS, UNBOUNDED};

pub const MOST: usize = MOST_BUDGETS as usize;

/// One row of the table: a cost for each budget.
pub type Row = [u32; MOST];

pub struct Budgets {
    /// How many budgets there are.
    pub count: usize,
    /// What opening a label of a colour takes from a budget: the place value of its digit, 0 if unbounded.
    pub draw: [usize; MOST_COLOURS],
    /// For each colour, the budgets that allow one more label of it, one bit each.
    pub allowing: [u64; MOST_COLOURS],
    /// For each budget, where its shares begin.
    starts: [u16; MOST + 1],
    /// The ways to share each budget among two, budget by budget.
    shares: Vec<(u8, u8)>,
}

impl Budgets {
    /// The budgets, without a list of their shares.
    fn unshared(sheet: &Sheet) -> Budgets {
        let count = sheet.budgets() as usize;
        let mut budgets = Budgets {
            count,
            draw: [0; MOST_COLOURS],
            allowing: [0; MOST_COLOURS],
            starts: [0; MOST + 1],
            shares: Vec::new(),
        };
        let mut place = 1;
        for (colour, bound) in sheet.bounds.iter().enumerate() {
            let radix = if *bound == UNBOUNDED { 1 } else { *bound as usize + 1 };
            let allows = |budget: usize| *bound == UNBOUNDED || !(budget / place).is_multiple_of(radix);
            let mask = (0..count).filter(|budget| allows(*budget)).map(|budget| 1 << budget);
            budgets.allowing[colour] = mask.sum();
            budgets.draw[colour] = if *bound == UNBOUNDED { 0 } else { place };
            place *= radix;
        }
        budgets
    }

    pub fn of(sheet: &Sheet) -> Budgets {
        let mut budgets = Budgets::unshared(sheet);
        let radix = |bound: &u32| if *bound == UNBOUNDED { 1 } else { *bound + 1 };
        let radices: Vec<u32> = sheet.bounds.iter().map(radix).collect();
        let fits = |part: usize, whole: usize| {
            let (mut part, mut whole) = (part as u32, whole as u32);
            radices.iter().all(|radix| {
                let fits = part % radix <= whole % radix;
                (part, whole) = (part / radix, whole / radix);
                fits
            })
        };
        for whole in 0..budgets.count {
            let parts = (0..=whole).filter(|part| fits(*part, whole));
            budgets.shares.extend(parts.map(|part| (part as u8, (whole - part) as u8)));
            budgets.starts[whole + 1] = budgets.shares.len() as u16;
        }
        budgets
    }

    /// The ways to share a budget among two.
    #[inline]
    pub fn shares(&self, budget: usize) -> &[(u8, u8)] {
        &self.shares[self.starts[budget] as usize..self.starts[budget + 1] as usize]
    }

    /// The least cost of two rows within one budget, over all ways to share it.
    #[inline]
    pub fn least_share(&self, budget: usize, upper: &Row, lower: &Row) -> u32 {
        let mut least = NONE;
        for (part, rest) in self.shares(budget) {
            let upper = upper[*part as usize % MOST];
            least = least.min(upper.saturating_add(lower[*rest as usize % MOST]));
        }
        least
    }
}
