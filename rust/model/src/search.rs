//! The best layout by trying every layout: the definition, run.

use crate::rules::{layout_words, Ties};
use crate::sheet::Sheet;

/// The best layout: each site's slot, and how many layouts have its count and length.
pub struct Found {
    pub slot_of: Vec<usize>,
    pub equals: usize,
}

/// The words of the best layout, or none where no layout obeys rules 1 to 5.
pub fn best(sheet: &Sheet) -> Option<Vec<u32>> {
    find(sheet).map(|found| layout_words(sheet, &found.slot_of))
}

/// The best layout, or none where no layout obeys rules 1 to 5.
pub fn find(sheet: &Sheet) -> Option<Found> {
    find_by(sheet, |ties| ties.broken())
}

/// The best of the ties for which `broken` gives 0, or none where it does so for none.
///
/// Layouts are tried in the order of choice (the site with the least x first, its lowest slot first), so the
/// first of the equals is the one that is kept.
pub fn find_by(sheet: &Sheet, broken: impl Fn(&Ties) -> u8) -> Option<Found> {
    let order = sheet.by_x();
    let mut slot_of = vec![0; sheet.sites.len()];
    let mut least: Option<((u32, u32), Found)> = None;
    if sheet.slots.is_empty() && !slot_of.is_empty() {
        return None;
    }
    loop {
        let ties = Ties::new(sheet, &slot_of);
        if broken(&ties) == 0 {
            let (count, length) = ties.numbers();
            let cost = if sheet.shortest { (length, count) } else { (count, length) };
            match &mut least {
                Some((old, found)) if cost == *old => found.equals += 1,
                Some((old, _)) if cost > *old => {}
                _ => least = Some((cost, Found { slot_of: slot_of.clone(), equals: 1 })),
            }
        }
        if !next(&mut slot_of, &order, sheet.slots.len()) {
            return least.map(|(_, found)| found);
        }
    }
}

/// How many layouts the search tries.
pub fn layouts(sheet: &Sheet) -> f64 {
    (sheet.slots.len() as f64).powi(sheet.sites.len() as i32)
}

/// The next layout in the order of choice; false after the last.
fn next(slot_of: &mut [usize], order: &[usize], slots: usize) -> bool {
    for site in order.iter().rev() {
        slot_of[*site] += 1;
        if slot_of[*site] < slots {
            return true;
        }
        slot_of[*site] = 0;
    }
    false
}
