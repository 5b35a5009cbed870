//! The layout maker in the caller's areas, with its refusals 1 to 7, 18 and 8 to 10, in this order.

use crate::one_sided;
use crate::sheet::{read, Sheet, UNBOUNDED};

/// The number of the refusal, or 0 with the layout in the first answer words.
pub fn make(words: &[u32], work: &mut [u32], answer: &mut [u32]) -> u32 {
    match read(words) {
        Err(refusal) => u32::from(refusal),
        Ok(sheet) => make_sheet(sheet, work, answer),
    }
}

/// A bound that is at least its colour's number of sites can't bind: without it the table is smaller.
pub fn keep_binding_bounds(sheet: &mut Sheet) {
    for (colour, bound) in sheet.bounds.iter_mut().enumerate() {
        let sites = sheet.sites.iter().filter(|site| site.colour == colour).count();
        if sites as u32 <= *bound {
            *bound = UNBOUNDED;
        }
    }
}

fn make_sheet(mut sheet: Sheet, work: &mut [u32], answer: &mut [u32]) -> u32 {
    if sheet.two_sided {
        return 18;
    }
    let (needed, sites) = (sheet.work_words() as usize, sheet.sites.len());
    if work.len() < needed {
        return 8;
    }
    if answer.len() < sites + 1 {
        return 9;
    }
    let work = &mut work[..needed];
    keep_binding_bounds(&mut sheet);
    let order = sheet.by_x();
    let made = one_sided::best(&sheet, &order, work);
    work.fill(0);
    let Some((stated, slots)) = made else {
        return 10;
    };
    answer[0] = stated;
    for (site, slot) in order.iter().zip(slots) {
        answer[site + 1] = 9 << 28 | u32::from(slot);
    }
    0
}
