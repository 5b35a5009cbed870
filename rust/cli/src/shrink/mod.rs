//! The smallest sheet that keeps a property: fewest sites, then slots, then colours, then no charge word, then the smallest
//! numbers.
//!
//! A sheet is made smaller step by step as long as it keeps the property; each step that a list of candidates offers is
//! tried, and the first that keeps it is taken. So what comes out is smallest in this sense: no step of these makes it
//! smaller and keeps the property.

mod numbers;
mod parts;

use crate::exit::Failure;
use model::sheet::{Sheet, UNBOUNDED};
use std::collections::HashSet;

/// What makes one sheet smaller than another: compared from the first number on.
pub type Size = (usize, usize, usize, usize, usize, u64);

/// Sites, slots, colours, bounded colours, charge words, and the sum of all numbers.
pub fn size(sheet: &Sheet) -> Size {
    let bounded = sheet.bounds.iter().copied().filter(|bound| *bound != UNBOUNDED);
    let points = sheet.sites.iter().flat_map(|site| [site.x, site.y]);
    let numbers = [sheet.gap, sheet.width].into_iter().chain(sheet.charge).chain(sheet.slots.iter().copied());
    let sum = numbers.chain(points).chain(bounded.clone()).map(u64::from).sum();
    let charges = usize::from(sheet.charge.is_some());
    (sheet.sites.len(), sheet.slots.len(), sheet.bounds.len(), bounded.count(), charges, sum)
}

/// The smallest sheet that the steps reach. `keeps` says whether a sheet has the property; this one has it.
pub fn smallest(sheet: Sheet, mut keeps: impl FnMut(&Sheet) -> Result<bool, Failure>) -> Result<Sheet, Failure> {
    let mut smallest = sheet;
    let mut tried = HashSet::new();
    loop {
        let before = size(&smallest);
        for candidates in [parts::candidates, numbers::candidates] {
            // What is smaller after a step has candidates of its own.
            while let Some(smaller) = first_that_keeps(candidates(&smallest), &smallest, &mut tried, &mut keeps)? {
                smallest = smaller;
            }
        }
        if size(&smallest) == before {
            return Ok(smallest);
        }
    }
}

/// The first candidate that is accepted by the reader, is smaller, and keeps the property.
fn first_that_keeps(
    candidates: Vec<Sheet>,
    than: &Sheet,
    tried: &mut HashSet<Vec<u32>>,
    keeps: &mut impl FnMut(&Sheet) -> Result<bool, Failure>,
) -> Result<Option<Sheet>, Failure> {
    for candidate in candidates {
        let words = candidate.words();
        let is_sheet = model::sheet::read(&words).is_ok_and(|read| read == candidate);
        if is_sheet && size(&candidate) < size(than) && tried.insert(words) && keeps(&candidate)? {
            return Ok(Some(candidate));
        }
    }
    Ok(None)
}

#[cfg(test)]
mod tests;
