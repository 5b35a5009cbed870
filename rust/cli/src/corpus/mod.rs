//! Sheets by the depth of their best layout, each found by its own stream of random numbers.

pub mod manifest;

use crate::exit::Failure;
use crate::maker::Maker;
use backbone::{Layout, Refusal};
use model::depth::depth;
use model::nested;
use model::random::Random;
use model::ranked::{rank, Ranked};
use model::rounding::{self, Rounding};
use model::rules::Ties;
use model::sheet::Sheet;

/// A search for the second best is given up after so many steps.
const MOST_SEARCH_STEPS: u64 = 1_000_000;
/// A sheet is given up after so many tries.
pub const MOST_TRIES: u32 = 200_000;

/// After a sheet on which the rival errs by its choice among equals, so many more are tried for one on which it errs
/// whichever of them it takes. In tenths of a point such sheets are too rare for that.
fn tries_for_sure(rounding: Rounding) -> u32 {
    if rounding == Rounding::TenthPoint {
        0
    } else {
        150
    }
}

/// What a sheet of a corpus has to be like.
#[derive(Clone, Copy, Debug, PartialEq, Eq)]
pub struct Wanted {
    pub depth: u32,
    pub shortest: bool,
    /// None: without a charge word.
    pub charge: Option<u32>,
    /// With a step: only sheets on which the rival that rounds to it takes a worse layout.
    pub rounding: Rounding,
}

/// A sheet of a corpus with its proved answer.
pub struct Entry {
    pub sheet: Sheet,
    pub depth: u32,
    pub best: Layout,
    /// What the search found, if it ended.
    pub ranked: Option<Ranked>,
    pub rival: Option<Rival>,
}

/// The layout of the rival that rounds.
pub struct Rival {
    pub rounding: Rounding,
    pub layout: Layout,
    /// The lengths by its own sums, in tenths: of its own layout, and of the best.
    pub own_sum: u64,
    pub sum_of_best: u64,
}

impl Rival {
    /// Whether it errs whichever of its equals it takes.
    fn is_sure(&self) -> bool {
        self.own_sum < self.sum_of_best
    }
}

/// The sheet of this number in the corpus of this seed; none if it was not found in [`MOST_TRIES`]. It depends on
/// nothing else, so that shares of a corpus can be made apart.
pub fn find(wanted: Wanted, seed: u64, number: u64, maker: &mut Maker) -> Result<Option<Entry>, Failure> {
    let mut random = Random::of(&[seed, u64::from(wanted.depth), u64::from(wanted.shortest), number]);
    let mut found: Option<Entry> = None;
    let mut tries_left = MOST_TRIES;
    while tries_left > 0 {
        tries_left -= 1;
        let drawn = nested::sheet(wanted.depth, wanted.shortest, &mut random);
        let sheet = Sheet { charge: wanted.charge, ..drawn };
        let Some(entry) = entry(sheet, wanted, maker)? else { continue };
        if entry.rival.as_ref().is_none_or(Rival::is_sure) {
            found = Some(entry);
            break;
        }
        if found.is_none() {
            tries_left = tries_left.min(tries_for_sure(wanted.rounding));
            found = Some(entry);
        }
    }
    Ok(found.map(|entry| Entry { ranked: rank(&entry.sheet, MOST_SEARCH_STEPS).flatten(), ..entry }))
}

/// The entry of a sheet, if the sheet is as it is wanted; not searched yet.
fn entry(sheet: Sheet, wanted: Wanted, maker: &mut Maker) -> Result<Option<Entry>, Failure> {
    let best = match maker.lay_out(&sheet)? {
        Ok(best) => best,
        Err(Refusal::NoLayout) => return Ok(None),
        Err(refusal) => return Err(Failure::Unable(format!("a sheet that was drawn is refused: {refusal}"))),
    };
    if depth(&sheet, &slots_of(&best)) != wanted.depth {
        return Ok(None);
    }
    let rival = rival(&sheet, &best, wanted.rounding);
    let is_wanted = wanted.rounding == Rounding::None || rival.is_some();
    Ok(is_wanted.then_some(Entry { sheet, depth: wanted.depth, best, ranked: None, rival }))
}

/// The rival's layout, if it is worse than the best.
fn rival(sheet: &Sheet, best: &Layout, rounding: Rounding) -> Option<Rival> {
    if rounding == Rounding::None {
        return None;
    }
    let slot_of = rounding::lay_out(sheet, rounding).ok()?;
    let (labels, length) = Ties::new(sheet, &slot_of).numbers();
    if (labels, length) == (best.labels, best.length) {
        return None;
    }
    let sum = |slot_of: &[usize]| rounding::rounded_length(sheet, slot_of, rounding).ok();
    let (own_sum, sum_of_best) = (sum(&slot_of)?, sum(&slots_of(best))?);
    let slots = slot_of.iter().map(|slot| *slot as u8).collect();
    Some(Rival { rounding, layout: Layout { labels, length, slots }, own_sum, sum_of_best })
}

/// The slots of a layout as numbers.
pub fn slots_of(layout: &Layout) -> Vec<usize> {
    layout.slots.iter().map(|slot| usize::from(*slot)).collect()
}

#[cfg(test)]
mod tests;
