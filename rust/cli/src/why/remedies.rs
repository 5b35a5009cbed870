//! What would give a sheet a layout: a smaller gap, a higher bound, one slot more. Each is tried by a call.

use super::{smallest_set, with_sites};
use crate::exit::Failure;
use crate::maker::Maker;
use backbone::MOST_SLOTS;
use model::sheet::{Sheet, MOST_BUDGETS, UNBOUNDED};
use std::collections::BTreeSet;

/// The highest height that a slot can have.
const MOST_HEIGHT: u32 = 16_383;

/// A bound that would give a layout.
#[derive(Clone, Copy, Debug, PartialEq, Eq)]
pub struct Raised {
    pub colour: usize,
    pub from: u32,
    /// The least bound that was found to help; [`UNBOUNDED`] where lower ones are refused 7.
    pub to: u32,
}

/// Heights from one to another, both included.
pub type Heights = (u32, u32);

/// A sheet without a layout, of which changes are tried.
pub struct Remedies<'a> {
    sheet: &'a Sheet,
    maker: &'a mut Maker,
    /// Sets of sites for which some change gave no layout.
    sets: Vec<Vec<usize>>,
}

impl<'a> Remedies<'a> {
    /// `set` is a set of the sheet's sites without a layout.
    pub fn new(sheet: &'a Sheet, set: &[usize], maker: &'a mut Maker) -> Remedies<'a> {
        Remedies { sheet, maker, sets: vec![set.to_vec()] }
    }

    /// Whether the changed sheet has a layout. One that has gives each set of its sites one; the sets are asked first,
    /// since they are small. A change that gives all of them a layout and the sheet none leaves one more set to ask.
    fn helps(&mut self, changed: &Sheet) -> Result<bool, Failure> {
        for set in self.sets.iter().rev() {
            if !self.maker.has_layout(&with_sites(changed, set))? {
                return Ok(false);
            }
        }
        let helps = self.maker.has_layout(changed)?;
        if !helps {
            self.sets.push(smallest_set(changed, self.maker)?);
        }
        Ok(helps)
    }

    /// The largest gap with which there is a layout, if any has one. A layout that keeps a gap keeps every smaller one,
    /// so the search halves; the gap that it gives and the next larger one were both tried.
    pub fn largest_gap(&mut self) -> Result<Option<u32>, Failure> {
        let (mut with_layout, mut without) = (0, self.sheet.gap);
        while without - with_layout > 1 {
            let gap = (with_layout + without) / 2;
            if self.helps(&Sheet { gap, ..self.sheet.clone() })? {
                with_layout = gap;
            } else {
                without = gap;
            }
        }
        Ok((with_layout > 0).then_some(with_layout))
    }

    /// For each bounded colour whose bound alone can be raised to give a layout, the least bound that does.
    pub fn raised_bounds(&mut self) -> Result<Vec<Raised>, Failure> {
        let mut raised = Vec::new();
        for (colour, from) in self.sheet.bounds.iter().copied().enumerate() {
            if from != UNBOUNDED && self.helps(&self.with_bound(colour, UNBOUNDED))? {
                let to = self.least_bound(colour)?;
                raised.push(Raised { colour, from, to });
            }
        }
        Ok(raised)
    }

    /// The least bound of a colour that gives a layout, where no bound gives one.
    fn least_bound(&mut self, colour: usize) -> Result<u32, Failure> {
        // A colour has no more labels than sites: a bound above that does not bind.
        let own = self.sheet.sites.iter().filter(|site| site.colour == colour).count() as u32;
        for bound in self.sheet.bounds[colour] + 1..=own {
            let changed = self.with_bound(colour, bound);
            if changed.budgets() > MOST_BUDGETS {
                break;
            }
            if self.helps(&changed)? {
                return Ok(bound);
            }
        }
        Ok(UNBOUNDED)
    }

    fn with_bound(&self, colour: usize, bound: u32) -> Sheet {
        let mut changed = self.sheet.clone();
        changed.bounds[colour] = bound;
        changed
    }

    /// The heights at which one more slot gives a layout, as ranges from the top downwards; none where the sheet has as
    /// many slots as it may.
    ///
    /// Whether a slot helps depends on how its height compares with each slot's and site's height, and with those
    /// heights less or plus the gap. So heights between two neighbouring such numbers help or do not help together: each
    /// number, the one before and the one after are tried, and with them every range and both its ends.
    pub fn helping_slots(&mut self) -> Result<Vec<Heights>, Failure> {
        let mut ranges: Vec<Heights> = Vec::new();
        if self.sheet.slots.len() >= MOST_SLOTS {
            return Ok(ranges);
        }
        let mut last_helped = false;
        for height in heights_to_try(self.sheet) {
            let is_new = !self.sheet.slots.contains(&height);
            let helps = is_new && self.helps(&with_slot(self.sheet, height))?;
            match ranges.last_mut() {
                Some(range) if helps && last_helped => range.1 = height,
                _ if helps => ranges.push((height, height)),
                _ => {}
            }
            last_helped = helps;
        }
        Ok(ranges)
    }
}

/// The numbers at which a comparison changes, with those before and after, and both ends of the page; rising.
fn heights_to_try(sheet: &Sheet) -> BTreeSet<u32> {
    let heights = sheet.slots.iter().copied().chain(sheet.sites.iter().map(|site| site.y));
    let changes = heights.flat_map(|height| {
        let (height, gap) = (i64::from(height), i64::from(sheet.gap));
        [height - gap, height, height + gap]
    });
    let near = changes.flat_map(|height| [height - 1, height, height + 1]);
    let on_page = near.filter_map(|height| u32::try_from(height).ok()).filter(|height| *height <= MOST_HEIGHT);
    on_page.chain([0, MOST_HEIGHT]).collect()
}

fn with_slot(sheet: &Sheet, height: u32) -> Sheet {
    let mut sheet = sheet.clone();
    let place = sheet.slots.partition_point(|slot| *slot < height);
    sheet.slots.insert(place, height);
    sheet
}
