//! The best layouts in order, by a search that gives up sites early: the best cost, how many have it, and the next.
//!
//! Sites are tied by rising x, each to every slot that rules 1 to 5 allow beside the sites tied before. A branch is
//! left when it costs more than the second best that is known. It shares nothing with the table: no strips, no
//! budgets, only the rules by pairs of tied sites.

use crate::sheet::{Sheet, Site, UNBOUNDED};

/// A label count and a length.
pub type Numbers = (u32, u32);

/// What the search finds where it ends.
#[derive(Clone, Debug, PartialEq, Eq)]
pub struct Ranked {
    /// The best layout, the first of its equals in the order of choice: slots in sheet order.
    pub slot_of: Vec<usize>,
    pub best: Numbers,
    /// How many lawful layouts have the best count and length.
    pub equals: u64,
    /// The count and length that come next; none where all lawful layouts are equals.
    pub second: Option<Numbers>,
}

struct Search<'a> {
    sheet: &'a Sheet,
    order: Vec<usize>,
    /// For each rank, the least shares of the sites from it on.
    shares_left: Vec<u32>,
    slot_of: Vec<usize>,
    found: Option<Ranked>,
    steps_left: u64,
}

/// Searches in at most so many steps: none where they do not suffice, `Some(None)` where no layout is lawful.
pub fn rank(sheet: &Sheet, most_steps: u64) -> Option<Option<Ranked>> {
    let order = sheet.by_x();
    let least_share = |site: &Site| {
        let shares = sheet.slots.iter().map(|height| sheet.share(height.abs_diff(site.y)));
        shares.min().unwrap_or(0)
    };
    let mut shares_left = vec![0; order.len() + 1];
    for (rank, site) in order.iter().enumerate().rev() {
        shares_left[rank] = shares_left[rank + 1] + least_share(&sheet.sites[*site]);
    }
    let slot_of = vec![0; order.len()];
    let mut search = Search { sheet, order, shares_left, slot_of, found: None, steps_left: most_steps };
    search.tie(0, (0, 0)).then_some(search.found)
}

impl Search<'_> {
    /// The numbers in the order in which the aim compares them.
    fn cost(&self, (count, length): Numbers) -> (u32, u32) {
        if self.sheet.shortest {
            (length, count)
        } else {
            (count, length)
        }
    }

    /// Can a layout whose first ranks have these numbers still be among the first two?
    fn may_matter(&self, rank: usize, (count, length): Numbers) -> bool {
        let second = self.found.as_ref().and_then(|found| found.second);
        second.is_none_or(|second| self.cost((count, length + self.shares_left[rank])) <= self.cost(second))
    }

    /// Tries all ties from a rank on; false when the steps are used up.
    fn tie(&mut self, rank: usize, numbers: Numbers) -> bool {
        if !self.may_matter(rank, numbers) {
            return true;
        }
        if rank == self.order.len() {
            self.keep(numbers);
            return true;
        }
        for slot in 0..self.sheet.slots.len() {
            if self.steps_left == 0 {
                return false;
            }
            self.steps_left -= 1;
            if self.is_lawful(rank, slot) {
                self.slot_of[self.order[rank]] = slot;
                if !self.tie(rank + 1, self.after(rank, slot, numbers)) {
                    return false;
                }
            }
        }
        true
    }

    /// The sites of lower rank with their slots.
    fn tied(&self, rank: usize) -> impl Iterator<Item = (&Site, usize)> {
        self.order[..rank].iter().map(|site| (&self.sheet.sites[*site], self.slot_of[*site]))
    }

    /// Does the tie of this rank to a slot obey rules 1 to 5 beside the ties of lower rank?
    fn is_lawful(&self, rank: usize, slot: usize) -> bool {
        let site = &self.sheet.sites[self.order[rank]];
        let opens = self.opens(rank, slot);
        let in_order = |(other, its): (&Site, usize)| {
            if its == slot {
                return other.colour == site.colour;
            }
            if opens && self.is_at_tip(other, site.x, slot) {
                return false;
            }
            let far = self.sheet.slots[slot].abs_diff(self.sheet.slots[its]) >= self.sheet.gap;
            // The other's label reaches this site; this one's label reaches the other if it is two-sided, or if a
            // site of it was tied before the other: then that pair was tested.
            far && self.is_clear(site, slot, its) && (!self.sheet.two_sided || self.is_clear(other, its, slot))
        };
        self.tied(rank).all(in_order) && self.is_within_bound(rank, slot)
    }

    /// Rules 4 and 5 for a site with its own slot and a foreign backbone that reaches it.
    fn is_clear(&self, site: &Site, own: usize, foreign: usize) -> bool {
        let (end, height) = (self.sheet.slots[own], self.sheet.slots[foreign]);
        let crosses = (site.y.min(end)..=site.y.max(end)).contains(&height);
        !crosses && site.y.abs_diff(height) >= self.sheet.gap
    }

    /// Is a foreign site left of a tip at this x too near it? On a two-sided sheet tips are at the edge.
    fn is_at_tip(&self, site: &Site, tip: u32, slot: usize) -> bool {
        let near = |distance: u32| distance < self.sheet.gap;
        !self.sheet.two_sided && near(tip - site.x) && near(site.y.abs_diff(self.sheet.slots[slot]))
    }

    /// Does the tie of this rank to a slot open a label?
    fn opens(&self, rank: usize, slot: usize) -> bool {
        self.tied(rank).all(|(_, its)| its != slot)
    }

    /// Rule 2 with this tie.
    fn is_within_bound(&self, rank: usize, slot: usize) -> bool {
        let colour = self.sheet.sites[self.order[rank]].colour;
        let bound = self.sheet.bounds[colour];
        let own = self.tied(rank).filter(|(site, _)| site.colour == colour);
        let used = own.fold(1u64 << slot, |used, (_, its)| used | 1 << its);
        bound == UNBOUNDED || used.count_ones() <= bound
    }

    fn after(&self, rank: usize, slot: usize, (count, length): Numbers) -> Numbers {
        let site = &self.sheet.sites[self.order[rank]];
        let share = self.sheet.share(self.sheet.slots[slot].abs_diff(site.y));
        if !self.opens(rank, slot) {
            return (count, length + share);
        }
        let left_end = if self.sheet.two_sided { 0 } else { site.x };
        (count + 1, length + share + self.sheet.width - left_end)
    }

    /// Takes a lawful layout in. Layouts come in the order of choice.
    fn keep(&mut self, numbers: Numbers) {
        let best = self.found.as_ref().map(|found| found.best);
        if best.is_none_or(|best| self.cost(numbers) < self.cost(best)) {
            self.found = Some(Ranked { slot_of: self.slot_of.clone(), best: numbers, equals: 1, second: best });
            return;
        }
        let second = self.found.as_ref().and_then(|found| found.second);
        let is_second = second.is_none_or(|second| self.cost(numbers) < self.cost(second));
        if let Some(found) = &mut self.found {
            if numbers == found.best {
                found.equals += 1;
            } else if is_second {
                found.second = Some(numbers);
            }
        }
    }
}
