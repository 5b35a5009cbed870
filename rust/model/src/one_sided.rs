//! One-sided sheets: sites are tied by rising x; open labels part the page into strips, and the table has the
//! least cost of the rest of each strip within each budget.
//!
//! The benchmark times the library against this. Both read the sheet with all refusals, keep the table in the
//! caller's work words, mark there the strips that the root reaches, fill only those, pass over a part that is none
//! within the full budget, list once how budgets are shared, have a loop without shares for a sheet with one budget,
//! drop the bounds that can't bind, find once a site the slots at which its tip is too near another site, walk by rising x
//! to the lowest slot that keeps the least cost, and leave all work words zero. What is this one's own: the slots that may
//! open a label, and the cost of that, are known before a level is filled; the walk adds up the strips beside a site's own
//! once for the site, not for each slot that it tries.

use crate::budgets::{Budgets, Row, MOST};
use crate::costs::{Aim, NONE};
use crate::places::{barred, heights, PLACES};
use crate::sheet::{Sheet, Site, MOST_SITES};
use std::ops::Range;

/// In the first word of a strip: the root reaches it.
const MARK: u32 = 1;

/// Two neighbouring open labels, or edges. Colours count from 1 here; 0 is an edge's.
#[derive(Clone, Copy)]
struct Strip {
    above: usize,
    above_colour: usize,
    below: usize,
    below_colour: usize,
}

/// What the next site may do in a strip that holds it.
struct Steps {
    /// The least cost of a tie to the label above or below.
    join: u32,
    /// The first place at which it may open a label, and the place after the last.
    open: (usize, usize),
}

struct Maker<'a> {
    sheet: &'a Sheet,
    aim: Aim,
    budgets: Budgets,
    /// Sites by rising x.
    sites: Vec<Site>,
    /// For each of them, the places at which it may open no label, one bit each.
    barred: Vec<u64>,
    heights: [i32; PLACES],
    /// For each place, the first place at least the gap below it, and the place after the last one above it.
    after: [usize; PLACES],
    before: [usize; PLACES],
    bottom: usize,
    colours: usize,
    /// Words in a level.
    level: usize,
}

/// Fills the work area and gives the first word of the layout and each site's slot, by rising x.
pub fn best(sheet: &Sheet, order: &[usize], work: &mut [u32]) -> Option<(u32, [u8; MOST_SITES])> {
    let maker = Maker::new(sheet, order);
    maker.mark(work);
    maker.fill(work);
    maker.walk(work)
}

impl<'a> Maker<'a> {
    fn new(sheet: &'a Sheet, order: &[usize]) -> Maker<'a> {
        let budgets = Budgets::of(sheet);
        let (bottom, colours) = (sheet.slots.len() + 1, sheet.bounds.len() + 1);
        let heights = heights(sheet);
        let gap = sheet.gap as i32;
        let mut after = [bottom; PLACES];
        let mut before = [1; PLACES];
        for place in 0..=bottom {
            let clear = |other: &usize| (heights[*other] - heights[place]).abs() >= gap;
            after[place] = (place + 1..bottom).find(clear).unwrap_or(bottom);
            before[place] = (1..place).rev().find(clear).map_or(1, |last| last + 1);
        }
        let sites: Vec<Site> = order.iter().map(|site| sheet.sites[*site]).collect();
        Maker {
            sheet,
            aim: Aim::of(sheet),
            barred: barred(sheet, &sites),
            sites,
            heights,
            after,
            before,
            bottom,
            colours,
            level: (bottom + 1) * (bottom + 1) * colours * colours * budgets.count,
            budgets,
        }
    }

    fn root(&self) -> Strip {
        Strip { above: 0, above_colour: 0, below: self.bottom, below_colour: 0 }
    }

    /// Where the entries of a strip begin in a level.
    #[inline]
    fn entries(&self, strip: Strip) -> usize {
        let upper = strip.above * self.colours + strip.above_colour;
        let lower = strip.below * self.colours + strip.below_colour;
        (upper * (self.bottom + 1) * self.colours + lower) * self.budgets.count
    }

    /// The last place whose height is at or above the site.
    fn place_above(&self, site: &Site) -> usize {
        (0..self.bottom).rev().find(|place| self.heights[*place] <= site.y as i32).unwrap_or(0)
    }

    fn share_cost(&self, site: &Site, place: usize) -> u32 {
        self.aim.cost(0, self.sheet.share((self.heights[place] - site.y as i32).unsigned_abs()))
    }

    fn open_cost(&self, site: &Site, place: usize) -> u32 {
        self.aim.cost(1, self.sheet.width - site.x) + self.share_cost(site, place)
    }

    fn is_barred(&self, rank: usize, place: usize) -> bool {
        self.barred[rank] >> place & 1 == 1
    }

    fn steps(&self, site: &Site, strip: Strip) -> Steps {
        let (y, gap, colour) = (site.y as i32, self.sheet.gap as i32, site.colour + 1);
        let clear_above = y - self.heights[strip.above] >= gap;
        let clear_below = self.heights[strip.below] - y >= gap;
        let mut join = NONE;
        if strip.above_colour == colour && clear_below {
            join = self.share_cost(site, strip.above);
        }
        if strip.below_colour == colour && clear_above {
            join = join.min(self.share_cost(site, strip.below));
        }
        let mut open = (self.after[strip.above], self.before[strip.below]);
        if !clear_above || !clear_below || self.budgets.allowing[site.colour] == 0 {
            open.1 = open.0;
        }
        Steps { join, open }
    }

    fn parts(strip: Strip, place: usize, colour: usize) -> (Strip, Strip) {
        (Strip { below: place, below_colour: colour, ..strip }, Strip { above: place, above_colour: colour, ..strip })
    }

    /// The colours that an upper end at this place may have.
    #[inline]
    fn above_colours(&self, above: usize) -> Range<usize> {
        if above == 0 {
            0..1
        } else {
            1..self.colours
        }
    }

    /// Every strip, one after the other.
    #[inline]
    fn for_each_strip(&self, mut act: impl FnMut(Strip)) {
        for above in 0..self.bottom {
            for above_colour in self.above_colours(above) {
                for below in above + 1..=self.bottom {
                    let below_colours = if below == self.bottom { 0..1 } else { 1..self.colours };
                    for below_colour in below_colours {
                        act(Strip { above, above_colour, below, below_colour });
                    }
                }
            }
        }
    }

    /// Clears the marks of a level that are looked at: those below each upper end.
    fn clear_marks(&self, level: &mut [u32]) {
        let count = self.budgets.count;
        for above in 0..self.bottom {
            for above_colour in self.above_colours(above) {
                let first = Strip { above, above_colour, below: above + 1, below_colour: 0 };
                let last = Strip { below: self.bottom, ..first };
                let rows = &mut level[self.entries(first)..self.entries(last) + count];
                rows.chunks_exact_mut(count).for_each(|row| row[0] = 0);
            }
        }
    }

    /// Marks, level by level, the strips that the root reaches: only those are filled.
    fn mark(&self, work: &mut [u32]) {
        for level in work.chunks_exact_mut(self.level).take(self.sites.len() + 1) {
            self.clear_marks(level);
        }
        work[self.entries(self.root())] = MARK;
        for (rank, site) in self.sites.iter().enumerate() {
            let (here, next) = work[rank * self.level..].split_at_mut(self.level);
            let split = self.place_above(site);
            self.for_each_strip(|strip| {
                let entries = self.entries(strip);
                if here[entries] == MARK {
                    if strip.above <= split && split < strip.below {
                        self.mark_steps(rank, strip, next);
                    } else {
                        next[entries] = MARK;
                    }
                }
            });
        }
    }

    fn mark_steps(&self, rank: usize, strip: Strip, next: &mut [u32]) {
        let site = &self.sites[rank];
        let steps = self.steps(site, strip);
        if steps.join != NONE {
            next[self.entries(strip)] = MARK;
        }
        for place in (steps.open.0..steps.open.1).filter(|place| !self.is_barred(rank, *place)) {
            let (upper, lower) = Self::parts(strip, place, site.colour + 1);
            next[self.entries(upper)] = MARK;
            next[self.entries(lower)] = MARK;
        }
    }

    /// Fills the marked strips of each level from the level of the next site, the last first.
    fn fill(&self, work: &mut [u32]) {
        let count = self.budgets.count;
        let last = &mut work[self.sites.len() * self.level..][..self.level];
        last.fill(0);
        for (rank, site) in self.sites.iter().enumerate().rev() {
            let (here, next) = work[rank * self.level..].split_at_mut(self.level);
            let split = self.place_above(site);
            let mut open_costs = [0; PLACES];
            for (place, cost) in open_costs.iter_mut().enumerate().take(self.bottom).skip(1) {
                *cost = if self.is_barred(rank, place) { NONE } else { self.open_cost(site, place) };
            }
            self.for_each_strip(|strip| {
                let entries = self.entries(strip);
                if here[entries] != MARK {
                    return;
                }
                let row = &mut here[entries..][..count];
                if strip.above > split || split >= strip.below {
                    row.copy_from_slice(&next[entries..][..count]);
                } else if count == 1 {
                    row[0] = self.least(site, strip, &open_costs, next);
                } else {
                    self.fill_row(site, strip, &open_costs, next, row);
                }
            });
        }
    }

    /// The entry of a strip that holds the site, where there is but one budget.
    fn least(&self, site: &Site, strip: Strip, open_costs: &[u32; PLACES], next: &[u32]) -> u32 {
        let steps = self.steps(site, strip);
        let mut least = NONE;
        if steps.join != NONE {
            least = next[self.entries(strip)].saturating_add(steps.join);
        }
        for (place, open) in open_costs.iter().enumerate().take(steps.open.1).skip(steps.open.0) {
            let (upper, lower) = Self::parts(strip, place, site.colour + 1);
            let parts = next[self.entries(upper)].saturating_add(next[self.entries(lower)]);
            least = least.min(parts.saturating_add(*open));
        }
        least
    }

    /// The entries of a strip that holds the site.
    fn fill_row(&self, site: &Site, strip: Strip, open_costs: &[u32; PLACES], next: &[u32], row: &mut [u32]) {
        let count = self.budgets.count;
        let steps = self.steps(site, strip);
        let joined = &next[self.entries(strip)..][..count];
        for (cost, joined) in row.iter_mut().zip(joined) {
            *cost = if steps.join == NONE { NONE } else { joined.saturating_add(steps.join) };
        }
        let (mut upper_row, mut lower_row): (Row, Row) = ([NONE; MOST], [NONE; MOST]);
        for (place, open) in open_costs.iter().enumerate().take(steps.open.1).skip(steps.open.0) {
            let (upper, lower) = Self::parts(strip, place, site.colour + 1);
            let upper = &next[self.entries(upper)..][..count];
            let lower = &next[self.entries(lower)..][..count];
            // A strip that is none within the full budget is none within every budget.
            if *open != NONE && upper[count - 1] != NONE && lower[count - 1] != NONE {
                upper_row[..count].copy_from_slice(upper);
                lower_row[..count].copy_from_slice(lower);
                self.share(site.colour, *open, &upper_row, &lower_row, row);
            }
        }
    }

    /// Lowers a row by opening a label: what its draw leaves is shared out among the two parts.
    fn share(&self, colour: usize, open: u32, upper: &Row, lower: &Row, row: &mut [u32]) {
        let draw = self.budgets.draw[colour];
        for (budget, cost) in row.iter_mut().enumerate() {
            if self.budgets.allowing[colour] >> budget & 1 == 1 {
                let parts = self.budgets.least_share(budget - draw, upper, lower);
                *cost = (*cost).min(parts.saturating_add(open));
            }
        }
    }

    /// Ties the sites by rising x, each to the lowest slot that keeps the least cost.
    fn walk(&self, work: &[u32]) -> Option<(u32, [u8; MOST_SITES])> {
        let mut budget = self.budgets.count - 1;
        let mut left = work[self.entries(self.root()) + budget];
        if left == NONE {
            return None;
        }
        let stated = self.aim.stated(left);
        let mut slots = [0; MOST_SITES];
        let mut open = [0; PLACES];
        for (rank, site) in self.sites.iter().enumerate() {
            let next = &work[(rank + 1) * self.level..];
            let (place, cost) = self.first_step(rank, &open, budget, left, next);
            left -= cost;
            if open[place] == 0 {
                open[place] = site.colour + 1;
                budget -= self.budgets.draw[site.colour];
            }
            slots[rank] = place as u8 - 1;
        }
        Some((stated, slots))
    }

    /// The lowest place whose step keeps the least cost, and the cost of that step.
    fn first_step(&self, rank: usize, open: &[usize; PLACES], budget: usize, left: u32, next: &[u32]) -> (usize, u32) {
        let site = &self.sites[rank];
        let (strip, others) = self.part_page(site, open, next);
        let steps = self.steps(site, strip);
        let colour = site.colour + 1;
        let whole = self.row(strip, next);
        let keeps = |cost: u32, rest: &Row, budget: usize| {
            let rest = self.budgets.least_share(budget, &others, rest);
            rest != NONE && rest.saturating_add(cost) == left
        };
        let gap = self.sheet.gap as i32;
        let clear_below = self.heights[strip.below] - site.y as i32 >= gap;
        let up = self.share_cost(site, strip.above);
        if strip.above_colour == colour && clear_below && keeps(up, &whole, budget) {
            return (strip.above, up);
        }
        for place in (steps.open.0..steps.open.1).filter(|place| !self.is_barred(rank, *place)) {
            let cost = self.open_cost(site, place);
            if self.budgets.allowing[site.colour] >> budget & 1 == 1
                && keeps(cost, &self.opened(strip, place, colour, next), budget - self.budgets.draw[site.colour])
            {
                return (place, cost);
            }
        }
        (strip.below, self.share_cost(site, strip.below))
    }

    /// The strip that holds the site, and the row of all other strips together.
    fn part_page(&self, site: &Site, open: &[usize; PLACES], next: &[u32]) -> (Strip, Row) {
        let split = self.place_above(site);
        let mut strip = self.root();
        let mut holder = strip;
        let mut others = [0; MOST];
        for (place, colour) in open.iter().enumerate().take(self.bottom + 1).skip(1) {
            if place < self.bottom && *colour == 0 {
                continue;
            }
            strip = Strip { below: place, below_colour: *colour, ..strip };
            if strip.above <= split && split < strip.below {
                holder = strip;
            } else {
                others = self.together(&others, &self.row(strip, next));
            }
            strip = Strip { above: place, above_colour: *colour, ..strip };
        }
        (holder, others)
    }

    fn row(&self, strip: Strip, next: &[u32]) -> Row {
        let mut row = [NONE; MOST];
        row[..self.budgets.count].copy_from_slice(&next[self.entries(strip)..][..self.budgets.count]);
        row
    }

    fn opened(&self, strip: Strip, place: usize, colour: usize, next: &[u32]) -> Row {
        let (upper, lower) = Self::parts(strip, place, colour);
        self.together(&self.row(upper, next), &self.row(lower, next))
    }

    /// The row of two parts together.
    fn together(&self, upper: &Row, lower: &Row) -> Row {
        let mut row = [NONE; MOST];
        for (budget, cost) in row.iter_mut().enumerate().take(self.budgets.count) {
            *cost = self.budgets.least_share(budget, upper, lower);
        }
        row
    }
}
