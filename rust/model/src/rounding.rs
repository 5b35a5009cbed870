//! A rival that rounds: the article's table, with the sum of lengths rounded at each cut.
//!
//! It stands here so that tests can be aimed at it, and for nothing else. Its steps, its shares of the bounds and its
//! aims are the right ones, so each of its layouts is lawful; where nothing is rounded, each is a best one. Equals
//! within a strip go to the lowest slot and then to the least share of the upper part, strip by strip.

use crate::budgets::Budgets;
use crate::maker::keep_binding_bounds;
use crate::places::{barred, heights, PLACES};
use crate::sheet::{Sheet, Site};
use std::collections::HashMap;
use std::rc::Rc;

/// To what a length is rounded at each cut. Halves are rounded up.
#[derive(Clone, Copy, Debug, PartialEq, Eq)]
pub enum Rounding {
    TenthMillimetre,
    TenthPoint,
    None,
}

impl Rounding {
    pub const ALL: [Rounding; 3] = [Rounding::TenthMillimetre, Rounding::TenthPoint, Rounding::None];

    pub fn name(self) -> &'static str {
        match self {
            Rounding::TenthMillimetre => "0.1mm",
            Rounding::TenthPoint => "0.1pt",
            Rounding::None => "none",
        }
    }

    pub fn from_name(name: &str) -> Option<Rounding> {
        Rounding::ALL.into_iter().find(|rounding| rounding.name() == name)
    }

    /// A unit and a step, both as whole numbers of one small length: a unit is an eighth of a point, or 127/2880 mm,
    /// and a tenth of a millimetre is 288/2880 mm; a tenth of a point is 4/40 points, and a unit 5/40.
    fn unit_and_step(self) -> (u64, u64) {
        match self {
            Rounding::TenthMillimetre => (127, 288),
            Rounding::TenthPoint => (5, 4),
            Rounding::None => (1, 1),
        }
    }

    fn exact(self, units: u32) -> u64 {
        self.unit_and_step().0 * u64::from(units)
    }

    fn rounded(self, length: u64) -> u64 {
        let (_, step) = self.unit_and_step();
        (2 * length + step) / (2 * step) * step
    }
}

/// What the rival can't do.
#[derive(Clone, Copy, Debug, PartialEq, Eq)]
pub enum Unserved {
    /// It cuts strips, which a two-sided sheet doesn't have.
    TwoSided,
    /// No layout obeys rules 1 to 5.
    NoLayout,
}

/// Two neighbouring open labels by place and colour; colours count from 1, and 0 is an edge's.
#[derive(Clone, Copy, PartialEq, Eq, Hash)]
struct Strip {
    above: (usize, usize),
    below: (usize, usize),
}

/// The least rounded cost of the rest of a strip within one budget, and the step that gives it.
#[derive(Clone, Copy)]
struct Entry {
    count: u32,
    length: u64,
    place: usize,
    /// The part of the budget that the upper part gets, where the step is a cut.
    upper: usize,
}

/// One entry for each budget; none where the rest of the strip can't be tied within it.
type Row = Rc<Vec<Option<Entry>>>;

struct Rival<'a> {
    sheet: &'a Sheet,
    rounding: Rounding,
    budgets: Budgets,
    order: Vec<usize>,
    /// For each rank, the places at which its site may open no label, one bit each.
    barred: Vec<u64>,
    heights: [i32; PLACES],
    known: HashMap<(usize, Strip), Row>,
    /// Where ties are given, they alone are allowed.
    given: Option<&'a [usize]>,
}

/// The slots, in sheet order, that are best by the rounded lengths.
pub fn lay_out(sheet: &Sheet, rounding: Rounding) -> Result<Vec<usize>, Unserved> {
    let mut binding = sheet.clone();
    keep_binding_bounds(&mut binding);
    let mut rival = Rival::new(&binding, rounding, None)?;
    let mut slot_of = vec![0; sheet.sites.len()];
    let (root, all) = (rival.root(), rival.budgets.count - 1);
    rival.best(root, all).ok_or(Unserved::NoLayout)?;
    rival.walk(0, root, all, &mut slot_of);
    Ok(slot_of)
}

/// The length that a lawful layout has by the rival's sums, in tenths of its measure, or in units without rounding.
pub fn rounded_length(sheet: &Sheet, slot_of: &[usize], rounding: Rounding) -> Result<u64, Unserved> {
    let mut rival = Rival::new(sheet, rounding, Some(slot_of))?;
    let (root, all) = (rival.root(), rival.budgets.count - 1);
    let best = rival.best(root, all).ok_or(Unserved::NoLayout)?;
    Ok(best / rounding.unit_and_step().1)
}

impl<'a> Rival<'a> {
    fn new(sheet: &'a Sheet, rounding: Rounding, given: Option<&'a [usize]>) -> Result<Rival<'a>, Unserved> {
        if sheet.two_sided {
            return Err(Unserved::TwoSided);
        }
        let order = sheet.by_x();
        let sites: Vec<Site> = order.iter().map(|site| sheet.sites[*site]).collect();
        Ok(Rival {
            sheet,
            rounding,
            budgets: Budgets::of(sheet),
            order,
            barred: barred(sheet, &sites),
            heights: heights(sheet),
            known: HashMap::new(),
            given,
        })
    }

    fn root(&self) -> Strip {
        Strip { above: (0, 0), below: (self.sheet.slots.len() + 1, 0) }
    }

    /// The rounded length of the whole sheet within a budget.
    fn best(&mut self, root: Strip, budget: usize) -> Option<u64> {
        self.row(0, root)[budget].map(|entry| entry.length)
    }

    fn site(&self, rank: usize) -> Site {
        self.sheet.sites[self.order[rank]]
    }

    fn holds(&self, strip: Strip, site: Site) -> bool {
        let y = site.y as i32;
        self.heights[strip.above.0] <= y && y < self.heights[strip.below.0]
    }

    /// The first rank from this one on whose site lies in the strip.
    fn next_in(&self, rank: usize, strip: Strip) -> Option<usize> {
        (rank..self.order.len()).find(|rank| self.holds(strip, self.site(*rank)))
    }

    /// The row of a strip from a rank on.
    fn row(&mut self, rank: usize, strip: Strip) -> Row {
        let Some(rank) = self.next_in(rank, strip) else {
            let nothing = Entry { count: 0, length: 0, place: 0, upper: 0 };
            return Rc::new(vec![Some(nothing); self.budgets.count]);
        };
        if let Some(row) = self.known.get(&(rank, strip)) {
            return row.clone();
        }
        let mut row = vec![None; self.budgets.count];
        for place in strip.above.0..=strip.below.0 {
            if self.given.is_some_and(|slots| slots[self.order[rank]] + 1 != place) {
                continue;
            }
            if place == strip.above.0 || place == strip.below.0 {
                self.join(rank, strip, place, &mut row);
            } else if self.may_open(rank, strip, place) {
                self.open(rank, strip, place, &mut row);
            }
        }
        let row = Rc::new(row);
        self.known.insert((rank, strip), row.clone());
        row
    }

    fn is_clear(&self, place: usize, height: i32) -> bool {
        (self.heights[place] - height).abs() >= self.sheet.gap as i32
    }

    fn may_join(&self, site: Site, strip: Strip, place: usize) -> bool {
        let (own, other) = if place == strip.above.0 { (strip.above, strip.below) } else { (strip.below, strip.above) };
        own.1 == site.colour + 1 && self.is_clear(other.0, site.y as i32)
    }

    fn may_open(&self, rank: usize, strip: Strip, place: usize) -> bool {
        let y = self.site(rank).y as i32;
        let is_barred = self.barred[rank] >> place & 1 == 1;
        let far = |end: usize| self.is_clear(end, self.heights[place]) && self.is_clear(end, y);
        !is_barred && far(strip.above.0) && far(strip.below.0)
    }

    fn share_length(&self, site: Site, place: usize) -> u64 {
        self.rounding.exact(self.sheet.share((self.heights[place] - site.y as i32).unsigned_abs()))
    }

    /// Lowers a row by tying its site to a label of the strip's end. Nothing is rounded.
    fn join(&mut self, rank: usize, strip: Strip, place: usize, row: &mut [Option<Entry>]) {
        let site = self.site(rank);
        if !self.may_join(site, strip, place) {
            return;
        }
        let share = self.share_length(site, place);
        let rest = self.row(rank + 1, strip);
        for (entry, rest) in row.iter_mut().zip(rest.iter().copied()) {
            if let Some(rest) = rest {
                self.lower(entry, Entry { length: rest.length + share, place, upper: 0, ..rest });
            }
        }
    }

    /// Lowers a row by opening a label: here the sum is rounded.
    fn open(&mut self, rank: usize, strip: Strip, place: usize, row: &mut [Option<Entry>]) {
        let site = self.site(rank);
        let (upper, lower) = parts(strip, place, site.colour);
        let (upper, lower) = (self.row(rank + 1, upper), self.row(rank + 1, lower));
        let own = self.rounding.exact(self.sheet.width - site.x) + self.share_length(site, place);
        let allowed = |budget: &usize| self.budgets.allowing[site.colour] >> budget & 1 == 1;
        for budget in (0..self.budgets.count).filter(allowed) {
            for (part, rest) in self.budgets.shares(budget - self.budgets.draw[site.colour]) {
                if let (Some(above), Some(below)) = (upper[usize::from(*part)], lower[usize::from(*rest)]) {
                    let length = self.rounding.rounded(above.length + below.length + own);
                    let count = above.count + below.count + 1;
                    self.lower(&mut row[budget], Entry { count, length, place, upper: usize::from(*part) });
                }
            }
        }
    }

    /// Keeps the first of the equals.
    fn lower(&self, entry: &mut Option<Entry>, found: Entry) {
        let cost = |entry: Entry| match self.sheet.shortest {
            true => (entry.length, u64::from(entry.count)),
            false => (u64::from(entry.count), entry.length),
        };
        if entry.is_none_or(|old| cost(found) < cost(old)) {
            *entry = Some(found);
        }
    }

    /// Ties the sites of a strip from a rank on as its entry says.
    fn walk(&mut self, rank: usize, strip: Strip, budget: usize, slot_of: &mut [usize]) {
        let Some(rank) = self.next_in(rank, strip) else { return };
        let Some(entry) = self.row(rank, strip)[budget] else { return };
        slot_of[self.order[rank]] = entry.place - 1;
        if entry.place == strip.above.0 || entry.place == strip.below.0 {
            self.walk(rank + 1, strip, budget, slot_of);
        } else {
            let colour = self.site(rank).colour;
            let (upper, lower) = parts(strip, entry.place, colour);
            let left = budget - self.budgets.draw[colour];
            self.walk(rank + 1, upper, entry.upper, slot_of);
            self.walk(rank + 1, lower, left - entry.upper, slot_of);
        }
    }
}

/// The upper and the lower part that a new label of this colour leaves of a strip.
fn parts(strip: Strip, place: usize, colour: usize) -> (Strip, Strip) {
    let own = (place, colour + 1);
    (Strip { below: own, ..strip }, Strip { above: own, ..strip })
}
