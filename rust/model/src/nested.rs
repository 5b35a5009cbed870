//! Random sheets that are likely to need nested cuts: they are aimed at a depth, and a maker says which have it.
//!
//! Sites from left to right close in on a part of the page, now from above and now from below: each lies in the strip
//! that the labels before it are likely to leave, with slots beside it and, mostly, a colour that neither neighbour
//! has. Choices that cost almost the same are put in on purpose, since only they show a sum that is not exact: two
//! slots of a site that are almost as near, and pairs of sites of which only one can have its nearer slot.

use crate::random::Random;
use crate::sheet::{Sheet, Site, MOST_COLOURS, MOST_SITES, UNBOUNDED};

/// The deepest cut that sheets are drawn for.
pub const MOST_DEPTH: u32 = 12;

/// The numbers that a nested sheet is drawn from. A unit is an eighth of a point.
#[derive(Clone, Copy)]
struct Shape {
    colours: usize,
    width: u32,
    gap: u32,
    /// The distance in height from one cut to the next, more or less.
    step: u32,
    height: u32,
}

/// An end of the part of the page that is left, upper or lower.
#[derive(Clone, Copy)]
struct End {
    height: u32,
    colour: Option<usize>,
    /// The site whose label is likely to lie there, where it has no partner yet.
    single: Option<usize>,
}

/// A sheet in the making.
struct Drawing {
    shape: Shape,
    sites: Vec<Site>,
    /// Slots, each with the site that it was drawn for.
    slots: Vec<(u32, usize)>,
}

/// A sheet that is drawn for this depth, from 1 to [`MOST_DEPTH`]: many such sheets have a best layout of that depth.
pub fn sheet(depth: u32, shortest: bool, random: &mut Random) -> Sheet {
    let shape = shape(depth, shortest, random);
    let mut drawing = Drawing { shape, sites: Vec::new(), slots: Vec::new() };
    drawing.add_chain(depth, shortest, random);
    drawing.add_joining(depth, random);
    let Drawing { mut sites, slots, .. } = drawing;
    let mut slots: Vec<u32> = slots.into_iter().map(|(height, _)| height).collect();
    slots.sort_unstable();
    slots.dedup();
    sites.sort_by_key(|site| site.colour);
    let bounds = bounds(&sites, shape.colours, random);
    Sheet { two_sided: false, shortest, gap: shape.gap, width: shape.width, charge: None, slots, bounds, sites }
}

fn shape(depth: u32, shortest: bool, random: &mut Random) -> Shape {
    let step = random.between(60, 300);
    let most_colours = (depth + 1).min(MOST_COLOURS as u32);
    // With few colours the fewest labels are fewer than the cuts that are wanted.
    let least_colours = depth.min(if shortest { 3 } else { MOST_COLOURS as u32 - 1 });
    Shape {
        colours: random.between(least_colours, most_colours) as usize,
        width: random.between(300, 3_000),
        gap: step * random.between(20, 60) / 100,
        step,
        height: step * (depth + 3),
    }
}

impl Drawing {
    /// One site for each cut, from left to right, each in the part that those before leave.
    fn add_chain(&mut self, depth: u32, shortest: bool, random: &mut Random) {
        let shape = self.shape;
        let span = random.between(100, shape.width);
        let mut ends = [0, shape.height].map(|height| End { height, colour: None, single: None });
        for x in random.rising(depth as usize, span) {
            let side = random.below(2) as usize;
            let colour = self.colour(&ends, shortest, random);
            let site = self.sites.len();
            let partner = ends[side].single.filter(|_| random.one_in(2));
            let apart = match partner {
                Some(_) => shape.gap + random.between(2, shape.gap / 2 + 2),
                None => shape.step * random.between(60, 130) / 100,
            };
            let height = if side == 0 { ends[0].height + apart } else { ends[1].height - apart };
            self.sites.push(Site { x: x + shape.width - span, y: height, colour });
            match partner {
                Some(partner) => self.add_pair(partner, site, random),
                None => self.add_slots(site, random),
            }
            ends[side] = End { height, colour: Some(colour), single: partner.is_none().then_some(site) };
        }
    }

    /// Mostly a colour that no end of the part has. Where the fewest labels are wanted, mostly one that is new: two
    /// sites of one colour would share a label.
    fn colour(&self, ends: &[End; 2], shortest: bool, random: &mut Random) -> usize {
        let is_other = |colour: &usize| ends.iter().all(|end| end.colour != Some(*colour));
        let is_new = |colour: &usize| self.sites.iter().all(|site| site.colour != *colour);
        let all = 0..self.shape.colours;
        let new: Vec<usize> = all.clone().filter(is_new).collect();
        let others: Vec<usize> = all.filter(is_other).collect();
        if !shortest && !new.is_empty() && !random.one_in(12) {
            random.pick(&new)
        } else if others.is_empty() || random.one_in(6) {
            random.below(self.shape.colours as u32) as usize
        } else {
            random.pick(&others)
        }
    }

    fn add_slot(&mut self, site: usize, height: i64) {
        self.slots.push((height.max(0) as u32, site));
    }

    /// A slot near a site, and often one on its other side that is almost as near.
    fn add_slots(&mut self, site: usize, random: &mut Random) {
        let y = i64::from(self.sites[site].y);
        let reach = i64::from(random.between(0, self.shape.gap));
        let other = reach + i64::from(random.below(5)) - 2;
        match random.below(6) {
            0 => self.add_slot(site, y - reach),
            1 => self.add_slot(site, y + other),
            _ => {
                self.add_slot(site, y - reach);
                self.add_slot(site, y + other);
            }
        }
    }

    /// Two neighbours with a near slot between them for each, closer than the gap, and a further one on the outside
    /// for each: one of the two has to take the further one, and either costs almost the same.
    fn add_pair(&mut self, first: usize, second: usize, random: &mut Random) {
        let (from, to) = (i64::from(self.sites[first].y), i64::from(self.sites[second].y));
        let (gap, inwards) = (i64::from(self.shape.gap), (to - from).signum());
        let spare = (to - from).abs() - gap;
        let near_second = i64::from(random.between(1, self.shape.gap / 3 + 1));
        let near_first = (spare - near_second + 1).max(0) + i64::from(random.below(2));
        let more = i64::from(random.between(0, self.shape.gap / 2));
        let other = more + i64::from(random.below(3)) - 1;
        self.slots.retain(|(_, site)| *site != first);
        self.add_slot(first, from + inwards * near_first.min(spare));
        self.add_slot(first, from - inwards * (near_first + more));
        self.add_slot(second, to - inwards * near_second);
        self.add_slot(second, to + inwards * (near_second + other));
    }

    /// Sites at the right that may join a label of their colour.
    fn add_joining(&mut self, depth: u32, random: &mut Random) {
        for _ in 0..random.below(4) + u32::from(depth == 1) {
            let to = random.pick(&self.sites);
            let reach = random.between(0, self.shape.step);
            let y = if random.one_in(2) { to.y.saturating_sub(reach) } else { to.y + reach };
            let x = random.between(to.x, self.shape.width);
            if self.sites.len() < MOST_SITES && self.sites.iter().all(|site| site.x != x) {
                self.sites.push(Site { x, y, ..to });
            }
        }
    }
}

/// One sheet in three has a bounded colour or two.
fn bounds(sites: &[Site], colours: usize, random: &mut Random) -> Vec<u32> {
    let mut bounds = vec![UNBOUNDED; colours];
    if random.one_in(3) {
        for _ in 0..random.between(1, 2) {
            let colour = random.below(colours as u32) as usize;
            let own = sites.iter().filter(|site| site.colour == colour).count() as u32;
            bounds[colour] = random.between(own.saturating_sub(2), own).clamp(1, 5);
        }
    }
    bounds
}
