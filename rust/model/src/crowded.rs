//! Random stored sheets up to the limits of the counts, and one past them.
//!
//! Each site lies near its own slot and far from all others, so that rules 3, 4 and 5 hold wherever its x is; bounds are at,
//! one above or one below the number of different slots that a colour's sites have. So rule 2 alone decides, until something
//! is changed.

use crate::random::{damage, Random};
use crate::rules::layout_words;
use crate::sheet::{Sheet, Site, MOST_BUDGETS, MOST_CHARGE, MOST_COLOURS, MOST_SITES, MOST_SLOTS, UNBOUNDED};

/// A sheet with a slot for each of its sites.
pub struct Tied {
    pub sheet: Sheet,
    pub slot_of: Vec<usize>,
}

/// Mostly one of the limits or a number below it; now and then one more, which is refused.
fn count(most: usize, random: &mut Random) -> usize {
    match random.below(24) {
        0 => most + 1,
        1..=8 => most,
        _ => random.between(1, most as u32) as usize,
    }
}

/// The number of different slots that the sites of each colour have.
pub fn slots_of_colours(tied: &Tied) -> Vec<u32> {
    let own = |colour: usize| {
        let sites = tied.sheet.sites.iter().zip(&tied.slot_of);
        let slots = sites.filter(|(site, _)| site.colour == colour).fold(0u64, |slots, (_, slot)| slots | 1 << slot);
        slots.count_ones()
    };
    (0..tied.sheet.bounds.len()).map(own).collect()
}

/// A sheet whose layout obeys all rules but perhaps rule 2, with counts up to the limits and one past them.
pub fn crowded(random: &mut Random) -> Tied {
    let (slots, colours) = (count(MOST_SLOTS, random), count(MOST_COLOURS, random));
    let sites = count(MOST_SITES, random);
    // Few slots are shared by many sites.
    let spread = random.between(1, slots as u32);
    let owners: Vec<usize> = (0..slots).map(|_| random.below(colours as u32) as usize).collect();
    let most_apart = random.pick(&[1, 3, 10, 300]);
    let apart = random.between(1, most_apart);
    let gap = random.between(1, apart);
    let width = random.pick(&[sites as u32, 600, 16382]);
    let slots: Vec<u32> = (1..=slots as u32).map(|slot| apart * slot).collect();
    let mut columns = random.rising(sites, width);
    random.shuffle(&mut columns);
    let mut tied: Vec<(usize, Site)> = Vec::new();
    for x in columns {
        let slot = random.below(spread) as usize;
        let y = slots[slot] + random.between(0, 2 * (apart - gap)) - (apart - gap);
        tied.push((slot, Site { x, y, colour: owners[slot] }));
    }
    tied.sort_by_key(|(_, site)| site.colour);
    let (slot_of, sites) = tied.into_iter().unzip();
    let charge = random.one_in(2).then(|| random.pick(&[0, 1, gap, MOST_CHARGE]));
    let (two_sided, shortest) = (random.one_in(2), random.one_in(2));
    let bounds = vec![UNBOUNDED; colours];
    let sheet = Sheet { two_sided, shortest, gap, width, charge, slots, bounds, sites };
    let mut tied = Tied { sheet, slot_of };
    bound_colours(&mut tied, random);
    tied
}

/// Bounds near the number of slots that a colour's sites have, as far as there are budgets for them; on every third sheet one
/// colour has one slot more than its bound.
fn bound_colours(tied: &mut Tied, random: &mut Random) {
    let own = slots_of_colours(tied);
    let mut order: Vec<usize> = (0..own.len()).collect();
    random.shuffle(&mut order);
    let below = random.one_in(3);
    let mut budgets = 1;
    for (place, colour) in order.into_iter().enumerate() {
        let bound = if below && place == 0 { own[colour].saturating_sub(1) } else { own[colour] + random.below(2) };
        let product = budgets * u64::from(bound + 1);
        if product <= MOST_BUDGETS && !(place > 0 && random.one_in(4)) {
            tied.sheet.bounds[colour] = bound;
            budgets = product;
        }
    }
}

/// Changes one number of a sheet that is in form, so that it still is: a rule from 1 to 5 may then be broken.
fn misplace(tied: &mut Tied, random: &mut Random) {
    let Tied { sheet, slot_of } = tied;
    let (site, other) = (random.below(slot_of.len() as u32) as usize, random.below(slot_of.len() as u32) as usize);
    match random.below(5) {
        0 => sheet.gap = (sheet.gap + random.between(1, 3)).min(4095),
        1 => sheet.gap = random.between(sheet.gap, 4095),
        2 => sheet.sites[site].y = random.pick(&sheet.slots),
        3 => slot_of[site] = slot_of[other],
        _ => slot_of[site] = random.below(sheet.slots.len() as u32) as usize,
    }
}

/// Changes one number of a sheet so that it is refused.
fn spoil(sheet: &mut Sheet, random: &mut Random) {
    let (site, other) = (random.pick(&sheet.sites), random.below(sheet.sites.len() as u32) as usize);
    let slot = random.below(sheet.slots.len() as u32) as usize;
    match random.below(5) {
        0 => sheet.width = 0,
        1 => sheet.slots[slot] = random.pick(&sheet.slots),
        2 => sheet.sites[other].x = sheet.width + 1,
        3 => sheet.sites[other].x = site.x,
        _ => sheet.bounds.iter_mut().for_each(|bound| *bound = random.pick(&[7, 8, 64, 254])),
    }
}

/// A stored sheet with counts up to the limits and one past them: as it is, with a number changed, without its kind 8 word,
/// without its layout, or damaged.
pub fn crowded_stored(random: &mut Random) -> Vec<u32> {
    let mut tied = crowded(random);
    let change = random.below(12);
    if (1..=4).contains(&change) {
        misplace(&mut tied, random);
    }
    let mut layout = layout_words(&tied.sheet, &tied.slot_of);
    match change {
        5 => layout[0] = layout[0].wrapping_add(random.pick(&[1, u32::MAX, 1 << 21])),
        6 => drop(layout.remove(0)),
        7 => layout.clear(),
        8 | 9 => spoil(&mut tied.sheet, random),
        _ => {}
    }
    let mut stored = [tied.sheet.words(), layout].concat();
    if change >= 10 {
        damage(&mut stored, random);
    }
    stored
}
