//! Random sheets and damage to them, the same on each run.

use crate::rules::{self, layout_words};
use crate::search::{find, find_by};
use crate::sheet::{Sheet, Site, MOST_BUDGETS, MOST_CHARGE, UNBOUNDED};
use crate::verdicts::Verdicts;

/// Splitmix64: one 64-bit state, good enough to spread over small sheets.
pub struct Random(u64);

impl Random {
    pub fn new(seed: u64) -> Random {
        Random(seed)
    }

    /// A stream of its own for each list of numbers.
    pub fn of(numbers: &[u64]) -> Random {
        let mut state = 0;
        for number in numbers {
            let mut mixed = Random(state ^ number);
            state = u64::from(mixed.word()) << 32 | u64::from(mixed.word());
        }
        Random(state)
    }

    /// A stream of its own beside this one, which goes on as if nothing had been drawn: a charge alters no other draw.
    fn beside(&self) -> Random {
        Random::of(&[self.0])
    }

    pub fn word(&mut self) -> u32 {
        self.0 = self.0.wrapping_add(0x9E37_79B9_7F4A_7C15);
        let mut mixed = self.0;
        mixed = (mixed ^ mixed >> 30).wrapping_mul(0xBF58_476D_1CE4_E5B9);
        mixed = (mixed ^ mixed >> 27).wrapping_mul(0x94D0_49BB_1331_11EB);
        (mixed >> 32) as u32
    }

    /// A number below `limit`, which is not 0.
    pub fn below(&mut self, limit: u32) -> u32 {
        self.word() % limit
    }

    /// A number from `low` to `high`, both included.
    pub fn between(&mut self, low: u32, high: u32) -> u32 {
        low + self.below(high - low + 1)
    }

    pub fn one_in(&mut self, chances: u32) -> bool {
        self.below(chances) == 0
    }

    pub fn pick<T: Copy>(&mut self, items: &[T]) -> T {
        items[self.below(items.len() as u32) as usize]
    }

    /// `count` different numbers from 0 to `most`, rising; fewer if there are not so many.
    pub fn rising(&mut self, count: usize, most: u32) -> Vec<u32> {
        let mut numbers = Vec::with_capacity(count);
        while numbers.len() < count.min(most as usize + 1) {
            let number = self.between(0, most);
            if !numbers.contains(&number) {
                numbers.push(number);
            }
        }
        numbers.sort_unstable();
        numbers
    }

    pub fn shuffle<T>(&mut self, items: &mut [T]) {
        for last in (1..items.len()).rev() {
            items.swap(last, self.below(last as u32 + 1) as usize);
        }
    }
}

/// The numbers that a random sheet is drawn from.
#[derive(Clone, Copy)]
pub struct Shape {
    pub slots: usize,
    pub colours: usize,
    pub sites: usize,
    pub width: u32,
    pub gap: u32,
    /// Slots and sites lie at heights up to this.
    pub height: u32,
}

/// A sheet of exactly this shape, with its sites spread over the colours, bounds that may be shared, and a charge or none.
pub fn sheet_of(shape: Shape, random: &mut Random) -> Sheet {
    let slots = random.rising(shape.slots, shape.height);
    let bounds = bounds(shape.colours, random);
    let mut sites: Vec<Site> = Vec::new();
    if shape.colours > 0 {
        for x in columns(shape, random) {
            let colour = random.below(shape.colours as u32) as usize;
            sites.push(Site { x, y: site_height(&slots, &sites, shape.height, random), colour });
        }
    }
    sites.sort_by_key(|site| site.colour);
    let (two_sided, shortest) = (random.one_in(2), random.one_in(2));
    let charge = charge(shape, &mut random.beside());
    Sheet { two_sided, shortest, gap: shape.gap, width: shape.width, charge, slots, bounds, sites }
}

/// The x of the sites, in any order.
fn columns(shape: Shape, random: &mut Random) -> Vec<u32> {
    let anywhere = random.rising(shape.sites, shape.width);
    let mut columns = near_columns(shape, &mut random.beside()).unwrap_or(anywhere);
    random.shuffle(&mut columns);
    columns
}

/// Every second time columns about the gap apart, where the width has room for them: then tips have sites beside them, less
/// than the gap to the left, as far as the gap, and further.
fn near_columns(shape: Shape, random: &mut Random) -> Option<Vec<u32>> {
    let mut x = random.between(0, shape.gap);
    let mut columns = Vec::new();
    for _ in 0..shape.sites {
        columns.push(x);
        x += random.between(1, shape.gap + 1);
    }
    let fits = columns.last().is_none_or(|last| *last <= shape.width);
    (fits && random.one_in(2)).then_some(columns)
}

/// Half of the sheets have a charge word: one of 0, one that weighs as much as a few drops, or the greatest.
fn charge(shape: Shape, random: &mut Random) -> Option<u32> {
    let charges = [0, 1, shape.gap, 2 * shape.gap, random.between(0, shape.height), MOST_CHARGE];
    random.one_in(2).then(|| random.pick(&charges))
}

/// Now and then on a slot or level with another site.
fn site_height(slots: &[u32], sites: &[Site], height: u32, random: &mut Random) -> u32 {
    match random.below(8) {
        0 if !slots.is_empty() => random.pick(slots),
        1 if !sites.is_empty() => random.pick(sites).y,
        _ => random.between(0, height),
    }
}

/// Bounds with at most 64 budgets.
fn bounds(colours: usize, random: &mut Random) -> Vec<u32> {
    let mut bounds = Vec::new();
    let mut budgets = 1;
    for _ in 0..colours {
        let bound = random.pick(&[UNBOUNDED, UNBOUNDED, UNBOUNDED, 1, 1, 2, 2, 3, 4, 0, 7, 15]);
        if bound == UNBOUNDED || budgets * u64::from(bound + 1) > MOST_BUDGETS {
            bounds.push(UNBOUNDED);
        } else {
            budgets *= u64::from(bound + 1);
            bounds.push(bound);
        }
    }
    bounds
}

/// Slots and sites of small sheets: at most 1,296 layouts.
#[rustfmt::skip]
const SMALL: [(usize, usize); 20] = [
    (0, 0), (0, 2), (1, 3), (2, 4), (2, 6), (2, 8), (3, 2), (3, 4), (3, 5), (3, 6),
    (4, 3), (4, 4), (4, 5), (5, 3), (5, 4), (6, 3), (6, 4), (8, 2), (8, 3), (5, 0),
];

/// A sheet small enough for a search over all layouts.
pub fn small_sheet(random: &mut Random) -> Sheet {
    let (slots, sites) = random.pick(&SMALL);
    let scale = random.pick(&[1, 1, 1, 1, 7, 800]);
    let shape = Shape {
        slots,
        colours: random.pick(&[1, 1, 2, 2, 2, 3, 4]),
        sites,
        width: random.between(8, 14) * scale,
        gap: random.pick(&[1, 2, 2, 3]) * scale,
        height: random.between(8, 18) * scale,
    };
    sheet_of(shape, random)
}

/// A sheet too large for a search and small enough for many runs of the table.
pub fn medium_sheet(random: &mut Random) -> Sheet {
    let shape = Shape {
        slots: random.between(4, 12) as usize,
        colours: random.between(1, 3) as usize,
        sites: random.between(5, 12) as usize,
        width: random.between(12, 400),
        gap: random.between(1, 3),
        height: random.between(20, 60),
    };
    sheet_of(shape, random)
}

/// A one-sided, shortest sheet of any size that has a layout: each colour lies in a band of heights, and slots are 10
/// apart.
pub fn banded_sheet(slots: u32, sites: u32, bounds: &[u32], seed: u64) -> Sheet {
    const WIDTH: u32 = 600;
    let mut random = Random::new(seed);
    let colours = bounds.len() as u32;
    let columns = random.rising(sites as usize, WIDTH);
    let height = 10 * slots;
    let site = |(index, x): (usize, &u32)| {
        let colour = index as u32 % colours;
        let y = (colour * height + random.below(height)) / colours;
        Site { x: *x, y, colour: colour as usize }
    };
    let mut sites: Vec<Site> = columns.iter().enumerate().map(site).collect();
    sites.sort_by_key(|site| site.colour);
    let slots = (0..slots).map(|slot| 10 * slot + 5).collect();
    let bounds = bounds.to_vec();
    Sheet { two_sided: false, shortest: true, gap: 3, width: WIDTH, charge: None, slots, bounds, sites }
}

/// A word of one of the kinds, mostly of the right form and mostly with edges of the ranges.
pub fn any_word(random: &mut Random) -> u32 {
    let number = |random: &mut Random| random.pick(&[0, 1, 2, 3, 7, 8, 63, 64, 254, 255, 4095, 16382, 16383]);
    match random.below(9) {
        0 => random.word(),
        1 => random.below(16) << 28 | random.below(64),
        2 => 1 << 28 | random.below(4) << 26 | (number(random) % 4096) << 14 | number(random),
        3 => 2 << 28 | number(random),
        4 => (3 << 28) | (number(random) % 256),
        5 => 4 << 28 | number(random) << 14 | number(random),
        6 => 8 << 28 | random.below(5) << 21 | random.below(64),
        7 => 5 << 28 | number(random),
        _ => 9 << 28 | random.below(6),
    }
}

/// Changes a list of words in one place.
pub fn damage(words: &mut Vec<u32>, random: &mut Random) {
    if words.is_empty() || random.one_in(6) {
        let place = random.below(words.len() as u32 + 1) as usize;
        words.insert(place, any_word(random));
        return;
    }
    let place = random.below(words.len() as u32) as usize;
    let other = random.below(words.len() as u32) as usize;
    match random.below(6) {
        0 => words[place] ^= 1 << random.below(32),
        1 => words[place] = any_word(random),
        2 => words.swap(place, other),
        3 => words.insert(place, words[other]),
        4 => words[place] = words[place].wrapping_add(random.below(5)).wrapping_sub(2),
        _ => drop(words.remove(place)),
    }
}

/// A layout with random ties, few slots more often than many, and true numbers.
pub fn invented_layout(sheet: &Sheet, random: &mut Random) -> Vec<u32> {
    let slots = sheet.slots.len() as u32;
    if slots == 0 {
        return vec![8 << 28];
    }
    let start = random.below(slots);
    let spread = random.between(1, slots);
    let slot_of: Vec<usize> = sheet
        .sites
        .iter()
        .map(|site| ((start + site.colour as u32 * random.pick(&[1, 2]) + random.below(spread)) % slots) as usize)
        .collect();
    layout_words(sheet, &slot_of)
}

/// A small sheet with an invented layout, as it is or damaged.
fn stored_sheet(random: &mut Random) -> Vec<u32> {
    let sheet = small_sheet(random);
    let mut stored = [sheet.words(), invented_layout(&sheet, random)].concat();
    for _ in 0..random.pick(&[0, 0, 1, 1, 2]) {
        damage(&mut stored, random);
    }
    stored
}

/// A stored sheet of either side: the best layout of a search, the best of a search that knows no clearance at the tip, an
/// invented one, or a damaged one.
pub fn any_stored(random: &mut Random) -> Vec<u32> {
    let sheet = small_sheet(random);
    let found = match random.below(6) {
        0 => find(&sheet),
        1 => find_by(&sheet, |ties| ties.broken_but_for_tips()),
        _ => None,
    };
    let layout = found.map_or_else(|| invented_layout(&sheet, random), |found| layout_words(&sheet, &found.slot_of));
    let mut stored = [sheet.words(), layout].concat();
    for _ in 0..random.pick(&[0, 0, 0, 1, 2]) {
        damage(&mut stored, random);
    }
    stored
}

/// Holds a judge to the plain one on so many stored sheets, among which each rule, a tip too near a site, and each refusal
/// is met.
pub fn hold_judge(judge: impl Fn(&[u32]) -> (u8, u8), sheets: usize, seed: u64) {
    let mut random = Random::new(seed);
    let (mut met, mut near_tips) = (Verdicts::default(), 0);
    for _ in 0..sheets {
        let stored = stored_sheet(&mut random);
        let verdict = rules::judge(&stored);
        assert_eq!(judge(&stored), verdict, "{stored:x?}");
        met.count(verdict);
        near_tips += usize::from(rules::breaks_at_tips_alone(&stored));
    }
    assert!(met.rules.iter().chain([&near_tips]).all(|times| *times > sheets / 1000), "{met}, near tips {near_tips}");
    for refusal in [1, 2, 4, 5, 6, 7, 11] {
        assert!(met.refusals[refusal] > sheets / 2000, "{met}");
    }
}

/// A list of words of any sort: random sheets, whole or damaged, edges of the counts, and noise.
pub fn any_list(random: &mut Random) -> Vec<u32> {
    let mut words = match random.below(4) {
        0 => (0..random.below(12)).map(|_| any_word(random)).collect(),
        1 => crowded_list(random),
        _ => small_sheet(random).words(),
    };
    for _ in 0..random.pick(&[0, 1, 1, 2, 3]) {
        damage(&mut words, random);
    }
    words
}

/// A sheet with counts and budgets on both sides of the limits.
fn crowded_list(random: &mut Random) -> Vec<u32> {
    let shape = Shape {
        slots: random.pick(&[3, 47, 48, 49]),
        colours: random.pick(&[1, 7, 8, 9]),
        sites: random.pick(&[4, 31, 32, 33]),
        width: random.pick(&[40, 16383]),
        gap: random.pick(&[1, 4095]),
        height: random.pick(&[60, 16383]),
    };
    let mut sheet = sheet_of(shape, random);
    if random.one_in(2) {
        // 16 to the 8 is 0 in 32 bits.
        let sorts: [&[u32]; 6] = [&[1], &[1, 2, 3], &[254], &[15], &[1, 0, 255], &[7, 8, 0, 255, 255, 255]];
        let sort = random.pick(&sorts);
        sheet.bounds.iter_mut().for_each(|bound| *bound = random.pick(sort));
    }
    if random.one_in(8) {
        // No colour, so no site.
        sheet.bounds.clear();
        sheet.sites.clear();
    }
    sheet.words()
}
