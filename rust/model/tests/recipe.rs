//! The sheets of the test program `try_maker`, drawn here by its recipe, and what the search in Rust finds in them:
//! each count that the program has to print is counted twice, by code that shares nothing.

use model::search::{find, find_by, Found};
use model::sheet::{Sheet, Site, UNBOUNDED};

const SHEETS: usize = 20_000;
/// A sheet that would need more work words than this is drawn without bounds.
const MOST_WORK_WORDS: u64 = 8192;

/// Numbers from a linear congruence.
struct Recipe {
    seed: u32,
    /// Charges are drawn from a second seed, so that they alter no other draw.
    second: u32,
    /// The first slot's height stays where a sheet has no slots.
    first_height: u32,
}

fn next(seed: u32) -> u32 {
    seed.wrapping_mul(1_664_525).wrapping_add(1_013_904_223)
}

impl Recipe {
    fn draw(&mut self, limit: u32) -> u32 {
        self.seed = next(self.seed);
        (self.seed >> 16) % limit
    }

    /// About every second sheet has a charge word, from 0 to 7.
    fn charge(&mut self) -> Option<u32> {
        let has_word = next(self.second);
        self.second = next(has_word);
        ((has_word >> 16) % 2 == 1).then_some((self.second >> 16) % 8)
    }

    /// From 1 to `limit`, a low one more often.
    fn low(&mut self, limit: u32) -> u32 {
        let (a, b) = (self.draw(limit), self.draw(limit));
        a.min(b) + 1
    }

    /// From `least` on, below it one time in eight.
    fn size(&mut self, least: u32, more: u32) -> u32 {
        if self.draw(8) == 0 {
            self.draw(least)
        } else {
            self.draw(more) + least
        }
    }

    fn slots(&mut self, count: u32) -> Vec<u32> {
        let mut height = self.draw(3);
        let mut slots = Vec::new();
        for _ in 0..count {
            slots.push(height);
            height += self.draw(5) + 1;
        }
        slots
    }

    fn bound(&mut self) -> u32 {
        match self.draw(6) {
            0 => UNBOUNDED,
            kind @ 1..=4 => kind.div_ceil(2),
            _ if self.draw(8) == 0 => 0,
            _ => 3,
        }
    }

    /// The first x from a drawn one on that no site has.
    fn free_x(&mut self, width: u32, sites: &[Site]) -> u32 {
        let drawn = self.draw(width + 1);
        let mut columns = (drawn..=width).chain(0..drawn);
        columns.find(|x| sites.iter().all(|site| site.x != *x)).expect("fewer sites than columns")
    }

    fn sites(&mut self, count: u32, width: u32, rows: u32, last_colour: usize) -> Vec<Site> {
        let mut sites = Vec::new();
        let mut next = (self.draw(8) / 7) as usize;
        for _ in 0..count {
            let (x, y) = (self.free_x(width, &sites), self.draw(rows));
            let colour = next.min(last_colour);
            sites.push(Site { x, y, colour });
            next = colour + self.draw(2) as usize;
        }
        sites
    }

    fn sheet(&mut self) -> Sheet {
        let (two_sided, shortest) = (self.draw(8) == 7, self.draw(2) == 1);
        let (gap, width) = (self.low(3), self.draw(4) + 5);
        let (m, colours, n) = (self.size(4, 2), self.draw(4).div_ceil(2) + 1, self.size(3, 3));
        let slots = self.slots(m);
        self.first_height = slots.first().copied().unwrap_or(self.first_height);
        let bounds = (0..colours).map(|_| self.bound()).collect();
        let rows = slots.last().unwrap_or(&self.first_height) + 3;
        let sites = self.sites(n, width, rows, colours as usize - 1);
        let mut sheet = Sheet { two_sided, shortest, gap, width, charge: self.charge(), slots, bounds, sites };
        if sheet.work_words() > MOST_WORK_WORDS {
            sheet.bounds.fill(UNBOUNDED);
        }
        sheet
    }

    /// How many words a call is lent: one too few one time in 32, else up to two too many.
    fn lent(&mut self, needed: u64) -> u64 {
        if self.draw(32) == 0 {
            needed - 1
        } else {
            needed + u64::from(self.draw(3))
        }
    }
}

fn has_two_sites_at_one_y(sheet: &Sheet) -> bool {
    let sites = &sheet.sites;
    (0..sites.len()).any(|i| sites[..i].iter().any(|site| site.y == sites[i].y))
}

fn has_site_at_slot(sheet: &Sheet) -> bool {
    sheet.sites.iter().any(|site| sheet.slots.contains(&site.y))
}

/// Has some bounded colour all the labels that it may have?
fn spends_bound(sheet: &Sheet, found: &Found) -> bool {
    sheet.bounds.iter().enumerate().any(|(colour, bound)| {
        let tied = sheet.sites.iter().zip(&found.slot_of);
        let mut own: Vec<_> = tied.filter(|(site, _)| site.colour == colour).map(|(_, slot)| slot).collect();
        own.sort_unstable();
        own.dedup();
        *bound > 0 && own.len() == *bound as usize
    })
}

/// Whether the sheet without its charge word has other best slots.
fn charge_alters(sheet: &Sheet, found: &Found) -> bool {
    let uncharged = Sheet { charge: None, ..sheet.clone() };
    find(&uncharged).is_none_or(|other| other.slot_of != found.slot_of)
}

/// Whether there would be another layout, or one at all, if rule 5 did not count sites left of a tip.
fn tip_alters(sheet: &Sheet, found: Option<&Found>) -> bool {
    let other = find_by(sheet, |ties| ties.broken_but_for_tips());
    other.map(|other| other.slot_of).as_ref() != found.map(|found| &found.slot_of)
}

/// What the program prints beside each count.
const LINES: [&str; 15] = [
    "sheets",
    "two-sided, refused 18",
    "with the aim shortest",
    "with two sites at one y",
    "with a site at a slot's height",
    "with a charge word",
    "with a charge of 0",
    "refused 8",
    "refused 9",
    "refused 10",
    "answered",
    "answers with equals",
    "answers that spend a bound",
    "answers that the charge alters",
    "answers that the tip alters",
];

/// Which of the lines the next sheet and the call with it count for.
fn met(recipe: &mut Recipe) -> [bool; LINES.len()] {
    let sheet = recipe.sheet();
    let (needed, words) = (sheet.work_words(), sheet.sites.len() as u64 + 1);
    let (short_work, short_answer) = (recipe.lent(needed) < needed, recipe.lent(words) < words);
    recipe.draw(65_536); // no part of it: what the areas hold is drawn from the program's second seed

    // A two-sided sheet is refused whatever is lent.
    let (served, found) = (!sheet.two_sided, find(&sheet));
    let lent = served && !short_work && !short_answer;
    let answer = found.as_ref().filter(|_| lent);
    [
        true,
        sheet.two_sided,
        sheet.shortest,
        has_two_sites_at_one_y(&sheet),
        has_site_at_slot(&sheet),
        sheet.charge.is_some(),
        sheet.charge == Some(0),
        served && short_work,
        served && !short_work && short_answer,
        lent && found.is_none(),
        answer.is_some(),
        answer.is_some_and(|found| found.equals > 1),
        answer.is_some_and(|found| spends_bound(&sheet, found)),
        answer.is_some_and(|found| charge_alters(&sheet, found)),
        lent && tip_alters(&sheet, found.as_ref()),
    ]
}

#[test]
fn the_counts_of_the_test_program_are_those_of_the_search() {
    let mut counts = [0; LINES.len()];
    let mut recipe = Recipe { seed: 1, second: 2, first_height: 0 };
    for _ in 0..SHEETS {
        counts.iter_mut().zip(met(&mut recipe)).for_each(|(count, met)| *count += usize::from(met));
    }
    let lines = counts.iter().zip(LINES).map(|(count, line)| format!("{count} {line}\n"));
    let printed = lines.chain(["0 differences\n".to_string()]).collect::<String>();
    let stdout = include_str!("../../../crates/try_maker/stdout");
    assert!(stdout.ends_with(&format!("\n{printed}")), "{printed}");
}
