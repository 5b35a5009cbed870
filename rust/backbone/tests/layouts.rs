//! The library's layouts of one-sided sheets against a search over all layouts and against a plain table and walk.

mod common;

use backbone::{judge, Refusal};
use common::{make_in_enough, numbered};
use model::random::{medium_sheet, small_sheet, Random};
use model::sheet::{Sheet, Site, MOST_CHARGE, UNBOUNDED};
use model::{maker, rules, search};

const SMALL_SHEETS: usize = 100_000;
const MEDIUM_SHEETS: usize = 2_000;
/// Each test's sheets are shared out among this many threads, each with its own seed.
const THREADS: usize = 4;

/// The plain table and walk.
fn plainly_made(sheet: &Sheet) -> Result<Vec<u32>, u8> {
    let mut work = vec![0; sheet.work_words() as usize];
    let mut answer = vec![0; sheet.sites.len() + 1];
    match maker::make(&sheet.words(), &mut work, &mut answer) {
        0 => Ok(answer),
        refusal => Err(refusal as u8),
    }
}

/// Lays out with the library, compares with the plain table, and has the layout judged twice.
fn checked(sheet: &Sheet, random: &mut Random) -> Result<Vec<u32>, u8> {
    let words = sheet.words();
    let made = numbered(make_in_enough(&words, random));
    assert_eq!(made, plainly_made(sheet), "{sheet:?}");
    if let Ok(layout) = &made {
        let stored = [&words[..], layout].concat();
        assert_eq!(judge(&stored), Ok(None), "{sheet:?}");
        assert_eq!(rules::judge(&stored), (0, 0), "{sheet:?}");
    }
    made
}

/// What the random sheets must have had among them.
#[derive(Debug, Default)]
struct Met {
    laid_out: [usize; 2],
    no_layout: [usize; 2],
    bound_shared: usize,
    equal_y: usize,
    site_on_slot: usize,
    /// A charge word of 0, one of the greatest charge, and others.
    charged: [usize; 3],
    /// A site left of another by less than the gap, and a slot that the other may therefore not open.
    slot_barred: usize,
}

impl Met {
    fn note(&mut self, sheet: &Sheet, laid_out: bool) {
        let kind = if laid_out { &mut self.laid_out } else { &mut self.no_layout };
        kind[usize::from(sheet.shortest)] += 1;
        let y = |i: usize| sheet.sites[i].y;
        let level = |i: usize| (0..i).any(|j| y(i) == y(j));
        let own = |colour: usize| sheet.sites.iter().filter(|site| site.colour == colour).count();
        let binds = |(colour, bound): (usize, &u32)| *bound != UNBOUNDED && *bound > 1 && own(colour) > *bound as usize;
        self.equal_y += usize::from((0..sheet.sites.len()).any(level));
        self.bound_shared += usize::from(sheet.bounds.iter().enumerate().any(binds));
        self.site_on_slot += usize::from(sheet.sites.iter().any(|site| sheet.slots.contains(&site.y)));
        let bars = |(site, other): (&Site, &Site)| {
            let near = |from: u32, to: u32| from.abs_diff(to) < sheet.gap;
            site.x < other.x && near(site.x, other.x) && sheet.slots.iter().any(|height| near(*height, site.y))
        };
        let pairs = sheet.sites.iter().flat_map(|site| sheet.sites.iter().map(move |other| (site, other)));
        self.slot_barred += usize::from(pairs.into_iter().any(bars));
        if let Some(charge) = sheet.charge {
            self.charged[[0, MOST_CHARGE].iter().position(|edge| *edge == charge).unwrap_or(2)] += 1;
        }
    }

    fn least(&self) -> usize {
        let counts = self.laid_out.into_iter().chain(self.no_layout).chain(self.charged);
        counts.chain([self.bound_shared, self.equal_y, self.site_on_slot, self.slot_barred]).min().unwrap_or(0)
    }
}

/// Draws and checks sheets in several threads, and looks whether all sorts have been met.
fn compare(sheets: usize, seed: u64, draw: fn(&mut Random) -> Sheet, check: fn(&Sheet, &mut Random) -> bool) {
    let share = |index: usize| {
        let mut random = Random::new(seed + index as u64);
        let mut met = Met::default();
        for _ in 0..sheets.div_ceil(THREADS) {
            let sheet = draw(&mut random).one_sided();
            let laid_out = check(&sheet, &mut random);
            met.note(&sheet, laid_out);
        }
        assert!(met.least() > sheets / THREADS / 50, "{met:?}");
    };
    let share = &share;
    std::thread::scope(|scope| {
        for index in 0..THREADS {
            scope.spawn(move || share(index));
        }
    });
}

#[test]
fn small_sheets_as_the_search_has_them() {
    compare(SMALL_SHEETS, 210, small_sheet, |sheet, random| {
        let made = checked(sheet, random);
        assert_eq!(made, search::best(sheet).ok_or(Refusal::NoLayout.number()), "{sheet:?}");
        made.is_ok()
    });
}

#[test]
fn medium_sheets_as_the_plain_table_has_them() {
    compare(MEDIUM_SHEETS, 220, medium_sheet, |sheet, random| checked(sheet, random).is_ok());
}
