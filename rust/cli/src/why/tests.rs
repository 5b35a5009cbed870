//! Smallest sets and remedies, held to the plain search and to the plain table, which share no code with the library.

use super::remedies::{Raised, Remedies};
use super::{is_smallest, smallest_set, with_sites};
use crate::maker::Maker;
use model::random::{medium_sheet, sheet_of, small_sheet, Random, Shape};
use model::search;
use model::sheet::{Sheet, Site, UNBOUNDED};

/// Whether there is a layout, by the plain search.
fn is_found(sheet: &Sheet) -> bool {
    search::find(sheet).is_some()
}

/// Whether there is a layout, by the plain table.
fn is_made(sheet: &Sheet) -> bool {
    let mut work = vec![0; sheet.work_words() as usize];
    let mut answer = vec![0; sheet.sites.len() + 1];
    model::maker::make(&sheet.words(), &mut work, &mut answer) == 0
}

/// So many one-sided sheets without a layout.
fn without_layout(count: usize, mut draw: impl FnMut() -> Sheet) -> Vec<Sheet> {
    std::iter::repeat_with(|| draw().one_sided()).filter(|sheet| !is_made(sheet)).take(count).collect()
}

/// The set has no layout, and leaving out each site in turn gives one.
fn hold_set(sheet: &Sheet, has_layout: fn(&Sheet) -> bool) -> Vec<usize> {
    let mut maker = Maker::default();
    let set = smallest_set(sheet, &mut maker).expect("there is memory");
    assert_eq!(is_smallest(sheet, &set, &mut maker), Ok(true), "{sheet:?}");
    assert!(!has_layout(&with_sites(sheet, &set)), "{sheet:?} {set:?}");
    for left_out in &set {
        let others: Vec<usize> = set.iter().copied().filter(|site| site != left_out).collect();
        assert!(has_layout(&with_sites(sheet, &others)), "{sheet:?} {set:?} {left_out}");
    }
    set
}

#[test]
fn sets_of_small_sheets_are_smallest() {
    let mut random = Random::new(1701);
    let mut sizes = [0; 9];
    for sheet in without_layout(900, || small_sheet(&mut random)) {
        sizes[hold_set(&sheet, is_found).len()] += 1;
    }
    assert!(sizes[1] > 50 && sizes[2] > 50 && sizes[3] > 10, "{sizes:?}");
}

#[test]
fn sets_of_medium_and_large_sheets_are_smallest() {
    let mut random = Random::new(1702);
    for sheet in without_layout(80, || medium_sheet(&mut random)) {
        hold_set(&sheet, is_made);
    }
    let mut random = Random::new(1703);
    // A wide gap, so that many have no layout.
    let large = |random: &mut Random| {
        let (slots, sites, colours) = (random.between(24, 40), random.between(20, 32), random.between(2, 3));
        let shape = Shape {
            slots: slots as usize,
            colours: colours as usize,
            sites: sites as usize,
            width: 600,
            gap: 16,
            height: 400,
        };
        let mut sheet = sheet_of(shape, random);
        sheet.bounds.fill(UNBOUNDED);
        sheet
    };
    for sheet in without_layout(8, || large(&mut random)) {
        let set = hold_set(&sheet, is_made);
        assert!(set.len() < sheet.sites.len(), "{sheet:?}");
    }
}

fn site(x: u32, y: u32, colour: usize) -> Site {
    Site { x, y, colour }
}

/// Three slots, and four sites with a layout: site 1 goes to slot 0 or 2, so that site 3 has slot 1.
fn known() -> Sheet {
    Sheet {
        two_sided: false,
        shortest: false,
        gap: 5,
        width: 100,
        charge: None,
        slots: vec![10, 50, 90],
        bounds: vec![UNBOUNDED, UNBOUNDED],
        sites: vec![site(10, 10, 0), site(20, 48, 0), site(30, 90, 0), site(40, 48, 1)],
    }
}

/// With one slot left, any two sites of two colours are a set; the two that are leftmost are taken.
#[test]
fn the_set_of_a_known_sheet() {
    let mut sheet = known();
    assert!(is_found(&sheet));
    sheet.slots = vec![50];
    let mut maker = Maker::default();
    assert_eq!(smallest_set(&sheet, &mut maker), Ok(vec![0, 3]));
    let mut remedies = Remedies::new(&sheet, &[0, 3], &mut maker);
    assert_eq!(remedies.raised_bounds(), Ok(Vec::new()), "no colour is bounded");
    assert_eq!(remedies.largest_gap(), Ok(None), "one backbone can't have two colours");
}

/// A colour that may have no label: each of its sites is a set of one.
#[test]
fn a_site_without_any_slot_is_a_set_of_one() {
    let mut sheet = known();
    sheet.bounds[1] = 0;
    let mut maker = Maker::default();
    assert_eq!(smallest_set(&sheet, &mut maker), Ok(vec![3]));
    let mut remedies = Remedies::new(&sheet, &[3], &mut maker);
    assert_eq!(remedies.raised_bounds(), Ok(vec![Raised { colour: 1, from: 0, to: 1 }]));
    assert_eq!(remedies.largest_gap(), Ok(None));
    assert_eq!(remedies.helping_slots(), Ok(Vec::new()));
}

/// A small sheet all of whose heights can be tried.
fn low_sheet(random: &mut Random) -> Sheet {
    loop {
        let sheet = small_sheet(random);
        if sheet.width < 20 {
            return sheet;
        }
    }
}

/// Every gap and every height of small sheets, by the plain search.
#[test]
fn gaps_bounds_and_slots_are_those_of_the_plain_search() {
    let mut random = Random::new(1704);
    let mut helped = [0; 3];
    for sheet in without_layout(150, || low_sheet(&mut random)) {
        let mut maker = Maker::default();
        let set = smallest_set(&sheet, &mut maker).expect("there is memory");
        let gap = (1..sheet.gap).rev().find(|gap| is_found(&Sheet { gap: *gap, ..sheet.clone() }));
        let mut remedies = Remedies::new(&sheet, &set, &mut maker);
        assert_eq!(remedies.largest_gap(), Ok(gap), "{sheet:?}");
        let bounds = remedies.raised_bounds().expect("there is memory");
        assert_eq!(bounds, plain_bounds(&sheet), "{sheet:?}");
        let ranges = remedies.helping_slots().expect("there is memory");
        for height in 0..60 {
            let in_range = ranges.iter().any(|(from, to)| (from..=to).contains(&&height));
            assert_eq!(in_range, slot_helps(&sheet, height), "{sheet:?} {height} {ranges:?}");
        }
        let found = [gap.is_some(), !bounds.is_empty(), !ranges.is_empty()];
        helped.iter_mut().zip(found).for_each(|(count, found)| *count += u32::from(found));
    }
    assert!(helped.iter().all(|count| *count > 5), "{helped:?}");
}

fn slot_helps(sheet: &Sheet, height: u32) -> bool {
    let mut sheet = sheet.clone();
    sheet.slots.push(height);
    sheet.slots.sort_unstable();
    let is_new = sheet.slots.windows(2).all(|pair| pair[0] < pair[1]);
    is_new && is_found(&sheet)
}

fn plain_bounds(sheet: &Sheet) -> Vec<Raised> {
    let bounded = (0..sheet.bounds.len()).filter(|colour| sheet.bounds[*colour] != UNBOUNDED);
    let least = bounded.filter_map(|colour| {
        let from = sheet.bounds[colour];
        let raised = |bound: &u32| {
            let mut other = sheet.clone();
            other.bounds[colour] = *bound;
            other.budgets() <= 64 && is_found(&other)
        };
        let own = sheet.sites.iter().filter(|site| site.colour == colour).count() as u32;
        let to = (from + 1..=own).find(|bound| raised(bound)).or(Some(UNBOUNDED).filter(raised))?;
        Some(Raised { colour, from, to })
    });
    least.collect()
}
