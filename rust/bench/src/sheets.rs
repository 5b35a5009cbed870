//! The sheets that are timed.

use model::maker::make;
use model::random::banded_sheet;
use model::rules::{layout_words, split};
use model::sheet::{read, Sheet, Site};

pub struct Named {
    pub name: String,
    pub sheet: Sheet,
}

const FREE: u32 = 255;

fn example(name: &str, text: &str) -> Named {
    let words = sheet::encode(text).expect("an example is a sheet's text");
    let sheet = read(&words).or_else(|_| split(&words).map(|(sheet, ..)| sheet));
    Named { name: name.to_string(), sheet: sheet.expect("an example is a sheet or a stored one") }
}

fn banded(name: &str, sites: u32, slots: u32, bounds: &[u32]) -> Named {
    Named { name: name.to_string(), sheet: banded_sheet(slots, sites, bounds, u64::from(sites)) }
}

fn fewest(mut named: Named) -> Named {
    named.sheet.shortest = false;
    named
}

/// From 3 to 32 sites, the largest sheet last.
pub fn by_size() -> Vec<Named> {
    vec![
        example("A, fewest", include_str!("../../../examples/a.txt")),
        example("shared bound", include_str!("../../../examples/shared_bound.txt")),
        fewest(banded("fewest", 5, 6, &[FREE, FREE])),
        banded("shortest", 6, 8, &[2, FREE, FREE]),
        example("eight sites", include_str!("eight_sites.txt")),
        fewest(banded("fewest", 10, 12, &[3, 1, FREE])),
        example("charge of 24, fewest", include_str!("../../../examples/charge.txt")),
        example("gearbox, shortest", include_str!("../../../examples/gearbox_twin.txt")),
        example("near tips, shortest", include_str!("near_tips.txt")),
        banded("shortest", 16, 24, &[7, FREE, FREE, FREE]),
        example("tractor, fewest", include_str!("../../../examples/tractor.txt")),
        banded("shortest", 24, 32, &[3, 3, FREE, FREE, FREE, FREE]),
        banded("largest", 32, 48, &[1, 1, 1, 1, 1, 1, FREE, FREE]),
    ]
}

/// One number grows, the others stay.
pub fn growing() -> Vec<Named> {
    let mut sheets = Vec::new();
    sheets.extend([4, 8, 16, 32].map(|sites| banded("sites", sites, 16, &[3, FREE])));
    sheets.extend([6, 12, 24, 48].map(|slots| banded("slots", 12, slots, &[3, FREE])));
    sheets.extend([1, 2, 4, 8].map(|colours| banded("colours", 12, 16, &[FREE; 8][..colours])));
    // Bounds of 3 with 6 sites a colour: one that can't bind is dropped before the table is made.
    for bounded in 0..4 {
        let mut bounds = [FREE; 4];
        bounds[..bounded].fill(3);
        sheets.push(banded("budgets", 24, 16, &bounds));
    }
    sheets
}

/// Sheets that need nearly all of the program's 16,384 work words, none more, each with much of another number.
pub fn largest_of_program() -> Vec<Named> {
    vec![
        banded("most slots", 1, 43, &[FREE]),
        banded("most sites", 32, 9, &[FREE]),
        banded("sites and slots", 15, 14, &[FREE]),
        banded("colours", 15, 6, &[FREE, FREE, FREE]),
        banded("most colours", 3, 6, &[FREE; 7]),
        banded("bound", 31, 6, &[1]),
        banded("budgets", 7, 6, &[7]),
        banded("most budgets", 3, 2, &[63]),
    ]
}

/// A stored sheet.
pub struct NamedStored {
    pub name: String,
    pub sheet: Sheet,
    pub words: Vec<u32>,
}

fn stored(name: &str, text: &str) -> NamedStored {
    let words = sheet::encode(text).expect("an example is a stored sheet's text");
    let (sheet, ..) = split(&words).expect("an example is a stored sheet");
    NamedStored { name: name.to_string(), sheet, words }
}

/// A sheet whose sites are tied to these slots, with the count and the length that are then true.
fn tied(name: &str, sheet: Sheet, slot_of: &[usize]) -> NamedStored {
    let words = [sheet.words(), layout_words(&sheet, slot_of)].concat();
    NamedStored { name: name.to_string(), sheet, words }
}

/// A one-sided sheet followed by its best layout.
fn with_best(sheet: &Sheet) -> Vec<u32> {
    let (mut work, mut answer) = (vec![0; sheet.work_words() as usize], vec![0; sheet.sites.len() + 1]);
    assert_eq!(make(&sheet.words(), &mut work, &mut answer), 0, "a sheet that is timed has a layout: {sheet:?}");
    [sheet.words(), answer].concat()
}

/// The sheets with their best layouts, without those whose work area is large.
pub fn judged(named: &[Named]) -> Vec<NamedStored> {
    let small = named.iter().filter(|named| named.sheet.work_words() < 100_000_000);
    let stored = |Named { name, sheet }: &Named| NamedStored {
        name: name.clone(),
        sheet: sheet.clone(),
        words: with_best(sheet),
    };
    small.map(stored).collect()
}

/// Lawful two-sided sheets with their layouts, the largest last.
pub fn two_sided() -> Vec<NamedStored> {
    vec![
        stored("A, two-sided", include_str!("../../../examples/a_two_sided.txt")),
        stored("gearbox, two-sided", include_str!("../../../examples/gearbox.txt")),
        wide_bars(),
    ]
}

/// Lawful stored sheets of either side; the last has as many strokes, and as long a page, as a sheet can have.
pub fn drawn() -> Vec<NamedStored> {
    let Named { sheet, .. } = example("", include_str!("../../../examples/tractor.txt"));
    vec![
        stored("A", include_str!("../../../examples/a_two_sided_twin.txt")),
        stored("gearbox", include_str!("../../../examples/gearbox_twin.txt")),
        NamedStored { name: "tractor".to_string(), words: with_best(&sheet), sheet },
        wide_bars(),
        most_strokes(),
    ]
}

pub fn wide_bars() -> NamedStored {
    bars("most sites, slots and colours, two-sided", true, |site| site % 3)
}

/// No two sites share a label, and none lies on its backbone: 32 backbones and 32 drops.
pub fn most_strokes() -> NamedStored {
    bars("most strokes", false, |site| 1 + site % 2)
}

/// The sheet with the most strokes, changed at its last label, with the least rule that it then breaks.
pub fn unlawful() -> [(u8, NamedStored); 3] {
    [
        (3, changed("most strokes, rule 3 broken", |sheet| sheet.slots[31] = sheet.slots[30] + 1)),
        (4, changed("most strokes, rule 4 broken", |sheet| sheet.sites[31].y = sheet.slots[30] - 1)),
        (5, changed("most strokes, rule 5 broken", |sheet| sheet.sites[31].y = sheet.slots[30] + 1)),
    ]
}

/// The sheet with the most strokes, changed in a number, with the ties as they were.
fn changed(name: &str, change: fn(&mut Sheet)) -> NamedStored {
    let (mut sheet, slot_of, _) = split(&most_strokes().words).expect("it is a stored sheet");
    change(&mut sheet);
    tied(name, sheet, &slot_of)
}

/// 32 sites below 32 of 48 slots, each by less than the gap: near its own and no other, so the layout is lawful.
fn bars(name: &str, two_sided: bool, below: fn(u32) -> u32) -> NamedStored {
    const APART: u32 = 10;
    let colours = [1, 1, 1, 1, 1, 1, FREE, FREE];
    let slots: Vec<u32> = (0..48).map(|slot| APART * slot + 5).collect();
    // One label for each bounded colour, the rest by turns for the others.
    let colour = |site: usize| if site < 6 { site } else { 6 + site % 2 };
    let site = |site: usize| Site { x: 18 * site as u32, y: slots[site] + below(site as u32), colour: colour(site) };
    let mut sites: Vec<(usize, Site)> = (0..32).map(|slot| (slot, site(slot))).collect();
    sites.sort_by_key(|(_, site)| site.colour);
    let slot_of: Vec<usize> = sites.iter().map(|(slot, _)| *slot).collect();
    let sites = sites.into_iter().map(|(_, site)| site).collect();
    let (bounds, width) = (colours.to_vec(), 600);
    let sheet = Sheet { two_sided, shortest: true, gap: 3, width, charge: None, slots, bounds, sites };
    tied(name, sheet, &slot_of)
}

#[test]
fn stored_sheets_have_lawful_layouts() {
    for NamedStored { name, words, .. } in two_sided().into_iter().chain(drawn()) {
        assert_eq!(model::rules::judge(&words), (0, 0), "{name}");
    }
    assert_eq!(model::strokes::strokes(&most_strokes().words).map(|all| all.len()), Ok(64));
    assert_eq!(model::page::text(&most_strokes().words).map(|text| text.len()), Ok(backbone::MOST_PAGE_BYTES));
}

#[test]
fn unlawful_sheets_break_their_rule() {
    for (rule, NamedStored { name, words, sheet }) in unlawful() {
        assert_eq!(model::rules::judge(&words), (0, rule), "{name}");
        assert_eq!([sheet.sites.len(), sheet.slots.len(), sheet.bounds.len()], [32, 48, 8], "{name}");
    }
}

/// All but the largest, which takes long.
#[test]
fn sheets_that_are_laid_out_have_layouts() {
    let all = by_size().into_iter().chain(growing()).chain(largest_of_program());
    for Named { name, sheet } in all.filter(|named| named.sheet.work_words() < 10_000_000) {
        assert_eq!(model::rules::judge(&with_best(&sheet)), (0, 0), "{name}");
    }
}

/// Of its 12 sites and 20 slots, 100 pairs are of a site that may not open the slot.
#[test]
fn near_tips_are_near() {
    let sheet = example("", include_str!("near_tips.txt")).sheet;
    let bars = |other: &Site, x: u32, height: u32| {
        other.x < x && x - other.x < sheet.gap && other.y.abs_diff(height) < sheet.gap
    };
    let pairs = sheet.sites.iter().flat_map(|site| sheet.slots.iter().map(move |height| (site.x, *height)));
    let barred = pairs.filter(|(x, height)| sheet.sites.iter().any(|other| bars(other, *x, *height)));
    assert_eq!(barred.count(), 100);
}

#[test]
fn largest_of_program_fill_its_work_area() {
    for Named { name, sheet } in largest_of_program() {
        assert!((15_900..=16_384).contains(&sheet.work_words()), "{name}");
    }
}
