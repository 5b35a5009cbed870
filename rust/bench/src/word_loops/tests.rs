//! The loops over words against the library and against the judge that decodes.

use super::judge;
use crate::sheets::wide_bars;
use backbone::Rule;
use model::random::{banded_sheet, damage, hold_judge, medium_sheet, Random};
use model::ranked::rank;
use model::sheet::Sheet;
use model::{maker, rules};

const LAWFUL_SHEETS: usize = 2_000;
/// Of the search for the best layout of a two-sided sheet.
const MOST_STEPS: u64 = 20_000;

fn library_verdict(stored: &[u32]) -> (u8, u8) {
    match backbone::judge(stored) {
        Ok(rule) => (0, rule.map_or(0, Rule::number)),
        Err(refusal) => (refusal.number(), 0),
    }
}

/// The verdict that the library and its loops both give.
fn same_verdict(stored: &[u32]) -> (u8, u8) {
    let verdict = judge(stored);
    assert_eq!(verdict, library_verdict(stored), "{stored:x?}");
    verdict
}

/// The verdict that all three judges give.
fn judged_alike(stored: &[u32]) -> (u8, u8) {
    let verdict = same_verdict(stored);
    assert_eq!(verdict, rules::judge(stored), "{stored:x?}");
    verdict
}

/// The sheet with its best layout, if it has one; none where it is two-sided and a search takes long.
fn stored_with_best(sheet: &Sheet) -> Option<Vec<u32>> {
    if sheet.two_sided {
        let found = rank(sheet, MOST_STEPS).flatten()?;
        return Some([sheet.words(), rules::layout_words(sheet, &found.slot_of)].concat());
    }
    let mut work = vec![0; sheet.work_words() as usize];
    let mut answer = vec![0; sheet.sites.len() + 1];
    let refusal = maker::make(&sheet.words(), &mut work, &mut answer);
    (refusal == 0).then(|| [sheet.words(), answer].concat())
}

#[test]
fn invented_and_damaged_layouts() {
    hold_judge(same_verdict, 200_000, 71);
}

#[test]
fn lawful_layouts_and_damage_to_them() {
    let mut random = Random::new(72);
    let (mut lawful, mut charged) = ([0; 2], 0);
    while lawful.iter().sum::<usize>() < LAWFUL_SHEETS {
        let sheet = medium_sheet(&mut random);
        let Some(mut stored) = stored_with_best(&sheet) else {
            continue;
        };
        assert_eq!(judged_alike(&stored), (0, 0));
        lawful[usize::from(sheet.two_sided)] += 1;
        charged += usize::from(sheet.charge.is_some_and(|charge| charge > 0));
        for _ in 0..4 {
            damage(&mut stored, &mut random);
            judged_alike(&stored);
        }
    }
    assert!(lawful.iter().all(|count| *count > LAWFUL_SHEETS / 5), "one-sided, two-sided: {lawful:?}");
    assert!(charged > LAWFUL_SHEETS / 5, "{charged}");
}

#[test]
fn largest_sheets_and_each_word_twice() {
    let one_sided = banded_sheet(24, 32, &[3, 255, 255], 32);
    let charged = Sheet { charge: Some(5), ..one_sided.clone() };
    let [one_sided, charged] =
        [one_sided, charged].map(|sheet| stored_with_best(&sheet).expect("a banded sheet has a layout"));
    for stored in [wide_bars().words, one_sided, charged] {
        assert_eq!(judged_alike(&stored), (0, 0));
        for place in 0..stored.len() {
            let mut longer = stored.clone();
            longer.insert(place, stored[place]);
            judged_alike(&longer);
        }
    }
}
