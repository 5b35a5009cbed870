//! Sheets that are made smaller by properties whose smallest sheets are known.

use super::{size, smallest};
use model::nested;
use model::random::{medium_sheet, Random};
use model::sheet::Sheet;

fn shrunk(sheet: Sheet, keeps: impl Fn(&Sheet) -> bool) -> Sheet {
    smallest(sheet, |sheet| Ok(keeps(sheet))).expect("the property asks nobody")
}

fn sheets(seed: u64) -> Vec<Sheet> {
    let mut random = Random::new(seed);
    (0..20)
        .map(|index| if index % 2 == 0 { medium_sheet(&mut random) } else { nested::sheet(6, true, &mut random) })
        .collect()
}

/// Three sites, two slots: the smallest numbers are those that the reader just accepts.
#[test]
fn counts_alone_give_the_smallest_sheet_of_these_counts() {
    for sheet in sheets(1) {
        let found = shrunk(sheet, |sheet| sheet.sites.len() >= 3 && sheet.slots.len() >= 2);
        assert_eq!((found.sites.len(), found.slots.len(), found.bounds.len()), (3, 2, 1));
        assert_eq!((found.gap, found.width, &found.slots[..]), (1, 2, &[0, 1][..]));
        let mut columns: Vec<u32> = found.sites.iter().map(|site| site.x).collect();
        columns.sort_unstable();
        assert_eq!(columns, [0, 1, 2]);
        assert!(found.sites.iter().all(|site| site.y == 0), "{found:?}");
    }
}

/// A distance that has to stay keeps what makes it, and nothing else.
#[test]
fn distances_are_kept_as_small_as_they_may_be() {
    let keeps = |sheet: &Sheet| sheet.sites.iter().any(|site| sheet.slots.iter().any(|slot| *slot >= site.y + 7));
    for sheet in sheets(2).into_iter().filter(|sheet| keeps(sheet)) {
        let found = shrunk(sheet, keeps);
        assert_eq!((found.sites.len(), found.slots.len()), (1, 1));
        assert_eq!((found.sites[0].x, found.sites[0].y, found.slots[0]), (0, 0, 7));
    }
}

/// Two colours and a bound stay where the property asks for them.
#[test]
fn colours_and_bounds_stay_where_they_are_needed() {
    let keeps = |sheet: &Sheet| {
        let used = |colour: usize| sheet.sites.iter().any(|site| site.colour == colour);
        let bounded = |colour: &usize| (1..200).contains(&sheet.bounds[*colour]);
        (0..sheet.bounds.len()).filter(|colour| used(*colour)).count() >= 2
            && (0..sheet.bounds.len()).filter(bounded).count() >= 1
    };
    let mut met = 0;
    for sheet in sheets(3).into_iter().filter(|sheet| keeps(sheet)) {
        let found = shrunk(sheet, keeps);
        assert_eq!((found.sites.len(), found.slots.len(), found.bounds.len()), (2, 0, 2));
        assert_eq!(found.bounds.iter().filter(|bound| **bound == 1).count(), 1);
        met += 1;
    }
    assert!(met > 2, "{met}");
}

/// A charge that is not needed goes with its word; one that is needed is as low as it may be, 0 too.
#[test]
fn charges_stay_where_they_are_needed() {
    for (least, seed) in [(0, 5), (1, 6), (37, 7)] {
        for sheet in sheets(seed).into_iter().map(|sheet| Sheet { charge: Some(1_000), ..sheet }) {
            let found = shrunk(sheet, |sheet| sheet.charge.is_some_and(|charge| charge >= least));
            let smallest = Sheet { charge: Some(least), slots: vec![], bounds: vec![], sites: vec![], ..found.clone() };
            assert_eq!((&found, found.gap, found.width), (&smallest, 1, 1));
        }
    }
    for sheet in sheets(8).into_iter().map(|sheet| Sheet { charge: Some(0), ..sheet }) {
        assert_eq!(shrunk(sheet, |sheet| sheet.sites.len() >= 2).charge, None);
    }
}

/// Each sheet that is tried on the way is accepted by the reader, and none is tried twice.
#[test]
fn only_accepted_sheets_are_tried() {
    for sheet in sheets(4) {
        let mut tried = std::collections::HashSet::new();
        let found = smallest(sheet.clone(), |candidate| {
            let words = candidate.words();
            assert!(backbone::read(&words).is_ok());
            assert!(tried.insert(words));
            Ok(candidate.sites.len() >= 2)
        });
        assert!(size(&found.expect("the property asks nobody")) <= size(&sheet));
    }
}
