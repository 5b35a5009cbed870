//! Sheets that are aimed at a depth: all are accepted, many have it, and the table agrees with a search on them.

use model::depth::depth;
use model::maker::make;
use model::nested;
use model::random::Random;
use model::ranked::rank;
use model::sheet::{read, Sheet};

fn made(sheet: &Sheet) -> Option<Vec<usize>> {
    let mut work = vec![0; sheet.work_words() as usize];
    let mut answer = vec![0; sheet.sites.len() + 1];
    let is_made = make(&sheet.words(), &mut work, &mut answer) == 0;
    is_made.then(|| answer[1..].iter().map(|word| (word & 0xFF) as usize).collect())
}

/// Whether the ranked search ends on a sheet; it then finds what the table has.
fn is_searched(sheet: &Sheet, best: &Option<Vec<usize>>) -> bool {
    let ranked = rank(sheet, 100_000);
    if let Some(found) = &ranked {
        assert_eq!(found.as_ref().map(|ranked| &ranked.slot_of), best.as_ref(), "{sheet:?}");
    }
    ranked.is_some()
}

/// Most of these sheets are too large for a search over all layouts; the ranked search ends on them, with a charge too.
#[test]
fn nested_sheets_have_their_depth_and_the_table_agrees_with_the_search() {
    for shortest in [false, true] {
        for wanted in 1..=7 {
            let mut random = Random::new(u64::from(wanted));
            let (mut hits, mut searched, mut searched_charged) = (0, 0, 0);
            for _ in 0..60 {
                let sheet = nested::sheet(wanted, shortest, &mut random);
                assert_eq!(read(&sheet.words()), Ok(sheet.clone()));
                let best = made(&sheet);
                hits += u32::from(best.as_ref().is_some_and(|slot_of| depth(&sheet, slot_of) == wanted));
                searched += u32::from(is_searched(&sheet, &best));
                let charged = Sheet { charge: Some(5 * wanted), ..sheet };
                searched_charged += u32::from(is_searched(&charged, &made(&charged)));
            }
            assert!(hits >= 12 && searched >= 40, "depth {wanted}: {hits}, {searched}");
            assert!(searched_charged >= 40, "depth {wanted}: {searched_charged}");
        }
    }
}

#[test]
fn one_seed_gives_one_sheet() {
    let drawn = |seed| nested::sheet(6, true, &mut Random::new(seed));
    assert_eq!(drawn(5), drawn(5));
    assert_ne!(drawn(5), drawn(6));
}
