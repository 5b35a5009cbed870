//! The rival that rounds beside the proved maker, by depth.

use super::{find, slots_of, Wanted};
use crate::maker::Maker;
use model::ranked::Numbers;
use model::rounding::{lay_out, Rounding};
use model::rules::{layout_words, Ties};
use model::sheet::Sheet;

const SHEETS: u64 = 60;

/// Count and length in the order in which the aim compares them.
fn cost(sheet: &Sheet, (labels, length): Numbers) -> (u32, u32) {
    if sheet.shortest {
        (length, labels)
    } else {
        (labels, length)
    }
}

/// On how many sheets of a depth the rival takes a worse layout. Its layouts are lawful, and never better.
fn worse(depth: u32, rounding: Rounding) -> u32 {
    let (mut worse, mut maker) = (0, Maker::default());
    for number in 0..SHEETS {
        let wanted = Wanted { depth, shortest: number % 2 == 0, charge: None, rounding: Rounding::None };
        let entry = find(wanted, 17, number, &mut maker).expect("no failure").expect("it is found");
        let slot_of = lay_out(&entry.sheet, rounding).expect("there is a layout");
        let stored = [entry.sheet.words(), layout_words(&entry.sheet, &slot_of)].concat();
        assert_eq!(backbone::judge(&stored), Ok(None), "{:?}", entry.sheet);
        let taken = cost(&entry.sheet, Ties::new(&entry.sheet, &slot_of).numbers());
        let best = cost(&entry.sheet, (entry.best.labels, entry.best.length));
        assert!(taken >= best, "{:?}", entry.sheet);
        worse += u32::from(taken > best);
    }
    worse
}

#[test]
fn the_rival_errs_by_rounding_alone_and_more_often_in_deep_sheets() {
    let by_depth = |rounding: Rounding| (1..=8).map(|depth| worse(depth, rounding)).collect::<Vec<u32>>();
    assert_eq!(by_depth(Rounding::None), [0; 8]);
    let rounded = by_depth(Rounding::TenthMillimetre);
    let (shallow, deep) = (rounded[..3].iter().sum::<u32>(), rounded[5..].iter().sum::<u32>());
    assert!(deep > 2 * shallow && shallow > 0, "{rounded:?}");
}

/// The search finds the maker's layout, and as many labels and as much length; every third sheet has a charge.
#[test]
fn the_maker_agrees_with_the_search_where_that_ends() {
    let (mut ended, mut maker) = (0, Maker::default());
    for depth in 1..=8 {
        for number in 0..20 {
            let charge = (number % 3 == 0).then_some(20 * number as u32);
            let wanted = Wanted { depth, shortest: number % 2 == 0, charge, rounding: Rounding::None };
            let entry = find(wanted, 18, number, &mut maker).expect("no failure").expect("it is found");
            assert_eq!(entry.sheet.charge, charge);
            if let Some(ranked) = entry.ranked {
                assert_eq!(
                    (ranked.slot_of, ranked.best),
                    (slots_of(&entry.best), (entry.best.labels, entry.best.length))
                );
                ended += 1;
            }
        }
    }
    assert!(ended > 140, "{ended} of 160");
}
