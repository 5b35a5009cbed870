//! Foreign sites at the tip, the left end of a backbone: which of them rule 5 counts, and what that alters, each by what the
//! format says of it.

mod common;

use common::made;
use model::random::{any_stored, medium_sheet, small_sheet, Random};
use model::ranked::rank;
use model::rules::{breaks_at_tips_alone, verdict, Ties};
use model::search::{self, find, find_by};
use model::sheet::{read, Sheet, Site, UNBOUNDED};

/// Gap 2, width 8: a foreign site, and a site at (4, 8) on the backbone of slot 1, whose tip it is.
fn beside_tip(x: u32, y: u32) -> Sheet {
    let sites = vec![Site { x, y, colour: 0 }, Site { x: 4, y: 8, colour: 1 }];
    let (slots, bounds) = (vec![4, 8, 10], vec![UNBOUNDED; 2]);
    Sheet { two_sided: false, shortest: false, gap: 2, width: 8, charge: None, slots, bounds, sites }
}

/// The least broken rule of these ties, with true numbers.
fn broken(sheet: &Sheet, slot_of: &[usize]) -> u8 {
    verdict(sheet, slot_of, Ties::new(sheet, slot_of).numbers())
}

#[test]
fn a_site_left_of_the_tip_by_less_than_the_gap_counts() {
    assert_eq!(broken(&beside_tip(3, 8), &[0, 1]), 5, "1 to the left");
    assert_eq!(broken(&beside_tip(2, 8), &[0, 1]), 0, "as far as the gap");
    assert_eq!(broken(&beside_tip(1, 8), &[0, 1]), 0, "further");
    let with_gap_3 = Sheet { gap: 3, ..beside_tip(2, 8) };
    assert_eq!(broken(&with_gap_3, &[0, 1]), 5, "2 to the left with gap 3");
    let with_gap_1 = Sheet { gap: 1, ..beside_tip(3, 8) };
    assert_eq!(broken(&with_gap_1, &[0, 1]), 0, "no site is left of a tip by less than 1");
}

#[test]
fn as_far_as_the_gap_in_height_is_far_enough() {
    let at = |y| broken(&beside_tip(3, y), &[0, 1]);
    assert_eq!([6, 7, 8, 9, 10].map(at), [0, 5, 5, 5, 0]);
}

#[test]
fn a_site_of_the_same_colour_on_another_slot_is_foreign() {
    let mut sheet = beside_tip(3, 8);
    sheet.sites[1].colour = 0;
    assert_eq!(broken(&sheet, &[0, 1]), 5);
    assert_eq!(broken(&sheet, &[1, 1]), 0, "of its own label it is the tip");
}

/// Two sites left of the tip at (4, 8), one of them too near in height: either order in the sheet.
#[test]
fn one_of_several_sites_at_a_tip_suffices() {
    for (first, second) in [((2, 6), (3, 9)), ((2, 9), (3, 6)), ((3, 9), (2, 6)), ((3, 6), (2, 9))] {
        let mut sheet = Sheet { gap: 3, slots: vec![3, 8, 12], ..beside_tip(first.0, first.1) };
        sheet.sites.insert(1, Site { x: second.0, y: second.1, colour: 0 });
        assert_eq!(broken(&sheet, &[0, 0, 1]), 5, "{first:?} {second:?}");
        for site in &mut sheet.sites[..2] {
            site.y = 5;
        }
        assert_eq!(broken(&sheet, &[0, 0, 1]), 0, "both 3 away in height");
    }
}

/// A tip left of the foreign site: its backbone runs past the site, and the rule is that of document 01.
#[test]
fn a_site_right_of_the_tip_counts_however_far() {
    assert_eq!(broken(&beside_tip(8, 9), &[2, 1]), 5);
    assert_eq!(broken(&beside_tip(8, 10), &[2, 1]), 0);
}

/// Without the clearance the slots 10 and 8 have length 5 + 2 + 4. With it the tip has to leave (4, 8): heights 4 and 10
/// give 5 + 4 + 4 + 2, either way round, and the lower slot of the site with the least x comes first.
#[test]
fn the_best_layout_moves() {
    let sheet = beside_tip(3, 8);
    let without = find_by(&sheet, |ties| ties.broken_but_for_tips()).expect("a layout");
    assert_eq!((&without.slot_of[..], Ties::new(&sheet, &without.slot_of).numbers()), (&[2, 1][..], (2, 11)));
    let expected = vec![8 << 28 | 2 << 21 | 15, 9 << 28, 9 << 28 | 2];
    assert_eq!(search::best(&sheet).as_ref(), Some(&expected));
    assert_eq!(made(&sheet), Some(expected));
    assert_eq!(made(&beside_tip(2, 8)), Some(vec![8 << 28 | 2 << 21 | 12, 9 << 28 | 2, 9 << 28 | 1]));
}

/// The tip at (4, 2) of document 01's layout is 2 right of the site (2, 4) and 2 above it.
#[test]
fn sheet_a_with_gap_3_has_no_layout() {
    let words =
        [0x1000C008, 0x20000002, 0x20000005, 0x20000008, 0x300000FF, 0x40008004, 0x40018006, 0x300000FF, 0x40010005];
    let sheet = read(&words).expect("sheet A");
    assert_eq!(broken(&sheet, &[2, 2, 0]), 5);
    assert_eq!((search::best(&sheet), made(&sheet)), (None, None));
    let without = find_by(&sheet, |ties| ties.broken_but_for_tips()).expect("a layout");
    assert_eq!((&without.slot_of[..], Ties::new(&sheet, &without.slot_of).numbers()), (&[2, 2, 0][..], (2, 19)));
}

/// The table, the ranked search and the search over all layouts, where the clearance has its say and where it has none.
#[test]
fn table_and_searches_agree() {
    let mut random = Random::new(501);
    let (mut moved, mut gone) = ([0; 2], [0; 2]);
    for _ in 0..20_000 {
        let sheet = small_sheet(&mut random).one_sided();
        let (found, without) = (find(&sheet), find_by(&sheet, |ties| ties.broken_but_for_tips()));
        let slot_of = found.map(|found| found.slot_of);
        let ranked = rank(&sheet, u64::MAX).expect("it has all the steps that it needs");
        assert_eq!(ranked.map(|ranked| ranked.slot_of), slot_of, "{sheet:?}");
        assert_eq!(made(&sheet), search::best(&sheet), "{sheet:?}");
        let without = without.map(|without| without.slot_of);
        assert!(sheet.gap > 1 || slot_of == without, "{sheet:?}");
        let aim = usize::from(sheet.shortest);
        gone[aim] += usize::from(slot_of.is_none() && without.is_some());
        moved[aim] += usize::from(slot_of.is_some() && slot_of != without);
    }
    assert!(moved.iter().chain(&gone).all(|count| *count > 100), "{moved:?} {gone:?}");
}

/// On a two-sided sheet every site counts anyway, so the clearance alters nothing.
#[test]
fn two_sided_sheets_have_no_tips() {
    let mut random = Random::new(502);
    let mut met = 0;
    for _ in 0..40_000 {
        let stored = any_stored(&mut random);
        let Ok((sheet, slot_of, _)) = model::rules::split(&stored) else { continue };
        let two_sided = Sheet { two_sided: true, ..sheet };
        let ties = Ties::new(&two_sided, &slot_of);
        assert_eq!(ties.broken(), ties.broken_but_for_tips(), "{stored:x?}");
        met += usize::from(breaks_at_tips_alone(&stored));
    }
    assert!(met > 100, "{met}");
}

/// Whoever leaves a site out moves left ends to the right alone, and fewer sites count: what is lawful stays so.
#[test]
fn a_layout_stays_lawful_without_a_site() {
    let mut random = Random::new(503);
    let mut left_ends = 0;
    for _ in 0..4_000 {
        let sheet = medium_sheet(&mut random).one_sided();
        let Some(answer) = made(&sheet) else { continue };
        let slot_of: Vec<usize> = answer[1..].iter().map(|word| (word & 0xFF) as usize).collect();
        let site = random.below(sheet.sites.len() as u32) as usize;
        let (mut fewer, mut fewer_slots) = (sheet.clone(), slot_of.clone());
        fewer.sites.remove(site);
        fewer_slots.remove(site);
        assert_eq!(Ties::new(&fewer, &fewer_slots).broken(), 0, "{sheet:?} without {site}");
        let ends = |sheet, slot_of| Ties::new(sheet, slot_of).used().collect::<Vec<_>>();
        let (before, after) = (ends(&sheet, &slot_of), ends(&fewer, &fewer_slots));
        left_ends += usize::from(before.len() == after.len() && before != after);
    }
    assert!(left_ends > 100, "{left_ends}");
}
