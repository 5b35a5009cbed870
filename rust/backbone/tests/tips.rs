//! Foreign sites at the tip of a backbone: which of them the library's judge counts, and what its maker does then.

mod common;

use backbone::{judge, Aim, Layout, Refusal, Rule, Sheet, Side};
use common::{make_in_enough, numbered};
use model::random::{small_sheet, Random};
use model::search::find_by;

/// Width 8, slots at 4, 8 and 10: a foreign site, and a site at (4, 8).
fn beside_tip(side: Side, gap: u32, (x, y): (u32, u32), is_one_colour: bool) -> Sheet {
    let mut sheet = Sheet::new(side, Aim::Fewest, gap, 8).unwrap();
    for height in [4, 8, 10] {
        sheet.add_slot(height).unwrap();
    }
    let foreign = sheet.add_colour(None).unwrap();
    sheet.add_site(foreign, x, y).unwrap();
    let own = if is_one_colour { foreign } else { sheet.add_colour(None).unwrap() };
    sheet.add_site(own, 4, 8).unwrap();
    sheet
}

/// The verdict on these slots with their true numbers.
fn verdict(sheet: &Sheet, slots: [u8; 2]) -> Option<Rule> {
    let mut layout = Layout { labels: 0, length: 0, slots: slots.to_vec() };
    (layout.labels, layout.length) = backbone::true_numbers(&backbone::labels(sheet, &layout));
    judge(&[sheet.words(), layout.words()].concat()).expect("a stored sheet")
}

/// With gap 2: document 02's tip at (4, 8) beside (3, 8), and beside sites that are further.
#[test]
fn the_judge_counts_what_is_left_of_a_tip_by_less_than_the_gap() {
    let one_sided = |gap, foreign| verdict(&beside_tip(Side::One, gap, foreign, false), [0, 1]);
    assert_eq!(one_sided(2, (3, 8)), Some(Rule::SitesClear));
    assert_eq!(one_sided(2, (2, 8)), None, "as far to the left as the gap");
    assert_eq!(one_sided(3, (2, 8)), Some(Rule::SitesClear), "less than the gap 3");
    assert_eq!(one_sided(1, (3, 8)), None, "with gap 1 nothing is left of a tip by less");
    for (y, expected) in [(6, None), (7, Some(Rule::SitesClear)), (9, Some(Rule::SitesClear)), (10, None)] {
        assert_eq!(one_sided(2, (3, y)), expected, "at height {y}");
    }
}

#[test]
fn foreign_is_what_has_another_slot() {
    let of_one_colour = beside_tip(Side::One, 2, (3, 8), true);
    assert_eq!(verdict(&of_one_colour, [0, 1]), Some(Rule::SitesClear));
    assert_eq!(verdict(&of_one_colour, [1, 1]), None);
}

/// Backbones reach from edge to edge: the vertical of the foreign site meets the one at height 8, whatever its x.
#[test]
fn two_sided_sheets_have_no_tips() {
    for x in [2, 3, 5] {
        assert_eq!(verdict(&beside_tip(Side::Two, 2, (x, 8), false), [0, 1]), Some(Rule::NoCrossing));
        assert_eq!(verdict(&beside_tip(Side::Two, 2, (x, 6), false), [0, 1]), None);
    }
}

/// Beside (3, 8) the tip leaves (4, 8): 5 + 4 and 4 + 2, where 5 + 2 and 4 would be shorter. Beside (2, 8) it may stay.
#[test]
fn the_maker_clears_the_tip() {
    let laid_out = |foreign| beside_tip(Side::One, 2, foreign, false).lay_out();
    assert_eq!(laid_out((3, 8)), Ok(Layout { labels: 2, length: 15, slots: vec![0, 2] }));
    assert_eq!(laid_out((2, 8)), Ok(Layout { labels: 2, length: 12, slots: vec![2, 1] }));
}

/// Sheets whose best layout, or whether they have one, depends on the clearance: the library answers as the search does.
#[test]
fn sheets_that_the_tip_alters() {
    let mut random = Random::new(350);
    let (mut moved, mut gone) = (0, 0);
    for _ in 0..20_000 {
        let sheet = small_sheet(&mut random).one_sided();
        let Some(without) = find_by(&sheet, |ties| ties.broken_but_for_tips()) else { continue };
        let without = model::rules::layout_words(&sheet, &without.slot_of);
        let made = numbered(make_in_enough(&sheet.words(), &mut random));
        if made.as_ref() == Ok(&without) {
            continue;
        }
        assert_eq!(made, model::search::best(&sheet).ok_or(Refusal::NoLayout.number()), "{sheet:?}");
        let stored = [sheet.words(), without].concat();
        assert_eq!(judge(&stored), Ok(Some(Rule::SitesClear)), "{sheet:?}");
        moved += usize::from(made.is_ok());
        gone += usize::from(made.is_err());
    }
    assert!(moved > 300 && gone > 300, "{moved} {gone}");
}
