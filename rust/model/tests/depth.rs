//! The depth of layouts that are drawn here, each with its slots from the top downwards and its sites by rising x.

use model::depth::{cuts, depth};
use model::sheet::{Sheet, Site, UNBOUNDED};

/// A sheet of one colour with a site for each of these slots, from left to right; the slots are 10 apart.
fn drawn(slot_of: &[usize]) -> Sheet {
    let sites =
        slot_of.iter().enumerate().map(|(rank, slot)| Site { x: rank as u32 + 1, y: 10 * *slot as u32, colour: 0 });
    Sheet {
        two_sided: false,
        shortest: true,
        gap: 1,
        width: 100,
        charge: None,
        slots: (0..20).map(|slot| 10 * slot).collect(),
        bounds: vec![UNBOUNDED],
        sites: sites.collect(),
    }
}

fn depths(slot_of: &[usize]) -> Vec<u32> {
    cuts(&drawn(slot_of), slot_of).iter().map(|cut| cut.depth).collect()
}

#[test]
fn no_label_has_no_depth() {
    assert_eq!(depth(&drawn(&[]), &[]), 0);
}

#[test]
fn one_label_has_depth_1_however_many_sites_it_has() {
    assert_eq!(depths(&[4]), [1]);
    assert_eq!(depths(&[4, 4, 4]), [1]);
}

/// ```text
/// slot 2      .------   depth 2, in the upper part
/// slot 5   .---------   depth 1
/// slot 8         .---   depth 2, in the lower part
/// ```
#[test]
fn two_parts_of_one_cut_have_one_depth() {
    assert_eq!(depths(&[5, 2, 8]), [1, 2, 2]);
    assert_eq!(depth(&drawn(&[5, 2, 8]), &[5, 2, 8]), 2);
}

/// ```text
/// slot 1   .------------   1
/// slot 3         .------   3, between 1 and 5: the later of them is 5
/// slot 4            .---   4, between 3 and 5: the later is 3
/// slot 5      .---------   2, below 1
/// slot 9                .  3, below 5
/// ```
#[test]
fn the_later_neighbour_made_the_strip() {
    let slot_of = [1, 5, 3, 4, 9];
    assert_eq!(depths(&slot_of), [1, 2, 3, 4, 3]);
    let within: Vec<_> = cuts(&drawn(&slot_of), &slot_of).iter().map(|cut| cut.within).collect();
    assert_eq!(within, [None, Some(1), Some(5), Some(3), Some(5)]);
}

/// Labels from the top downwards: each lies in the lower part of the one before.
#[test]
fn a_staircase_is_as_deep_as_it_is_long() {
    assert_eq!(depths(&[0, 1, 2, 3, 4, 5]), [1, 2, 3, 4, 5, 6]);
    assert_eq!(depths(&[5, 4, 3, 2, 1, 0]), [1, 2, 3, 4, 5, 6]);
}

/// From the outside in, and halving: as many labels, and depth 7 or 3.
#[test]
fn depth_is_not_the_number_of_labels() {
    assert_eq!(depths(&[0, 6, 1, 5, 2, 4, 3]), [1, 2, 3, 4, 5, 6, 7]);
    assert_eq!(depths(&[3, 1, 5, 0, 2, 4, 6]), [1, 2, 2, 3, 3, 3, 3]);
}

/// A site that joins an open label cuts nothing, wherever it stands.
#[test]
fn a_tie_to_an_open_label_is_no_cut() {
    let slot_of = [5, 5, 2, 5, 2, 8];
    assert_eq!(depths(&slot_of), [1, 2, 2]);
    let opened: Vec<_> = cuts(&drawn(&slot_of), &slot_of).iter().map(|cut| cut.site).collect();
    assert_eq!(opened, [0, 2, 5]);
}

/// What counts is the order by x, not the order in the sheet.
#[test]
fn sites_are_taken_by_rising_x() {
    let mut sheet = drawn(&[0, 1, 2]);
    sheet.sites[0].x = 50;
    assert_eq!(depth(&sheet, &[0, 1, 2]), 2, "1, then 2 below it and 0 above it");
}
