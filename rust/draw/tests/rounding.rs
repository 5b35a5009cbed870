//! Pictures of rounded lengths: what they show, and what can't be drawn.

mod common;

use backbone::{Refusal, Sheet};
use common::{elements, hold_texts_apart, strokes};
use draw::{rounded, sheet_and_layout, CannotRound, Options};
use model::rounding::Rounding;

fn drawn(text: &str, rounding: Rounding) -> Result<String, CannotRound> {
    let (sheet, layout) = sheet_and_layout(&sheet::encode(text).unwrap()).unwrap();
    rounded(&sheet, layout.as_ref(), rounding, &Options::default())
}

/// A sheet on which rounding to tenths of a point takes a layout of length 1051, where 1048 is the least.
const WRONG: &str =
    "head one-sided shortest gap 10 width 255\nslot 44\nslot 69\nslot 89\nslot 137\nslot 183\nslot 210\n\
    slot 257\ncolour unbounded\nsite 235 67\nsite 176 51\nsite 154 161\nsite 13 322\ncolour unbounded\nsite 140 185\n\
    site 211 75\nsite 71 124\nsite 26 262\n";

#[test]
fn both_layouts_are_drawn() {
    let picture = drawn(WRONG, Rounding::TenthPoint).unwrap();
    hold_texts_apart(&picture);
    assert!(picture.contains("labels 6, length 1048"), "{picture}");
    assert!(picture.contains("131.3 pt") && picture.contains("length 1051"));
    let parts = elements(&picture);
    assert_eq!(strokes(&parts, "backbone").len(), 6 + 3);
    assert!(!picture.contains("rule"), "both are lawful");
}

#[test]
fn what_cannot_be_drawn_is_said() {
    let small = "slot 2\nslot 5\nslot 8\ncolour unbounded\nsite 2 4\nsite 6 6\ncolour unbounded\nsite 4 5\n";
    let sheet = |head: &str| format!("{head}\n{small}");
    let two_sided = Sheet::from_words(&sheet::encode(&sheet("head two-sided fewest gap 2 width 8")).unwrap()).unwrap();
    let layout = backbone::Layout { labels: 2, length: 25, slots: vec![0, 0, 2] };
    let two_sided = rounded(&two_sided, Some(&layout), Rounding::TenthMillimetre, &Options::default());
    assert_eq!(two_sided, Err(CannotRound::Refused(Refusal::TwoSided)));
    let none = drawn(&sheet("head one-sided fewest gap 4 width 8"), Rounding::TenthMillimetre);
    assert_eq!(none, Err(CannotRound::NoLayout));
    assert!(CannotRound::NoLayout.to_string().contains("refused 10"));
    let nothing = drawn(&sheet("head one-sided fewest gap 2 width 8"), Rounding::None);
    assert_eq!(nothing, Err(CannotRound::NothingRounded));
}

#[test]
fn bounds_and_both_aims_are_drawn() {
    for aim in ["fewest", "shortest"] {
        let text = format!(
            "head one-sided {aim} gap 2 width 8\nslot 2\nslot 5\nslot 8\ncolour bound 2\nsite 2 4\nsite 6 6\n\
             colour bound 1\nsite 4 5\n"
        );
        assert!(drawn(&text, Rounding::TenthMillimetre).is_ok());
    }
}

#[test]
fn large_tables_are_not_tried() {
    let mut text = "head one-sided fewest gap 1 width 100\n".to_string();
    (0..48).for_each(|slot| text += &format!("slot {slot}\n"));
    text += "colour bound 63\n";
    (0..7).for_each(|_| text += "colour unbounded\n");
    (0..32).for_each(|site| text += &format!("site {site} 5\n"));
    let sheet = Sheet::from_words(&sheet::encode(&text).unwrap()).unwrap();
    let layout = backbone::Layout { labels: 0, length: 0, slots: vec![0; 32] };
    let made = rounded(&sheet, Some(&layout), Rounding::TenthPoint, &Options::default());
    assert_eq!(made, Err(CannotRound::TooLarge { words: 50 * 50 * 9 * 9 * 33 * 64 }));
    assert!(made.unwrap_err().to_string().contains("427680000 words"));
    let refused = CannotRound::Refused(Refusal::EqualX).to_string();
    assert_eq!(refused, "refused 6: two sites have equal x");
}
