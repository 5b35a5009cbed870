//! The drawn examples of the format.

mod common;

use backbone::{judge, Layout, Refusal, Rule};
use common::{make_in_dirt, make_in_enough, SHEET_A};
use model::random::Random;

/// Sheet A with another head.
fn with_head(head: u32) -> Vec<u32> {
    [&[head], &SHEET_A[1..]].concat()
}

fn laid_out(sheet: &[u32]) -> Result<(u32, u32, Vec<u8>), Refusal> {
    let words = make_in_enough(sheet, &mut Random::new(1))?;
    let layout = Layout::from_words(&words).expect("an answer is a layout");
    Ok((layout.labels, layout.length, layout.slots))
}

#[test]
fn sheet_a_and_its_heads() {
    assert_eq!(laid_out(&SHEET_A), Ok((2, 19, vec![0, 0, 2])));
    assert_eq!(laid_out(&with_head(0x14008008)), Ok((3, 18, vec![0, 1, 2])), "shortest");
    assert_eq!(laid_out(&with_head(0x18008008)), Err(Refusal::TwoSided), "two-sided");
    assert_eq!(laid_out(&with_head(0x1000C008)), Err(Refusal::NoLayout), "gap 3, by document 02");
    assert_eq!(laid_out(&with_head(0x10010008)), Err(Refusal::NoLayout), "gap 4");
    assert_eq!(laid_out(&[0x10008008]), Ok((0, 0, vec![])), "head alone");
}

/// No layout of sheet A with as few labels has a site on its backbone: a charge adds three times itself, and the same is
/// first among the equals.
#[test]
fn sheet_a_with_charges() {
    for charge in [0, 1, 16383] {
        let charged = |head: u32| [&[head, 0x50000000 | charge], &SHEET_A[1..]].concat();
        assert_eq!(laid_out(&charged(0x10008008)), Ok((2, 19 + 3 * charge, vec![0, 0, 2])));
        assert_eq!(laid_out(&charged(0x18008008)), Err(Refusal::TwoSided), "two-sided");
        assert_eq!(laid_out(&charged(0x1000C008)), Err(Refusal::NoLayout), "gap 3");
        assert_eq!(laid_out(&charged(0x10010008)), Err(Refusal::NoLayout), "gap 4");
    }
    assert_eq!(laid_out(&[0x10008008, 0x50003FFF]), Ok((0, 0, vec![])), "head and charge alone");
}

/// Sites at heights 4, 7 and 7, slots at 4 and 6, a backbone of 7: at slot 0 two drops, 6 together, at slot 1 three, 4
/// together. With a charge of 2 they are equals, and the lower slot comes first.
#[test]
fn a_charge_alters_the_best_layout() {
    let rest = [0x20000004, 0x20000006, 0x300000FF, 0x40004004, 0x40008007, 0x4000C007];
    for head in [0x10008008, 0x14008008] {
        let with = |charge: u32| laid_out(&[&[head, 0x50000000 | charge], &rest[..]].concat());
        assert_eq!(laid_out(&[&[head], &rest[..]].concat()), Ok((1, 7 + 4, vec![1, 1, 1])));
        assert_eq!(with(0), Ok((1, 7 + 4, vec![1, 1, 1])));
        assert_eq!(with(1), Ok((1, 7 + 4 + 3, vec![1, 1, 1])));
        assert_eq!(with(2), Ok((1, 7 + 6 + 2 * 2, vec![0, 0, 0])));
        assert_eq!(with(3), Ok((1, 7 + 6 + 2 * 3, vec![0, 0, 0])));
        assert_eq!(with(16383), Ok((1, 7 + 6 + 2 * 16383, vec![0, 0, 0])));
    }
}

#[test]
fn first_answer_word_of_a() {
    assert_eq!(make_in_enough(&SHEET_A, &mut Random::new(1)).map(|words| words[0]), Ok(0x80400013));
}

#[test]
fn a_colour_without_labels() {
    let mut sheet = SHEET_A;
    sheet[7] = 0x30000000;
    assert_eq!(laid_out(&sheet), Err(Refusal::NoLayout));
}

#[test]
fn judge_on_a() {
    let verdict = |labels, length, slots: [u8; 3]| {
        let layout = Layout { labels, length, slots: slots.to_vec() };
        judge(&[&SHEET_A[..], &layout.words()].concat())
    };
    assert_eq!(verdict(2, 19, [0, 0, 1]), Ok(Some(Rule::NoCrossing)));
    assert_eq!(verdict(2, 19, [0, 0, 0]), Ok(Some(Rule::SharedSlotSharedColour)));
    assert_eq!(verdict(2, 19, [2, 2, 0]), Ok(None));
    assert_eq!(verdict(2, 18, [2, 2, 0]), Ok(Some(Rule::TrueNumbers)));
    assert_eq!(verdict(3, 19, [2, 2, 0]), Ok(Some(Rule::TrueNumbers)));
}

#[test]
fn areas_of_a() {
    let mut random = Random::new(2);
    assert!(make_in_dirt(&SHEET_A, 900, 4, &mut random).is_ok());
    assert_eq!(make_in_dirt(&SHEET_A, 899, 4, &mut random), Err(Refusal::WorkTooShort));
    assert_eq!(make_in_dirt(&SHEET_A, 900, 3, &mut random), Err(Refusal::AnswerTooShort));
    assert_eq!(make_in_dirt(&SHEET_A, 0, 0, &mut random), Err(Refusal::WorkTooShort));
}

#[test]
fn equals_are_settled_across_strips() {
    let heights = [1, 2, 3, 4, 5].map(|height| 2 << 28 | height);
    let sites = [(0, 2), (1, 2), (2, 5), (4, 0)].map(|(x, y)| 4 << 28 | x << 14 | y);
    let sheet = [&[0x14004004], &heights[..], &[0x30000002], &sites].concat();
    assert_eq!(laid_out(&sheet).map(|(_, _, slots)| slots), Ok(vec![1, 1, 1, 0]));
}
