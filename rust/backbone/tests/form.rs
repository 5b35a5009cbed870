//! The builder, the words and the layouts of the safe crate.

use backbone::{lay_out, Aim, FormError, Layout, Refusal, Rule, Sheet, Side, Word};
use model::random::{any_word, small_sheet, Random};

#[test]
fn random_sheets_pass_through_the_builder() {
    let mut random = Random::new(61);
    for _ in 0..20_000 {
        let sheet = small_sheet(&mut random);
        let side = if sheet.two_sided { Side::Two } else { Side::One };
        let aim = if sheet.shortest { Aim::Shortest } else { Aim::Fewest };
        let mut built = Sheet::new(side, aim, sheet.gap, sheet.width).unwrap();
        built.set_charge(sheet.charge).unwrap();
        for height in &sheet.slots {
            built.add_slot(*height).unwrap();
        }
        for bound in &sheet.bounds {
            built.add_colour((*bound != 255).then_some(*bound as u8)).unwrap();
        }
        for site in &sheet.sites {
            built.add_site(site.colour, site.x, site.y).unwrap();
        }
        assert_eq!((built.words(), built.charge()), (sheet.words(), sheet.charge));
        assert_eq!(Sheet::from_words(&sheet.words()), Ok(built));
    }
}

#[test]
fn sites_are_in_sheet_order_however_they_are_added() {
    let mut sheet = Sheet::new(Side::One, Aim::Fewest, 1, 9).unwrap();
    let (first, second) = (sheet.add_colour(None).unwrap(), sheet.add_colour(Some(254)).unwrap());
    for (colour, x) in [(second, 3), (first, 2), (second, 1), (first, 4)] {
        sheet.add_site(colour, x, 0).unwrap();
    }
    let columns: Vec<u32> = sheet.sites().iter().map(|site| site.x).collect();
    assert_eq!(columns, [2, 4, 3, 1]);
    assert_eq!(Sheet::from_words(&sheet.words()), Err(Refusal::TooManyBudgets));
}

#[test]
fn the_builder_refuses_what_the_form_cannot_hold() {
    let sheet = || Sheet::new(Side::One, Aim::Fewest, 1, 100).unwrap();
    for (gap, width) in [(0, 1), (4096, 1), (1, 0), (1, 16384)] {
        assert!(Sheet::new(Side::One, Aim::Fewest, gap, width).is_err());
    }
    assert!(Sheet::new(Side::One, Aim::Fewest, 4095, 16383).is_ok());
    let charge = FormError::OutOfRange { name: "charge", number: 16384, least: 0, most: 16383 };
    assert_eq!(sheet().set_charge(Some(16384)), Err(charge));
    assert!([None, Some(0), Some(16383)].into_iter().all(|charge| sheet().set_charge(charge).is_ok()));
    assert!(sheet().add_slot(16384).is_err());
    assert!(sheet().add_colour(Some(255)).is_err());
    assert_eq!(sheet().add_site(0, 1, 1), Err(FormError::NoSuchColour(0)));
    let mut full = sheet();
    let colour = full.add_colour(None).unwrap();
    assert!(full.add_site(colour, 16384, 0).is_err() && full.add_site(colour, 0, 16384).is_err());
    (0..48).for_each(|height| full.add_slot(height).unwrap());
    (1..8).for_each(|colour| assert_eq!(full.add_colour(None), Ok(colour)));
    (0..32).for_each(|x| full.add_site(colour, x, 0).unwrap());
    assert_eq!(full.add_slot(99), Err(FormError::TooMany { name: "slots", most: 48 }));
    assert_eq!(full.add_colour(None), Err(FormError::TooMany { name: "colours", most: 8 }));
    assert_eq!(full.add_site(colour, 99, 0), Err(FormError::TooMany { name: "sites", most: 32 }));
    assert!(backbone::read(&full.words()).is_ok());
}

#[test]
fn a_charge_that_is_refused_leaves_the_sheet() {
    let mut sheet = Sheet::new(Side::One, Aim::Fewest, 1, 100).unwrap();
    sheet.set_charge(Some(7)).unwrap();
    assert!(sheet.set_charge(Some(u32::MAX)).is_err());
    assert_eq!(sheet.charge(), Some(7));
    assert_eq!([0, 1, 5].map(|drop| sheet.share(drop)), [0, 8, 12]);
}

#[test]
fn charges_are_words() {
    assert_eq!(Word::decode(0x50000003), Some(Word::Charge { charge: 3 }));
    assert_eq!(Word::decode(0x50003FFF), Some(Word::Charge { charge: 16383 }));
    assert!((14..28).all(|bit| Word::decode(0x50000003 | 1 << bit).is_none()));
    assert!(Word::Charge { charge: 16384 }.checked_encode().is_err());
    assert_eq!(Word::Charge { charge: 16385 }.encode(), 0x50000001, "what the field can't hold is cut off");
}

#[test]
fn decoded_words_encode_to_themselves() {
    let mut random = Random::new(62);
    let mut named = 0;
    for _ in 0..200_000 {
        let word = any_word(&mut random);
        if let Some(decoded) = Word::decode(word) {
            named += 1;
            assert_eq!(decoded.checked_encode(), Ok(word));
            assert_eq!(decoded.encode(), word);
        }
    }
    assert!(named > 100_000, "{named}");
}

#[test]
fn layouts_take_their_words_apart() {
    let words = [0x80400013, 0x90000000, 0x90000000, 0x90000002];
    let layout = Layout::from_words(&words).unwrap();
    assert_eq!(layout, Layout { labels: 2, length: 19, slots: vec![0, 0, 2] });
    assert_eq!(layout.words(), words);
    assert_eq!(layout.to_string(), "labels 2 length 19");
    for words in [&[][..], &[0x90000000], &[0x80400013, 0x90000100], &[0x80400013, 0x80400013]] {
        assert_eq!(Layout::from_words(words), None, "{words:x?}");
    }
}

#[test]
fn lay_out_passes_refusals_on() {
    assert_eq!(lay_out(&[]), Err(Refusal::NoHead));
    assert_eq!(lay_out(&[0x10008008, 0x300000FF, 0x40004001]), Err(Refusal::NoLayout));
    assert_eq!(lay_out(&[0x10008008]), Ok(Layout { labels: 0, length: 0, slots: vec![] }));
}

#[test]
fn rules_have_numbers_and_words() {
    for (index, rule) in Rule::ALL.into_iter().enumerate() {
        assert_eq!(Rule::from_number(index as u32 + 1), Some(rule));
        assert!(!rule.to_string().is_empty());
    }
    assert_eq!((Rule::from_number(0), Rule::from_number(7)), (None, None));
}
