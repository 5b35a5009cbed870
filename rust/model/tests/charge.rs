//! A charge on bends: its word, the share of a site, and what it alters, each by what the format says of it.

use model::maker::make;
use model::random::{any_list, any_stored, medium_sheet, small_sheet, Random};
use model::rules::{judge, layout_words, verdict, Ties};
use model::search;
use model::sheet::{read, sizes, Sheet, MOST_CHARGE};
use model::twin;

const HEAD: u32 = 0x1000_8008;

/// The sheet without its charge word.
fn uncharged(sheet: &Sheet) -> Sheet {
    Sheet { charge: None, ..sheet.clone() }
}

fn numbers(sheet: &Sheet, slot_of: &[usize]) -> (u32, u32) {
    Ties::new(sheet, slot_of).numbers()
}

#[test]
fn the_word_stands_right_after_the_head() {
    let charge = |words: &[u32]| read(words).map(|sheet| sheet.charge);
    assert_eq!(charge(&[HEAD]), Ok(None));
    assert_eq!(charge(&[HEAD, 0x5000_0000]), Ok(Some(0)), "a word of 0 is kept");
    assert_eq!(charge(&[HEAD, 0x5000_3FFF, 0x2000_0002]), Ok(Some(MOST_CHARGE)));
    assert_eq!(charge(&[0x5000_0003, HEAD]), Err(1), "as the first word");
    for words in [
        &[HEAD, 0x5000_0003, 0x5000_0003][..],
        &[HEAD, 0x2000_0002, 0x5000_0003],
        &[HEAD, 0x3000_00FF, 0x5000_0003],
        &[HEAD, 0x3000_00FF, 0x4000_8004, 0x5000_0003],
        &[HEAD, 0x5000_4000],
        &[HEAD, 0x5800_0000],
    ] {
        assert_eq!(charge(words), Err(2), "{words:x?}");
    }
}

/// One label of length 8 at slot 0: a site on it, and two sites off it, which pay the charge of 5 each.
#[test]
fn a_site_off_its_backbone_pays_once() {
    let words = [HEAD, 0x5000_0005, 0x2000_0004, 0x3000_00FF, 0x4000_0004, 0x4000_4001, 0x4000_8006];
    let sheet = read(&words).expect("a sheet");
    assert_eq!(numbers(&sheet, &[0, 0, 0]), (1, 8 + 3 + 5 + 2 + 5));
    assert_eq!(numbers(&uncharged(&sheet), &[0, 0, 0]), (1, 8 + 3 + 2));
    assert_eq!([0, 1, 9].map(|drop| sheet.share(drop)), [0, 6, 14]);
}

/// The longest layout that a sheet can have still fits 21 bits: 48 backbones of W, and 32 sites with the longest shares.
#[test]
fn lengths_fit_their_field() {
    let most = 48 * 16_383 + 32 * (16_383 + MOST_CHARGE);
    assert!(most < 1 << 21, "{most}");
}

/// Whether there is a layout, and which ties obey rules 1 to 5, does not depend on the charge; what is best does.
#[test]
fn a_charge_alters_lengths_alone() {
    let mut random = Random::new(401);
    let (mut altered, mut none) = ([0; 2], 0);
    for _ in 0..10_000 {
        let sheet = small_sheet(&mut random);
        let (found, plain) = (search::find(&sheet), search::find(&uncharged(&sheet)));
        assert_eq!(found.is_some(), plain.is_some(), "{sheet:?}");
        let (Some(found), Some(plain)) = (found, plain) else {
            none += usize::from(sheet.charge.is_some());
            continue;
        };
        let off = sheet.sites.iter().zip(&found.slot_of).filter(|(site, slot)| site.y != sheet.slots[**slot]).count();
        let (count, length) = numbers(&uncharged(&sheet), &found.slot_of);
        let charges = sheet.charge.unwrap_or(0) * off as u32;
        assert_eq!(numbers(&sheet, &found.slot_of), (count, length + charges), "{sheet:?}");
        assert_eq!(verdict(&sheet, &found.slot_of, (count, length)), if charges == 0 { 0 } else { 6 }, "{sheet:?}");
        altered[usize::from(sheet.shortest)] += usize::from(found.slot_of != plain.slot_of);
    }
    assert!(altered.iter().all(|count| *count > 100) && none > 100, "{altered:?} {none}");
}

/// The reader gives the same numbers with a charge word and without, and the maker asks for the same areas.
#[test]
fn sizes_do_not_know_the_charge() {
    let mut random = Random::new(402);
    for _ in 0..2_000 {
        let sheet = medium_sheet(&mut random).one_sided();
        let plain = uncharged(&sheet);
        assert_eq!(sizes(&sheet.words()), sizes(&plain.words()));
        let mut work = vec![0; sheet.work_words() as usize];
        let mut answer = vec![0; sheet.sites.len() + 1];
        let refusals = [&sheet, &plain].map(|sheet| make(&sheet.words(), &mut work, &mut answer));
        assert_eq!(refusals[0], refusals[1], "{sheet:?}");
    }
}

/// The twin has the charge word of its sheet, one of 0 too.
#[test]
fn twins_keep_the_word() {
    let mut random = Random::new(403);
    let mut met = [0; 2];
    for _ in 0..10_000 {
        let sheet = Sheet { two_sided: true, ..small_sheet(&mut random) };
        let (Some(charge), Some(found)) = (sheet.charge, search::find(&sheet)) else { continue };
        let stored = [sheet.words(), layout_words(&sheet, &found.slot_of)].concat();
        let twin = twin::words(&stored).expect("a lawful layout has a twin");
        assert_eq!((twin[1], judge(&twin)), (5 << 28 | charge, (0, 0)), "{sheet:?}");
        met[usize::from(charge > 0)] += 1;
    }
    assert!(met.iter().all(|count| *count > 200), "{met:?}");
}

/// Where a charge word can stand that is not in its place: twice, elsewhere, with a spare bit, and first.
fn misplaced(words: &[u32]) -> [bool; 4] {
    let is_charge = |word: &u32| word >> 28 == 5;
    let places: Vec<usize> = (0..words.len()).filter(|place| is_charge(&words[*place])).collect();
    [
        places.starts_with(&[1, 2]),
        places.iter().any(|place| *place > 2),
        words.get(1).is_some_and(|word| is_charge(word) && word & 0x0FFF_FFFF > MOST_CHARGE),
        places.first() == Some(&0),
    ]
}

/// The random lists have every charge word that is out of its place among them, and the reader refuses each.
#[test]
fn damage_meets_every_misplaced_word() {
    let mut random = Random::new(404);
    let (mut in_lists, mut in_stored) = ([0; 4], [0; 4]);
    for (met, draw) in [(&mut in_lists, any_list as fn(&mut Random) -> Vec<u32>), (&mut in_stored, any_stored)] {
        for words in (0..20_000).map(|_| draw(&mut random)) {
            let sheet = words.split(|word| word >> 28 == 8).next().expect("the words before a layout");
            let (found, refusal) = (misplaced(sheet), sizes(sheet).refusal);
            assert!(!found[3] || refusal == 1, "{words:x?}");
            assert!(!found[..3].contains(&true) || refusal == 1 || refusal == 2, "{words:x?}");
            met.iter_mut().zip(found).for_each(|(count, found)| *count += usize::from(found));
        }
    }
    assert!(in_lists.iter().chain(&in_stored).all(|count| *count > 20), "{in_lists:?} {in_stored:?}");
}
