//! The largest sheets, compared with the plain table and judged.

mod common;

use backbone::{judge, make, read};
use common::make_in_dirt;
use model::maker;
use model::random::{banded_sheet, Random};
use model::rules;
use model::sheet::{Sheet, MOST_CHARGE};

/// Compares the library with the plain table, in dirty areas.
fn compare(sheet: &Sheet, work_words: usize) {
    let words = sheet.words();
    assert_eq!(read(&words).map(|sizes| sizes.work_words), Ok(work_words));
    let mut random = Random::new(51);
    let made = make_in_dirt(&words, work_words + 2, 40, &mut random);
    let mut answer = vec![0; sheet.sites.len() + 1];
    assert_eq!(maker::make(&words, &mut vec![0; work_words], &mut answer), 0);
    assert_eq!(made.as_ref(), Ok(&answer));
    let stored = [words, answer].concat();
    assert_eq!(judge(&stored), Ok(None));
    assert_eq!(rules::judge(&stored), (0, 0));
}

#[test]
fn most_sites_and_slots() {
    compare(&banded_sheet(48, 32, &[255, 255], 4), 50 * 50 * 9 * 33);
    compare(&banded_sheet(48, 32, &[7], 5), 50 * 50 * 4 * 33 * 8);
}

#[test]
fn the_greatest_charge() {
    let charged = |sheet: Sheet| Sheet { charge: Some(MOST_CHARGE), ..sheet };
    compare(&charged(banded_sheet(48, 32, &[255, 255], 4)), 50 * 50 * 9 * 33);
    compare(&charged(banded_sheet(16, 16, &[1, 1, 1, 1, 1, 1, 255, 255], 6)), 18 * 18 * 81 * 17 * 64);
}

#[test]
fn most_colours_and_budgets() {
    compare(&banded_sheet(16, 16, &[1, 1, 1, 1, 1, 1, 255, 255], 6), 18 * 18 * 81 * 17 * 64);
}

/// 427 million work words, 1.7 GB: the plain table is made in the same words.
#[test]
fn largest_of_all() {
    let sheet = banded_sheet(48, 32, &[1, 1, 1, 1, 1, 1, 255, 255], 7);
    let words = sheet.words();
    let mut work = vec![0; 50 * 50 * 81 * 33 * 64];
    let (mut answer, mut plain) = (vec![0; 33], vec![0; 33]);
    assert_eq!(make(&words, &mut work, &mut answer), Ok(()));
    assert!(work.iter().all(|word| *word == 0));
    assert_eq!(maker::make(&words, &mut work, &mut plain), 0);
    assert_eq!(answer, plain);
    assert_eq!(judge(&[words, answer].concat()), Ok(None));
}
