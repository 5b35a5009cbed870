//! The library's reader and a plain one, on random lists.

use backbone::read;
use model::random::{any_list, Random};
use model::sheet::{sizes, Sizes};

const LISTS: usize = 300_000;

/// The library's sizes in the plain reader's form.
fn library_sizes(words: &[u32]) -> Sizes {
    match read(words) {
        Err(refusal) => Sizes { refusal: refusal.number(), ..Sizes::default() },
        Ok(sizes) => Sizes {
            refusal: 0,
            sites: sizes.sites as u8,
            slots: sizes.slots as u8,
            colours: sizes.colours as u8,
            budgets: sizes.budgets as u8,
            work: sizes.work_words as u32,
            each_colour: sizes.each_colour.map(|colour| (colour.bound, colour.sites)),
        },
    }
}

#[test]
fn random_lists_are_read_alike() {
    let mut random = Random::new(11);
    let mut met = [0; 8];
    for _ in 0..LISTS {
        let words = any_list(&mut random);
        let expected = sizes(&words);
        assert_eq!(library_sizes(&words), expected, "{words:x?}");
        met[usize::from(expected.refusal)] += 1;
    }
    // Every refusal of the reader, and no refusal, many times.
    assert!(met.iter().all(|times| *times > LISTS / 200), "{met:?}");
}
