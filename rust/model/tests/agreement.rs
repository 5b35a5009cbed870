//! The search, the table and the judge are three readings of the same rules: they must agree.

mod common;

use common::made;
use model::random::{medium_sheet, small_sheet, Random};
use model::rules::judge;
use model::search;
use model::sheet::{read, Sheet, Site};

fn slots(answer: Option<Vec<u32>>) -> Vec<u32> {
    answer.into_iter().flatten().skip(1).map(|word| word & 0xFF).collect()
}

#[test]
fn words_read_back_as_the_sheet() {
    let mut random = Random::new(1);
    for _ in 0..10_000 {
        let sheet = small_sheet(&mut random);
        assert_eq!(read(&sheet.words()), Ok(sheet));
    }
}

#[test]
fn table_and_search_agree_on_small_sheets() {
    let mut random = Random::new(2);
    for _ in 0..20_000 {
        let sheet = small_sheet(&mut random).one_sided();
        let made = made(&sheet);
        assert_eq!(made, search::best(&sheet), "{sheet:?}");
        if let Some(answer) = made {
            assert_eq!(judge(&[sheet.words(), answer].concat()), (0, 0), "{sheet:?}");
        }
    }
}

#[test]
fn table_gives_lawful_layouts_on_medium_sheets() {
    let mut random = Random::new(3);
    for _ in 0..2_000 {
        let sheet = medium_sheet(&mut random).one_sided();
        if let Some(answer) = made(&sheet) {
            assert_eq!(judge(&[sheet.words(), answer].concat()), (0, 0), "{sheet:?}");
        }
    }
}

#[test]
fn equals_are_settled_across_strips() {
    let site = |x, y| Site { x, y, colour: 0 };
    let sheet = Sheet {
        two_sided: false,
        shortest: true,
        gap: 1,
        width: 4,
        charge: None,
        slots: vec![1, 2, 3, 4, 5],
        bounds: vec![2],
        sites: vec![site(0, 2), site(1, 2), site(2, 5), site(4, 0)],
    };
    assert_eq!(slots(made(&sheet)), [1, 1, 1, 0]);
    assert_eq!(slots(search::best(&sheet)), [1, 1, 1, 0]);
}
