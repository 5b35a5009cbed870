//! The library's twin and a plain one, in dirty areas; and values of it.

mod common;

use backbone::{judge, lay_out, twin_words, Refusal, Side, Stored};
use common::{numbered, twin_in_dirt, SHEET_A};
use model::random::{any_stored, small_sheet, Random};
use model::rules::layout_words;
use model::sheet::Sheet;
use model::{search, twin};

const SHEETS: usize = 100_000;

/// The plain twin in an area of so many words.
fn plain_twin(stored: &[u32], lent: usize) -> Result<Vec<u32>, u8> {
    let mut area = vec![0; lent];
    match twin::twin(stored, &mut area) {
        (0, written) => Ok(area[..written].to_vec()),
        (refusal, _) => Err(refusal),
    }
}

#[test]
fn twins_are_those_of_the_plain_one() {
    let mut random = Random::new(320);
    let (mut met, mut changed) = ([0; 14], 0);
    for _ in 0..SHEETS {
        let stored = any_stored(&mut random);
        let lent = (stored.len() + random.below(5) as usize).saturating_sub(2);
        let made = numbered(twin_in_dirt(&stored, lent, &mut random));
        assert_eq!(made, plain_twin(&stored, lent), "{stored:x?}");
        changed += usize::from(made.as_ref().is_ok_and(|words| *words != stored));
        met[usize::from(made.err().unwrap_or(0))] += 1;
    }
    assert!([0, 1, 2, 4, 5, 6, 9, 11, 13].iter().all(|refusal| met[*refusal] > SHEETS / 1000), "{met:?}");
    assert!(changed > SHEETS / 20, "{changed}");
}

/// On both sides of the length that the area needs, and without an area.
#[test]
fn areas_of_a_twin() {
    let stored = [&[0x18008008], &SHEET_A[1..], &[0x80400019, 0x90000000, 0x90000000, 0x90000002]].concat();
    let expected = [&SHEET_A[..], &[0x80400013, 0x90000000, 0x90000000, 0x90000002]].concat();
    let mut random = Random::new(321);
    assert_eq!(twin_in_dirt(&stored, 13, &mut random).as_ref(), Ok(&expected));
    assert_eq!(twin_in_dirt(&stored, 300, &mut random).as_ref(), Ok(&expected));
    for lent in [0, 1, 12] {
        assert_eq!(twin_in_dirt(&stored, lent, &mut random), Err(Refusal::AnswerTooShort));
    }
    assert_eq!(twin_words(&stored).as_ref(), Ok(&expected));
    assert_eq!(twin_words(&[]), Err(Refusal::NoHead));
}

/// The charge word stays, one of 0 too; the twin's length has a charge for each of the three drops.
#[test]
fn a_charge_stays() {
    for charge in [0, 1, 16383] {
        let word = 0x50000000 | charge;
        let layout = |length: u32| [0x80400000 | (length + 3 * charge), 0x90000000, 0x90000000, 0x90000002];
        let stored = [&[0x18008008, word], &SHEET_A[1..], &layout(25)].concat();
        let expected = [&[0x10008008, word], &SHEET_A[1..], &layout(19)].concat();
        assert_eq!(twin_in_dirt(&stored, 14, &mut Random::new(325)).as_ref(), Ok(&expected), "{charge}");
        assert_eq!(twin_in_dirt(&stored, 13, &mut Random::new(326)), Err(Refusal::AnswerTooShort));
        assert_eq!(Stored::from_words(&stored).map(|stored| stored.sheet.charge()), Ok(Some(charge)));
    }
}

/// 13 comes before 9, on a sheet of either side.
#[test]
fn an_unlawful_layout_has_no_twin() {
    for head in [0x10008008, 0x18008008] {
        let stored = [&[head], &SHEET_A[1..], &[0x80400012, 0x90000000, 0x90000000, 0x90000002]].concat();
        for lent in [0, 13] {
            assert_eq!(twin_in_dirt(&stored, lent, &mut Random::new(322)), Err(Refusal::Unlawful));
        }
    }
}

/// What the proved maker finds for the one-sided sheet is no worse than the best two-sided layout's twin.
#[test]
fn the_maker_is_no_worse_than_the_twin() {
    let mut random = Random::new(323);
    let mut better = 0;
    for _ in 0..10_000 {
        let sheet = Sheet { two_sided: true, ..small_sheet(&mut random) };
        assert_eq!(lay_out(&sheet.words()), Err(Refusal::TwoSided));
        let Some(found) = search::find(&sheet) else { continue };
        let stored = Stored::from_words(&[sheet.words(), layout_words(&sheet, &found.slot_of)].concat()).unwrap();
        let twin = stored.twin().unwrap();
        assert_eq!((twin.sheet.side, twin.judge(), twin.twin().as_ref()), (Side::One, Ok(None), Ok(&twin)));
        assert_eq!((twin.layout.labels, &twin.layout.slots), (stored.layout.labels, &stored.layout.slots));
        assert!(twin.layout.length <= stored.layout.length);
        let best = twin.sheet.lay_out().expect("the twin is a lawful layout");
        let cost = |labels: u32, length: u32| if sheet.shortest { (length, labels) } else { (labels, length) };
        assert!(cost(best.labels, best.length) <= cost(twin.layout.labels, twin.layout.length), "{sheet:?}");
        better += usize::from(best != twin.layout);
    }
    assert!(better > 200, "{better}");
}

#[test]
fn stored_sheets_have_their_words() {
    let mut random = Random::new(324);
    let mut unlawful = 0;
    for _ in 0..5_000 {
        let words = any_stored(&mut random);
        match Stored::from_words(&words) {
            Err(refusal) => assert_eq!(judge(&words), Err(refusal)),
            Ok(stored) => {
                assert_eq!((stored.words(), stored.judge()), (words.clone(), judge(&words)));
                unlawful += usize::from(judge(&words) != Ok(None));
            }
        }
    }
    assert!(unlawful > 500, "{unlawful}");
}
