//! Every refusal, on both sides of its edge. Refusal 12 is the program's: see `program`.

mod common;

use backbone::{judge, make, read, Refusal};
use common::{make_in_dirt, SHEET_A};
use model::random::Random;

const UNBOUNDED: u32 = 0x300000FF;

/// The reader, the maker and the judge refuse alike.
fn refused_by_all(sheet: &[u32]) -> Option<Refusal> {
    let read = read(sheet).err();
    let judged = judge(&[sheet, &[0x80000000]].concat()).err();
    let made = make_in_dirt(sheet, 5, 40, &mut Random::new(7)).err();
    match read {
        Some(_) => assert_eq!((judged, made), (read, read), "{sheet:x?}"),
        None => assert!(
            judged.is_none_or(|refusal| refusal == Refusal::BadLayout)
                && made.is_none_or(|refusal| refusal.number() >= 8),
            "{sheet:x?}"
        ),
    }
    read
}

fn slots(count: u32) -> Vec<u32> {
    (0..count).map(|height| 2 << 28 | height).collect()
}

fn sites(count: u32) -> Vec<u32> {
    (0..count).map(|x| 4 << 28 | x << 14).collect()
}

fn colours(bounds: &[u32]) -> Vec<u32> {
    bounds.iter().map(|bound| 3 << 28 | bound).collect()
}

fn sheet(parts: &[&[u32]]) -> Vec<u32> {
    [&[0x10008020], &parts.concat()[..]].concat()
}

#[test]
fn no_head() {
    for words in [&[][..], &[0x20000000], &[0x80000000], &[0x10008000], &[0x10000008], &[0]] {
        assert_eq!(refused_by_all(words), Some(Refusal::NoHead), "{words:x?}");
    }
    assert_eq!(refused_by_all(&[0x1FFFFFFF]), None);
    assert_eq!(refused_by_all(&[0x10004001]), None);
}

/// What has no words has no need of a pointer that points to some.
#[test]
fn areas_without_words() {
    let (mut work, mut answer) = ([7; 900], [7; 4]);
    assert_eq!(make(&[], &mut [], &mut []), Err(Refusal::NoHead));
    assert_eq!(make(&SHEET_A, &mut [], &mut answer), Err(Refusal::WorkTooShort));
    assert_eq!(make(&SHEET_A, &mut work, &mut []), Err(Refusal::AnswerTooShort));
    assert_eq!((work, answer), ([7; 900], [7; 4]));
}

#[test]
fn bad_word() {
    for word in [0x10008008, 0x20004000, 0x30000100, 0x40000000, 0x60000000, 0x90000000, 0xF0000000, 0] {
        assert_eq!(refused_by_all(&[0x10008008, word]), Some(Refusal::BadWord), "{word:x}");
    }
    let late_slot = sheet(&[&[UNBOUNDED], &slots(1)]);
    assert_eq!(refused_by_all(&late_slot), Some(Refusal::BadWord));
}

/// A charge stands right after the head, once, in 14 bits; as the first word it is no head.
#[test]
fn charges() {
    for charge in [0x50000000, 0x50000001, 0x50003FFF] {
        assert_eq!(refused_by_all(&[0x10008008, charge]), None, "{charge:x}");
        assert_eq!(refused_by_all(&sheet(&[&[charge], &slots(2), &[UNBOUNDED], &sites(2)])), None);
        assert_eq!(refused_by_all(&[charge, 0x10008008]), Some(Refusal::NoHead));
        assert_eq!(refused_by_all(&[charge]), Some(Refusal::NoHead));
        for before in [&[charge][..], &slots(1), &[UNBOUNDED], &[UNBOUNDED, 0x40000000]] {
            assert_eq!(refused_by_all(&sheet(&[before, &[charge]])), Some(Refusal::BadWord), "{before:x?}");
        }
    }
    for spare in 14..28 {
        assert_eq!(refused_by_all(&[0x10008008, 0x50000003 | 1 << spare]), Some(Refusal::BadWord), "bit {spare}");
    }
    // The lower refusals come first, and a charge is no slot, colour or site.
    assert_eq!(refused_by_all(&[0x10008000, 0x5FFFFFFF]), Some(Refusal::NoHead));
    assert_eq!(refused_by_all(&sheet(&[&[0x50000003], &slots(48)])), None);
    assert_eq!(refused_by_all(&sheet(&[&[0x50000003], &slots(49)])), Some(Refusal::TooMany));
}

#[test]
fn too_many() {
    assert_eq!(refused_by_all(&sheet(&[&slots(48)])), None);
    assert_eq!(refused_by_all(&sheet(&[&slots(49)])), Some(Refusal::TooMany));
    assert_eq!(refused_by_all(&sheet(&[&colours(&[255; 8])])), None);
    assert_eq!(refused_by_all(&sheet(&[&colours(&[255; 9])])), Some(Refusal::TooMany));
    assert_eq!(refused_by_all(&sheet(&[&[UNBOUNDED], &sites(32)])), None);
    assert_eq!(refused_by_all(&sheet(&[&[UNBOUNDED], &sites(33)])), Some(Refusal::TooMany));
    // Over two colours.
    let two = sheet(&[&[UNBOUNDED], &sites(32), &[UNBOUNDED, 0x40080000]]);
    assert_eq!(refused_by_all(&two), Some(Refusal::TooMany));
}

#[test]
fn slots_not_rising() {
    for pair in [[5, 5], [5, 4]].map(|heights| heights.map(|height| 2 << 28 | height)) {
        assert_eq!(refused_by_all(&sheet(&[&pair])), Some(Refusal::SlotsNotRising));
    }
}

#[test]
fn site_beyond_width() {
    let site_at = |x: u32| [0x10008008, UNBOUNDED, 4 << 28 | x << 14];
    assert_eq!(refused_by_all(&site_at(8)), None);
    assert_eq!(refused_by_all(&site_at(9)), Some(Refusal::SiteBeyondWidth));
}

#[test]
fn equal_x() {
    let own = sheet(&[&[UNBOUNDED, 0x40004001, 0x40004002]]);
    assert_eq!(refused_by_all(&own), Some(Refusal::EqualX));
    let others = sheet(&[&[UNBOUNDED, 0x40004001, UNBOUNDED, 0x40004001]]);
    assert_eq!(refused_by_all(&others), Some(Refusal::EqualX));
}

#[test]
fn too_many_budgets() {
    let budgets = |bounds: &[u32]| refused_by_all(&sheet(&[&colours(bounds)]));
    assert_eq!(budgets(&[7, 7]), None);
    assert_eq!(budgets(&[7, 8]), Some(Refusal::TooManyBudgets));
    assert_eq!(budgets(&[63, 0, 255]), None);
    assert_eq!(budgets(&[64]), Some(Refusal::TooManyBudgets));
    // 255 to the 8; and a product of 2 to the 32, which is 0 in 32 bits.
    assert_eq!(budgets(&[254; 8]), Some(Refusal::TooManyBudgets));
    assert_eq!(budgets(&[15; 8]), Some(Refusal::TooManyBudgets));
    assert_eq!(budgets(&[127, 127, 127, 127, 15]), Some(Refusal::TooManyBudgets));
}

/// Each refusal is looked for through the whole list before the next.
#[test]
fn the_lowest_comes_first() {
    let over = sheet(&[&slots(49), &[0x20000000], &colours(&[64, 255]), &[0x400C0000, 0x400C0000]]);
    assert_eq!(refused_by_all(&over), Some(Refusal::TooMany));
    assert_eq!(refused_by_all(&[&over[..], &[0x20000000]].concat()), Some(Refusal::BadWord));
    let from_4 = sheet(&[&[0x20000001, 0x20000001], &colours(&[64]), &[0x400C0000, 0x400C0000]]);
    assert_eq!(refused_by_all(&from_4), Some(Refusal::SlotsNotRising));
    assert_eq!(refused_by_all(&sheet(&[&from_4[3..]])), Some(Refusal::SiteBeyondWidth));
    let from_6 = sheet(&[&colours(&[64]), &[0x40004000, 0x40004000]]);
    assert_eq!(refused_by_all(&from_6), Some(Refusal::EqualX));
}

#[test]
fn areas_too_short() {
    let mut random = Random::new(8);
    let mut made = |work, answer| make_in_dirt(&SHEET_A, work, answer, &mut random).err();
    assert_eq!(made(900, 4), None);
    assert_eq!(made(899, 4), Some(Refusal::WorkTooShort));
    assert_eq!(made(899, 0), Some(Refusal::WorkTooShort));
    assert_eq!(made(900, 3), Some(Refusal::AnswerTooShort));
    assert_eq!(made(1000, 0), Some(Refusal::AnswerTooShort));
}

/// 18 comes after 7 and before 8, so no area plays a part. The reader accepts the sheet.
#[test]
fn two_sided() {
    let sheet = [&[0x18008008], &SHEET_A[1..]].concat();
    assert_eq!(read(&sheet).map(|sizes| sizes.work_words), Ok(15));
    let mut random = Random::new(10);
    for (work, answer) in [(0, 0), (14, 4), (15, 3), (15, 4), (900, 4), (2000, 40)] {
        assert_eq!(make_in_dirt(&sheet, work, answer, &mut random), Err(Refusal::TwoSided), "{work} {answer}");
    }
    let above_64 = [0x18008008, 0x30000007, 0x30000008];
    assert_eq!(make_in_dirt(&above_64, 0, 0, &mut random), Err(Refusal::TooManyBudgets));
}

#[test]
fn no_layout() {
    let no_slot = [0x10008008, UNBOUNDED, 0x40004001];
    let bound_0 = [0x10008008, 0x20000001, 0x30000000, 0x40004001];
    for sheet in [&no_slot[..], &bound_0] {
        let made = make_in_dirt(sheet, 100, 10, &mut Random::new(9));
        assert_eq!(made, Err(Refusal::NoLayout), "{sheet:x?}");
    }
}

#[test]
fn bad_layout() {
    let judged = |layout: &[u32]| judge(&[&SHEET_A[..], layout].concat());
    assert_eq!(judged(&[0x80400013, 0x90000000, 0x90000000, 0x90000002]), Ok(None));
    let bad: [&[u32]; 8] = [
        &[],
        &[0x80400013],
        &[0x80400013, 0x90000000, 0x90000000],
        &[0x80400013, 0x90000000, 0x90000000, 0x90000002, 0x90000002],
        &[0x80400013, 0x90000000, 0x90000000, 0x90000003],
        &[0x80400013, 0x90000000, 0x90000000, 0x90000102],
        &[0x80400013, 0x90000000, 0x90000000, 0x98000002],
        &[0x80400013, 0x90000000, 0x80000000, 0x90000002],
    ];
    for layout in bad {
        assert_eq!(judged(layout), Err(Refusal::BadLayout), "{layout:x?}");
    }
    assert_eq!(
        judged(&[0x80400013, 0x50000003, 0x90000000, 0x90000000]),
        Err(Refusal::BadLayout),
        "a charge among ties"
    );
    assert_eq!(judged(&[0x90000000]), Err(Refusal::BadWord), "a tie without a layout's first word");
    assert_eq!(judge(&[0x80400013]), Err(Refusal::NoHead));
}

#[test]
fn numbers_and_words() {
    let numbers = Refusal::ALL.map(Refusal::number);
    assert_eq!(numbers, [1, 2, 3, 4, 5, 6, 7, 8, 9, 10, 11, 12, 13, 14, 18]);
    for refusal in Refusal::ALL {
        assert_eq!(Refusal::from_number(refusal.number().into()), Some(refusal));
        assert!(!refusal.to_string().is_empty());
    }
    assert_eq!([0, 15, 17, 19].map(Refusal::from_number), [None; 4]);
}
