//! The twin of a stored sheet, and refusal 18 of the maker, both by what the format says of them.

use model::maker::make;
use model::random::{invented_layout, medium_sheet, small_sheet, Random};
use model::rules::{judge, layout_words, Ties};
use model::search;
use model::sheet::{read, Sheet};
use model::twin::{twin, words};

const DIRT: u32 = 0xDEAD_BEEF;
const SIDE: u32 = 1 << 27;
const LENGTH: u32 = (1 << 21) - 1;

/// Small two-sided sheets.
fn two_sided_sheets(count: usize, seed: u64) -> impl Iterator<Item = Sheet> {
    let mut random = Random::new(seed);
    (0..count).map(move |_| Sheet { two_sided: true, ..small_sheet(&mut random) })
}

fn numbers(sheet: &Sheet, slot_of: &[usize]) -> (u32, u32) {
    Ties::new(sheet, slot_of).numbers()
}

/// Sheet A two-sided, with its best layout: 2 labels, length 25, slots 0, 0, 2. One-sided the same ties have length 19.
#[test]
fn sheet_a_two_sided_has_the_one_sided_layout_for_its_twin() {
    let rest = [
        0x20000002, 0x20000005, 0x20000008, 0x300000FF, 0x40008004, 0x40018006, 0x300000FF, 0x40010005, 0x80400019,
        0x90000000, 0x90000000, 0x90000002,
    ];
    let stored = [&[0x18008008], &rest[..]].concat();
    let mut expected = [&[0x10008008], &rest[..]].concat();
    expected[9] = 0x80400013;
    assert_eq!(words(&stored), Ok(expected));
}

/// The twin is lawful, has the count of its sheet, and is not longer; only the side and the length differ.
#[test]
fn a_twin_differs_in_side_and_length_alone() {
    let mut met = 0;
    for sheet in two_sided_sheets(20_000, 301) {
        let Some(found) = search::find(&sheet) else { continue };
        let stored = [sheet.words(), layout_words(&sheet, &found.slot_of)].concat();
        let twin = words(&stored).expect("a lawful layout has a twin");
        assert_eq!(judge(&twin), (0, 0), "{sheet:?}");
        assert_eq!(words(&twin).as_ref(), Ok(&twin), "the twin of a twin is itself");
        let first = sheet.words().len();
        assert_eq!((stored[0] ^ twin[0], stored[1..first] == twin[1..first]), (SIDE, true));
        assert_eq!((stored[first] & !LENGTH, &stored[first + 1..]), (twin[first] & !LENGTH, &twin[first + 1..]));
        assert!(twin[first] & LENGTH <= stored[first] & LENGTH, "{sheet:?}");
        met += usize::from(sheet.sites.len() > 2);
    }
    assert!(met > 2_000, "{met}");
}

/// The best one-sided layout is never worse than the best two-sided one, in the aim's number and then in the other.
#[test]
fn the_one_sided_best_is_not_worse() {
    let mut better = 0;
    let mut fewer = 0;
    for sheet in two_sided_sheets(20_000, 302) {
        let Some(found) = search::find(&sheet) else { continue };
        let one_sided = sheet.one_sided();
        let best = search::find(&one_sided).expect("what has a two-sided layout has a one-sided one");
        let cost = |(count, length)| if sheet.shortest { (length, count) } else { (count, length) };
        let (one, two) = (numbers(&one_sided, &best.slot_of), numbers(&sheet, &found.slot_of));
        assert!(cost(one) <= cost(two), "{sheet:?}");
        better += usize::from(one != numbers(&one_sided, &found.slot_of));
        fewer += usize::from(one.0 < two.0);
    }
    assert!(better > 1_000 && fewer > 40, "{better} {fewer}");
}

#[test]
fn refusals_of_the_twin_leave_the_area() {
    let mut random = Random::new(303);
    let mut met = [0; 14];
    for _ in 0..40_000 {
        let sheet = small_sheet(&mut random);
        let mut stored = [sheet.words(), invented_layout(&sheet, &mut random)].concat();
        if random.one_in(4) {
            model::random::damage(&mut stored, &mut random);
        }
        let lent = stored.len() + random.below(4) as usize - 1;
        let mut area = vec![DIRT; lent];
        let (refusal, written) = twin(&stored, &mut area);
        let expected = match judge(&stored) {
            (0, 0) if lent < stored.len() => 9,
            (0, 0) => 0,
            (0, _) => 13,
            (refusal, _) => refusal,
        };
        assert_eq!((refusal, written), (expected, if expected == 0 { stored.len() } else { 0 }), "{stored:x?}");
        assert!(area[written..].iter().all(|word| *word == DIRT));
        met[usize::from(refusal)] += 1;
    }
    assert!([0, 1, 2, 4, 9, 11, 13].iter().all(|refusal| met[*refusal] > 20), "{met:?}");
}

/// 18 stands after 7 and before 8: whatever the areas are, and neither changes.
#[test]
fn two_sided_sheets_are_not_laid_out() {
    let mut random = Random::new(304);
    for _ in 0..2_000 {
        let sheet = Sheet { two_sided: true, ..medium_sheet(&mut random) };
        let mut work = vec![DIRT; random.below(sheet.work_words() as u32 + 3) as usize];
        let mut answer = vec![DIRT; random.below(sheet.sites.len() as u32 + 3) as usize];
        assert_eq!(make(&sheet.words(), &mut work, &mut answer), 18);
        assert!(work.iter().chain(&answer).all(|word| *word == DIRT));
    }
    let above_64 = [0x18008008, 0x30000007, 0x30000008];
    assert_eq!(read(&above_64), Err(7));
    assert_eq!(make(&above_64, &mut [], &mut []), 7);
}
