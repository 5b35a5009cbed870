//! Calls of the library in dirty areas, with every word of the areas looked at afterwards.
#![allow(dead_code)]

pub mod vectors;

use backbone::{lay_out, make, read, twin, write_page, Refusal};
use model::random::{any_stored, damage, invented_layout, medium_sheet, Random};
use model::sheet::sizes;
use std::fmt::Debug;

/// Sheet A of the format's drawn examples.
pub const SHEET_A: [u32; 9] =
    [0x10008008, 0x20000002, 0x20000005, 0x20000008, 0x300000FF, 0x40008004, 0x40018006, 0x300000FF, 0x40010005];

/// Document 01's layout of sheet A: 2 labels, length 19, slots 0, 0 and 2.
pub const LAYOUT_A: [u32; 4] = [0x80400013, 0x90000000, 0x90000000, 0x90000002];

/// Sheet A with another head and this layout.
pub fn stored_a(head: u32, layout: &[u32]) -> Vec<u32> {
    [&[head], &SHEET_A[1..], layout].concat()
}

/// Stored sheets that every tool refuses: 1 to 7 and 11 as the judge does, then 13.
pub fn refused_stored() -> Vec<(Vec<u32>, Refusal)> {
    let many: Vec<u32> = (0..49).map(|height| 2 << 28 | height).collect();
    vec![
        (vec![], Refusal::NoHead),
        (LAYOUT_A.to_vec(), Refusal::NoHead),
        (stored_a(0x10008000, &LAYOUT_A), Refusal::NoHead),
        ([&SHEET_A[..], &SHEET_A[..1], &LAYOUT_A].concat(), Refusal::BadWord),
        ([&SHEET_A[..1], &many, &[0x80000000]].concat(), Refusal::TooMany),
        (vec![0x10008008, 0x20000005, 0x20000005, 0x80000000], Refusal::SlotsNotRising),
        (stored_a(0x10008005, &LAYOUT_A), Refusal::SiteBeyondWidth),
        (vec![0x10008008, 0x20000005, 0x300000FF, 0x40008004, 0x40008005, 0x80000000], Refusal::EqualX),
        (vec![0x10008008, 0x30000007, 0x30000008, 0x80000000], Refusal::TooManyBudgets),
        (SHEET_A.to_vec(), Refusal::BadLayout),
        (stored_a(0x10008008, &LAYOUT_A[..3]), Refusal::BadLayout),
        (stored_a(0x10008008, &[0x80400012, 0x90000000, 0x90000000, 0x90000002]), Refusal::Unlawful),
        (stored_a(0x18008008, &LAYOUT_A), Refusal::Unlawful),
        // 0, 0, 1 breaks rule 4; 0, 0, 0 breaks rule 1.
        (stored_a(0x10008008, &[0x80400013, 0x90000000, 0x90000000, 0x90000001]), Refusal::Unlawful),
        (stored_a(0x10008008, &[0x80400013, 0x90000000, 0x90000000, 0x90000000]), Refusal::Unlawful),
    ]
}

/// A stored sheet of any sort: the maker's layout of a sheet that no search is tried on, or one of `any_stored`.
pub fn any_sort(random: &mut Random) -> Vec<u32> {
    if !random.one_in(4) {
        return any_stored(random);
    }
    let sheet = medium_sheet(random).one_sided();
    let made = lay_out(&sheet.words()).map(|layout| layout.words());
    let mut stored = [sheet.words(), made.unwrap_or_else(|_| invented_layout(&sheet, random))].concat();
    if random.one_in(4) {
        damage(&mut stored, random);
    }
    stored
}

/// Words that an area may have been left with; costs, marks and "none" among them.
pub fn dirt(words: usize, random: &mut Random) -> Vec<u32> {
    let mut word = || match random.below(4) {
        0 => random.word(),
        1 => u32::MAX,
        2 => random.below(4),
        _ => 9 << 28 | random.below(8),
    };
    // A prime number of them, so that they don't fall in step with the table's rows.
    let pattern: [u32; 61] = std::array::from_fn(|_| word());
    let mut dirt = pattern.repeat(words / pattern.len() + 1);
    dirt.truncate(words);
    dirt
}

/// Lays out in dirty areas of these lengths; panics if a word of an area is not as the contract says.
pub fn make_in_dirt(
    sheet: &[u32],
    work_words: usize,
    answer_words: usize,
    random: &mut Random,
) -> Result<Vec<u32>, Refusal> {
    let (old_work, old_answer) = (dirt(work_words, random), dirt(answer_words, random));
    let (mut work, mut answer) = (old_work.clone(), old_answer.clone());
    let made = make(sheet, &mut work, &mut answer);
    let (needed, layout) = (sizes(sheet).work as usize, usize::from(sizes(sheet).sites) + 1);
    let (zeroed, written) = match made {
        Ok(()) => (needed, layout),
        Err(Refusal::NoLayout) => (needed, 0),
        Err(_) => (0, 0),
    };
    assert!(work[..zeroed].iter().all(|word| *word == 0), "work words not zero: {sheet:x?}");
    assert_eq!(work[zeroed..], old_work[zeroed..], "work words past the needed: {sheet:x?}");
    assert_eq!(answer[written..], old_answer[written..], "answer words past the layout: {sheet:x?}");
    made.map(|()| answer[..written].to_vec())
}

/// What is written to an area that held this; panics if an item past it is another than before.
fn written_to<T: Copy + PartialEq + Debug>(
    old: &[T],
    write: impl FnOnce(&mut [T]) -> Result<usize, Refusal>,
) -> Result<Vec<T>, Refusal> {
    let mut area = old.to_vec();
    let made = write(&mut area);
    let written = made.unwrap_or(0);
    assert_eq!(area[written..], old[written..], "past what was written");
    area.truncate(written);
    made.map(|_| area)
}

/// Writes the twin in a dirty area of this length; panics if a word of the area is not as the contract says.
pub fn twin_in_dirt(stored: &[u32], words: usize, random: &mut Random) -> Result<Vec<u32>, Refusal> {
    let made = written_to(&dirt(words, random), |area| twin(stored, area));
    assert!(made.as_ref().map_or(true, |made| made.len() == stored.len()), "words written: {stored:x?}");
    made
}

/// Writes the page in a dirty area of so many bytes; panics if a byte of the area is not as the contract says.
pub fn page_in_dirt(stored: &[u32], bytes: usize, random: &mut Random) -> Result<String, Refusal> {
    let old: Vec<u8> = dirt(bytes, random).into_iter().map(|word| word as u8).collect();
    let made = written_to(&old, |area| write_page(stored, area))?;
    Ok(String::from_utf8(made).expect("a page is ASCII"))
}

/// As the library's result: what was written, or the number of the refusal.
pub fn numbered<T>(made: Result<T, Refusal>) -> Result<T, u8> {
    made.map_err(Refusal::number)
}

/// Lays out in dirty areas that are long enough, by a few words more or not.
pub fn make_in_enough(sheet: &[u32], random: &mut Random) -> Result<Vec<u32>, Refusal> {
    let sizes = read(sheet)?;
    let (more_work, more_answer) = (random.below(4) as usize, random.below(3) as usize);
    make_in_dirt(sheet, sizes.work_words + more_work, sizes.answer_words() + more_answer, random)
}
