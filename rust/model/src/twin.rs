//! The one-sided twin of a stored sheet: its sheet with a one-sided head, its ties, and the count and length that are
//! then true. Both parts are written anew from what was read, so no word is taken over.

use crate::areas::write;
use crate::rules::{lawful, layout_words};

/// The refusal, 0 if there is none, and how many words were written from the start of the area, 0 beside a refusal.
///
/// Refusals 1 to 7 and 11 are the judge's; 13 is a layout that breaks a rule, 9 an area shorter than the stored sheet.
pub fn twin(stored: &[u32], area: &mut [u32]) -> (u8, usize) {
    write(words(stored), area)
}

/// The words of the twin.
pub fn words(stored: &[u32]) -> Result<Vec<u32>, u8> {
    let (sheet, slot_of) = lawful(stored)?;
    let sheet = sheet.one_sided();
    Ok([sheet.words(), layout_words(&sheet, &slot_of)].concat())
}
