//! What several tests of the model ask.

use model::maker::make;
use model::sheet::Sheet;

/// What the table makes of a one-sided sheet.
pub fn made(sheet: &Sheet) -> Option<Vec<u32>> {
    let mut work = vec![0xDEAD_BEEF; sheet.work_words() as usize];
    let mut answer = vec![0xDEAD_BEEF; sheet.sites.len() + 1];
    match make(&sheet.words(), &mut work, &mut answer) {
        0 => Some(answer),
        10 => None,
        refusal => panic!("refusal {refusal} of {sheet:?}"),
    }
}
