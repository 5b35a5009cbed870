//! The best layout beside the one that lengths rounded at each cut give.

use crate::{compare, Options, Side};
use backbone::{labels, read, true_numbers, Layout, Refusal, Sheet};
use model::rounding::{lay_out, rounded_length, Rounding, Unserved};
use std::fmt;

/// The rounding maker keeps its table in memory; it is not asked for tables of more words than this.
const MOST_WORDS: usize = 60_000_000;

/// Why there is no picture of rounded lengths.
#[derive(Clone, Debug, PartialEq, Eq)]
pub enum CannotRound {
    Refused(Refusal),
    NoLayout,
    TooLarge { words: usize },
    NothingRounded,
}

impl fmt::Display for CannotRound {
    fn fmt(&self, out: &mut fmt::Formatter) -> fmt::Result {
        match self {
            CannotRound::Refused(refusal) => write!(out, "refused {}: {refusal}", refusal.number()),
            CannotRound::NoLayout => {
                out.write_str("the sheet has no layout (refused 10), with exact lengths or with rounded ones")
            }
            CannotRound::TooLarge { words } => write!(
                out,
                "the sheet needs a table of {words} words, and rounded lengths are worked out for at most {MOST_WORDS}"
            ),
            CannotRound::NothingRounded => out.write_str("a step of 'none' rounds nothing: take 0.1mm or 0.1pt"),
        }
    }
}

impl std::error::Error for CannotRound {}

/// The best layout of a sheet, which the caller has made or knows to be none, beside the one that an engine takes that
/// rounds lengths at each cut.
pub fn rounded(
    sheet: &Sheet,
    best: Option<&Layout>,
    rounding: Rounding,
    options: &Options,
) -> Result<String, CannotRound> {
    let words = read(&sheet.words()).map_err(CannotRound::Refused)?.work_words;
    let best = best.ok_or(CannotRound::NoLayout)?;
    if rounding == Rounding::None {
        return Err(CannotRound::NothingRounded);
    }
    if words > MOST_WORDS {
        return Err(CannotRound::TooLarge { words });
    }
    let (taken, lengths) = rival(sheet, best, rounding).map_err(|unserved| match unserved {
        Unserved::TwoSided => CannotRound::Refused(Refusal::TwoSided),
        Unserved::NoLayout => CannotRound::NoLayout,
    })?;
    let titles = titles(best, &taken, rounding, lengths);
    let sides = [Side { title: &titles.0, layout: Some(best) }, Side { title: &titles.1, layout: Some(&taken) }];
    compare(sheet, sides, options).map_err(CannotRound::Refused)
}

/// The rounding engine's layout with its true numbers, and what the best and its own measure by its sums.
fn rival(sheet: &Sheet, best: &Layout, rounding: Rounding) -> Result<(Layout, [u64; 2]), Unserved> {
    // The reader accepted the words, so the model's reader does.
    let plain = model::sheet::read(&sheet.words()).map_err(|_| Unserved::NoLayout)?;
    let slot_of = lay_out(&plain, rounding)?;
    let slots_of_best: Vec<usize> = best.slots.iter().map(|slot| usize::from(*slot)).collect();
    let lengths = [rounded_length(&plain, &slots_of_best, rounding)?, rounded_length(&plain, &slot_of, rounding)?];
    let slots = slot_of.iter().map(|slot| *slot as u8).collect();
    let mut taken = Layout { labels: 0, length: 0, slots };
    (taken.labels, taken.length) = true_numbers(&labels(sheet, &taken));
    Ok((taken, lengths))
}

fn titles(best: &Layout, taken: &Layout, rounding: Rounding, [of_best, of_taken]: [u64; 2]) -> (String, String) {
    let (step, measure) = match rounding {
        Rounding::TenthMillimetre => ("0.1 mm", "mm"),
        Rounding::TenthPoint => ("0.1 pt", "pt"),
        Rounding::None => ("nothing", "units"),
    };
    let tenths = |length: u64| format!("{}.{} {measure}", length / 10, length % 10);
    let exact = |layout: &Layout| format!("labels {}, length {}", layout.labels, layout.length);
    let same = if best.slots == taken.slots { "; the same layout" } else { "" };
    (
        format!("exact: {} ({} when rounded)", exact(best), tenths(of_best)),
        format!("rounded to {step} at each cut: {}; in truth {}{same}", tenths(of_taken), exact(taken)),
    )
}
