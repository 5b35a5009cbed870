//! A judge in safe Rust that decodes nothing: loops over pairs of stored words, each word taken apart where it is met,
//! no list of slots, labels or sites. The library's judge, which decodes a sheet once, is timed against it.
//!
//! The loops take a test as a function, so that each is compiled for its test.

mod fields;
mod pairs;
mod refusals;
mod rules;

#[cfg(test)]
mod tests;

use fields::{byte, kind, LAYOUT, SITE, SLOT, TIE};
use pairs::{clears_pass, colours_pass, gaps_pass, misses_pass};
use refusals::{count, sheet_fault};
use rules::Stored;

/// The refusal, 0 if there is none, and the least broken rule, 0 if there is none.
pub fn judge(stored: &[u32]) -> (u8, u8) {
    let start = layout_start(stored);
    let (sheet, layout) = (&stored[..start], &stored[start..]);
    match sheet_fault(sheet) {
        0 if is_layout(sheet, layout) => (0, broken_by(&Stored::new(sheet, layout))),
        0 => (11, 0),
        fault => (fault, 0),
    }
}

/// The place of the first word of a layout, or the end.
fn layout_start(stored: &[u32]) -> usize {
    stored.iter().position(|word| kind(*word) == LAYOUT).unwrap_or(stored.len())
}

/// Refusal 11: whether the words are one tie to a slot for each site.
fn is_layout(sheet: &[u32], layout: &[u32]) -> bool {
    if layout.is_empty() {
        return false;
    }
    let body = &sheet[1..];
    let long = layout.len() - 1 == count(body, SITE);
    let slots = count(body, SLOT);
    long && kind(layout[0]) == LAYOUT && layout[1..].iter().all(|word| is_tie(*word, slots))
}

fn is_tie(word: u32, slots: usize) -> bool {
    let spare = word >> 8 & 0xF_FFFF;
    kind(word) == TIE && spare == 0 && (byte(word) as usize) < slots
}

fn broken_by(stored: &Stored) -> u8 {
    if !stored.pairs_pass(colours_pass) {
        return 1;
    }
    if !stored.bounds_pass() {
        return 2;
    }
    if !stored.pairs_pass(gaps_pass) {
        return 3;
    }
    if !stored.pairs_pass(misses_pass) {
        return 4;
    }
    if !stored.pairs_pass(clears_pass) {
        return 5;
    }
    if !stored.totals_stated() {
        return 6;
    }
    0
}
