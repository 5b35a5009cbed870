//! Refusals 1 to 7, each by a loop of its own over the words after the head.

use super::fields::{byte, gap, high, kind, low, CHARGE, COLOUR, HEAD, SITE, SLOT};

/// The first refusal that applies, 0 if none does.
pub fn sheet_fault(sheet: &[u32]) -> u8 {
    if !is_head(sheet) {
        return 1;
    }
    let (head, body) = (sheet[0], &sheet[1..]);
    if !in_order(body) {
        return 2;
    }
    if !counts_fit(body) {
        return 3;
    }
    if !rises(body) {
        return 4;
    }
    if !all_inside(body, low(head)) {
        return 5;
    }
    if !columns_differ(body) {
        return 6;
    }
    if product(body) > 64 {
        return 7;
    }
    0
}

fn is_head(sheet: &[u32]) -> bool {
    !sheet.is_empty() && kind(sheet[0]) == HEAD && low(sheet[0]) != 0 && gap(sheet[0]) != 0
}

/// What may stand next in a sheet.
#[derive(Clone, Copy, PartialEq)]
enum Stage {
    Charge,
    Slots,
    Colours,
    OutOfOrder,
}

fn in_order(body: &[u32]) -> bool {
    let mut stage = Stage::Charge;
    for word in body {
        stage = stage_after(stage, *word);
        if stage == Stage::OutOfOrder {
            return false;
        }
    }
    true
}

fn stage_after(stage: Stage, word: u32) -> Stage {
    match kind(word) {
        CHARGE if high(word) == 0 && stage == Stage::Charge => Stage::Slots,
        SLOT if high(word) == 0 && stage != Stage::Colours => Stage::Slots,
        COLOUR if word >> 8 & 0xF_FFFF == 0 => Stage::Colours,
        SITE if stage == Stage::Colours => Stage::Colours,
        _ => Stage::OutOfOrder,
    }
}

pub fn count(words: &[u32], of: u32) -> usize {
    let mut count = 0;
    for word in words {
        if kind(*word) == of {
            count += 1;
        }
    }
    count
}

fn counts_fit(body: &[u32]) -> bool {
    count(body, SLOT) <= 48 && count(body, COLOUR) <= 8 && count(body, SITE) <= 32
}

fn rises(body: &[u32]) -> bool {
    let mut least = 0;
    for word in body {
        if kind(*word) == SLOT {
            if low(*word) < least {
                return false;
            }
            least = low(*word) + 1;
        }
    }
    true
}

fn all_inside(body: &[u32], width: u32) -> bool {
    for word in body {
        if kind(*word) == SITE && high(*word) > width {
            return false;
        }
    }
    true
}

fn columns_differ(body: &[u32]) -> bool {
    for (place, word) in body.iter().enumerate() {
        if kind(*word) == SITE && some_site_at(&body[place + 1..], high(*word)) {
            return false;
        }
    }
    true
}

fn some_site_at(words: &[u32], x: u32) -> bool {
    for word in words {
        if kind(*word) == SITE && high(*word) == x {
            return true;
        }
    }
    false
}

/// The budgets, or 65 where there are more than 64.
fn product(body: &[u32]) -> u32 {
    let mut product = 1;
    for word in body {
        if kind(*word) == COLOUR && byte(*word) != 255 {
            product *= byte(*word) + 1;
        }
        if product > 64 {
            return 65;
        }
    }
    product
}
