//! Sheets with fewer sites, slots or colours, or without their charge word.

use model::sheet::{Sheet, UNBOUNDED};

/// Each sheet that one step makes of this one: many sites or slots at once first.
pub fn candidates(sheet: &Sheet) -> Vec<Sheet> {
    let mut found = Vec::new();
    for run in runs(sheet.sites.len()) {
        let mut fewer = sheet.clone();
        fewer.sites.drain(run);
        found.push(fewer);
    }
    for run in runs(sheet.slots.len()) {
        let mut fewer = sheet.clone();
        fewer.slots.drain(run);
        found.push(fewer);
    }
    let colours = 0..sheet.bounds.len();
    found.extend(colours.clone().filter_map(|colour| without_colour(sheet, colour)));
    for (from, to) in colours.clone().flat_map(|from| colours.clone().map(move |to| (from, to))) {
        if from != to {
            found.extend(without_colour(&recoloured(sheet, from, to), from));
        }
    }
    found.extend(colours.filter(|colour| sheet.bounds[*colour] != UNBOUNDED).map(|colour| unbounded(sheet, colour)));
    found.push(Sheet { charge: None, ..sheet.clone() });
    found
}

/// Runs of neighbouring places to leave out: halves, quarters, and so on down to single ones.
fn runs(count: usize) -> Vec<std::ops::Range<usize>> {
    let mut runs = Vec::new();
    let mut length = count / 2;
    while length > 1 {
        runs.extend((0..count).step_by(length).map(|from| from..(from + length).min(count)));
        length /= 2;
    }
    runs.extend((0..count).map(|place| place..place + 1));
    runs
}

/// The sheet without a colour that has no sites.
fn without_colour(sheet: &Sheet, colour: usize) -> Option<Sheet> {
    if sheet.sites.iter().any(|site| site.colour == colour) {
        return None;
    }
    let mut fewer = sheet.clone();
    fewer.bounds.remove(colour);
    for site in &mut fewer.sites {
        site.colour -= usize::from(site.colour > colour);
    }
    Some(fewer)
}

/// The sheet with the sites of one colour in another one.
fn recoloured(sheet: &Sheet, from: usize, to: usize) -> Sheet {
    let mut other = sheet.clone();
    for site in other.sites.iter_mut().filter(|site| site.colour == from) {
        site.colour = to;
    }
    other.sites.sort_by_key(|site| site.colour);
    other
}

fn unbounded(sheet: &Sheet, colour: usize) -> Sheet {
    let mut other = sheet.clone();
    other.bounds[colour] = UNBOUNDED;
    other
}
