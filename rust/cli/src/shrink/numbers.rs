//! Sheets with smaller numbers.

use model::sheet::{Sheet, UNBOUNDED};

/// Each sheet that one step makes of this one: large steps first. A step moves all that lies at or beyond a height or an
/// x by one amount, so that what is near stays near; or it lowers one number.
pub fn candidates(sheet: &Sheet) -> Vec<Sheet> {
    let mut found = Vec::new();
    for divisor in [8, 4, 2] {
        found.push(divided(sheet, divisor));
    }
    for from in heights(sheet) {
        found.extend(amounts(from).map(|by| raised_from(sheet, from, by)));
    }
    for from in columns(sheet) {
        found.extend(amounts(from).map(|by| moved_left_from(sheet, from, by)));
    }
    for number in 0..lowered_count(sheet) {
        found.extend(lowered(sheet, number));
    }
    found
}

/// A number, its halves, and 1.
fn amounts(number: u32) -> impl Iterator<Item = u32> {
    std::iter::successors(Some(number), |amount| Some(amount / 2)).take_while(|amount| *amount > 0)
}

/// Every number divided.
fn divided(sheet: &Sheet, by: u32) -> Sheet {
    let mut other = sheet.clone();
    other.gap /= by;
    other.width /= by;
    other.charge = other.charge.map(|charge| charge / by);
    other.slots.iter_mut().for_each(|height| *height /= by);
    other.sites.iter_mut().for_each(|site| (site.x, site.y) = (site.x / by, site.y / by));
    other
}

/// The heights of slots and sites, rising.
fn heights(sheet: &Sheet) -> Vec<u32> {
    rising(sheet.slots.iter().copied().chain(sheet.sites.iter().map(|site| site.y)).collect())
}

/// The x of sites, rising, and the width.
fn columns(sheet: &Sheet) -> Vec<u32> {
    rising(sheet.sites.iter().map(|site| site.x).chain([sheet.width]).collect())
}

fn rising(mut numbers: Vec<u32>) -> Vec<u32> {
    numbers.sort_unstable();
    numbers.dedup();
    numbers
}

/// What lies at or below a height, moved up.
fn raised_from(sheet: &Sheet, from: u32, by: u32) -> Sheet {
    let mut other = sheet.clone();
    let slots = other.slots.iter_mut();
    let numbers = slots.chain(other.sites.iter_mut().map(|site| &mut site.y));
    numbers.filter(|height| **height >= from).for_each(|height| *height -= by);
    other
}

/// What lies at or right of an x, moved left, the width too.
fn moved_left_from(sheet: &Sheet, from: u32, by: u32) -> Sheet {
    let mut other = sheet.clone();
    other.width -= by;
    other.sites.iter_mut().filter(|site| site.x >= from).for_each(|site| site.x -= by);
    other
}

/// How many numbers can be lowered one by one: gap, bounds, slots, both of each site, and the charge if there is one.
fn lowered_count(sheet: &Sheet) -> usize {
    1 + sheet.bounds.len() + sheet.slots.len() + 2 * sheet.sites.len() + usize::from(sheet.charge.is_some())
}

/// The sheet with one number lowered: to 0, by halves, by 1.
fn lowered(sheet: &Sheet, number: usize) -> Vec<Sheet> {
    let Some(now) = number_at(&mut sheet.clone(), number).copied() else { return Vec::new() };
    let is_bound = (1..=sheet.bounds.len()).contains(&number);
    let mut found = Vec::new();
    // Unbounded is no number.
    for by in amounts(now).filter(|_| !is_bound || now != UNBOUNDED) {
        let mut other = sheet.clone();
        if let Some(place) = number_at(&mut other, number) {
            *place -= by;
        }
        found.push(other);
    }
    found
}

/// The number of this place, in the order of `lowered_count`.
fn number_at(sheet: &mut Sheet, number: usize) -> Option<&mut u32> {
    let Sheet { gap, charge, bounds, slots, sites, .. } = sheet;
    let points = sites.iter_mut().flat_map(|site| [&mut site.x, &mut site.y]);
    std::iter::once(gap).chain(bounds).chain(slots).chain(points).chain(charge).nth(number)
}
