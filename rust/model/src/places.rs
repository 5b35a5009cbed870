//! Slots as places: they are numbered from 1; place 0 is the top edge, and the place after the last slot the bottom
//! edge. The colours of labels are numbered from 1 beside them; 0 is an edge's.

use crate::sheet::{Sheet, Site, MOST_SLOTS};

pub const PLACES: usize = MOST_SLOTS + 2;

/// Further than any height and gap reach: edges are clear of everything.
const FAR: i32 = 1 << 20;

/// The heights of the places.
pub fn heights(sheet: &Sheet) -> [i32; PLACES] {
    let mut heights = [FAR; PLACES];
    heights[0] = -FAR;
    for (slot, height) in sheet.slots.iter().enumerate() {
        heights[slot + 1] = *height as i32;
    }
    heights
}

/// For each site by rising x, the places at which it may open no label, one bit each: the tip would be too near a site
/// left of it. What is tied to a label that it opens stands right of it, so each site left of it is foreign.
pub fn barred(sheet: &Sheet, sites: &[Site]) -> Vec<u64> {
    let by = |(rank, site): (usize, &Site)| {
        let near = sites[..rank].iter().rev().take_while(|other| site.x - other.x < sheet.gap);
        near.fold(0, |barred, other| barred | too_near(sheet, other))
    };
    sites.iter().enumerate().map(by).collect()
}

/// The places less than the gap from a site in height, one bit each.
fn too_near(sheet: &Sheet, site: &Site) -> u64 {
    let first = sheet.slots.partition_point(|height| height + sheet.gap <= site.y);
    let end = sheet.slots.partition_point(|height| *height < site.y + sheet.gap);
    // slot 0 is place 1
    (1 << (end + 1)) - (1 << (first + 1))
}
