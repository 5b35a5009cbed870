//! The strokes of a stored sheet, which a viewer draws: backbones by rising slot, then drops in sheet order.

use crate::rules::{lawful, Ties};

/// One point is eight units.
const UNITS: f32 = 8.0;

/// A backbone or a drop: x and y of its first end, x and y of its second, in points.
#[derive(Clone, Copy, Debug, PartialEq)]
pub struct Stroke {
    pub is_drop: bool,
    pub ends: [f32; 4],
}

impl Stroke {
    /// From the units of both ends. They are whole numbers below 2 to the 24, so nothing is rounded.
    fn of(is_drop: bool, units: [u32; 4]) -> Stroke {
        Stroke { is_drop, ends: units.map(|number| number as f32 / UNITS) }
    }
}

/// All strokes, or one of the refusals 1 to 7 and 11, as the judge gives them, and then 13. A drop of zero gives none; a
/// backbone of no length gives one.
pub fn strokes(stored: &[u32]) -> Result<Vec<Stroke>, u8> {
    let (sheet, slot_of) = lawful(stored)?;
    let height = |slot: usize| sheet.slots[slot];
    let ties = Ties::new(&sheet, &slot_of);
    let backbone = |(slot, left)| Stroke::of(false, [left, height(slot), sheet.width, height(slot)]);
    let tied = sheet.sites.iter().zip(&slot_of).filter(|(site, slot)| site.y != height(**slot));
    let drops = tied.map(|(site, slot)| Stroke::of(true, [site.x, site.y, site.x, height(*slot)]));
    Ok(ties.used().map(backbone).chain(drops).collect())
}

/// The stroke at a place, which counts from 0; after the refusals of all strokes 14, the place is past the last.
pub fn stroke_at(stored: &[u32], place: usize) -> Result<Stroke, u8> {
    strokes(stored)?.get(place).copied().ok_or(14)
}
