use crate::{stroke_at, Refusal};
use std::fmt;
use std::iter::FusedIterator;

/// Units in a printer's point.
const UNITS: f32 = 8.0;

/// An end of a stroke, in printer's points: x from the left edge, y downwards from the top.
#[derive(Clone, Copy, Debug, PartialEq)]
pub struct End {
    pub x: f32,
    pub y: f32,
}

impl End {
    /// Both coordinates in units. Nothing is rounded: eight times each is a whole number.
    pub fn units(self) -> (u32, u32) {
        ((UNITS * self.x) as u32, (UNITS * self.y) as u32)
    }
}

/// What a viewer draws of a stored sheet: one straight line.
#[derive(Clone, Copy, Debug, PartialEq)]
pub enum Stroke {
    /// A backbone, from its left end to the right edge.
    Bone { from: End, to: End },
    /// A drop, from its site to its backbone.
    Drop { from: End, to: End },
}

impl Stroke {
    /// The first end and the second.
    pub fn ends(self) -> [End; 2] {
        let (Stroke::Bone { from, to } | Stroke::Drop { from, to }) = self;
        [from, to]
    }

    /// `bone` or `drop`.
    pub fn name(self) -> &'static str {
        match self {
            Stroke::Bone { .. } => "bone",
            Stroke::Drop { .. } => "drop",
        }
    }
}

/// The line that `backbone strokes` prints: which it is, then x and y of both ends, in points. All digits are shown.
impl fmt::Display for Stroke {
    fn fmt(&self, out: &mut fmt::Formatter) -> fmt::Result {
        let [from, to] = self.ends();
        write!(out, "{} {} {} {} {}", self.name(), from.x, from.y, to.x, to.y)
    }
}

/// The strokes of a stored sheet. Each is asked of the library when its turn comes.
#[derive(Clone, Debug)]
pub struct Strokes<'a> {
    stored: &'a [u32],
    place: usize,
    /// The one at place 0, until it is taken: [`strokes`] asked for it.
    first: Option<Stroke>,
}

/// The strokes of a stored sheet, for a viewer to draw; or one of the refusals 1 to 7, 11 and 13. Backbones come first, by
/// rising slot, then drops in sheet order. A site on its backbone has no drop; a backbone of no length is a stroke. The
/// lengths of all strokes, and the sheet's charge for each drop, add up to the length that the layout states.
///
/// ```
/// use backbone::{strokes, Refusal};
/// let stored = [0x10008008, 0x20000002, 0x300000FF, 0x40008004, 0x80200008, 0x90000000];
/// let lines: Vec<String> = strokes(&stored)?.map(|stroke| stroke.to_string()).collect();
/// assert_eq!(lines, ["bone 0.25 0.25 1 0.25", "drop 0.25 0.5 0.25 0.25"]);
/// assert_eq!(strokes(&stored[..4]).err(), Some(Refusal::BadLayout));
/// # Ok::<(), Refusal>(())
/// ```
pub fn strokes(stored: &[u32]) -> Result<Strokes<'_>, Refusal> {
    let first = match stroke_at(stored, 0) {
        Err(Refusal::PastLastStroke) => None,
        first => Some(first?),
    };
    Ok(Strokes { stored, place: 0, first })
}

impl Iterator for Strokes<'_> {
    type Item = Stroke;

    /// After the first call nothing but 14 is refused, since the words are the same.
    fn next(&mut self) -> Option<Stroke> {
        let stroke = self.first.take().or_else(|| stroke_at(self.stored, self.place).ok())?;
        self.place += 1;
        Some(stroke)
    }
}

impl FusedIterator for Strokes<'_> {}
