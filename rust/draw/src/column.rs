//! The labels at the right margin: a box with the colour's name, and beside it slot and length. Boxes keep clear of
//! each other; a line joins each to its backbone.

use crate::frame::Frame;
use crate::number;
use crate::paint::{paint, text_on, DARK, RED};
use crate::plan::Plan;
use crate::scale::Scale;
use crate::spread::spread;
use crate::text::{shortened, width, Anchor, Style};
use backbone::{Fault, Label};
use sheet::Names;
use std::fmt::Write;

const BOX_HEIGHT: f64 = 17.0;
pub const SPACING: f64 = 20.0;
/// From the drawing's edge to the boxes, and at most so much more where boxes are moved far.
const LEADER: f64 = 34.0;
const MORE_LEADER: f64 = 40.0;
const NAME: Style = Style { size: 11.0, anchor: Anchor::Middle, is_bold: true, fill: DARK };
const LENGTH: Style = Style { anchor: Anchor::Start, is_bold: false, ..NAME };
const MOST_NAME: f64 = 120.0;
const PADDING: f64 = 7.0;

/// The boxes' texts and sizes, and where they stand.
pub struct Column {
    names: Vec<String>,
    lengths: Vec<String>,
    box_width: f64,
    /// The boxes' middles, in pixels from the drawing's upper edge.
    middles: Vec<f64>,
    /// Pixels from the drawing's right edge to the boxes.
    offset: f64,
}

impl Column {
    /// `more` is what sites' numbers take right of the drawing.
    pub fn of(plan: &Plan, names: &Names, scale: &Scale, more: f64) -> Column {
        let name = |label: &Label| shortened(&colour_name(names, label.colour), NAME.size, true, MOST_NAME);
        let names: Vec<String> = plan.labels.iter().map(name).collect();
        let length = |label: &Label| format!("slot {}, length {}", label.slot, label.length);
        let lengths = plan.labels.iter().map(length).collect();
        let widest = names.iter().map(|name| width(name, NAME.size, true)).fold(0.0, f64::max);
        let wanted: Vec<f64> = plan.labels.iter().map(|label| f64::from(label.height) * scale.unit_down()).collect();
        let middles = spread(&wanted, SPACING, 0.0);
        let farthest = wanted.iter().zip(&middles).map(|(want, middle)| (want - middle).abs()).fold(0.0, f64::max);
        let offset = LEADER + (farthest / 5.0).min(MORE_LEADER) + more;
        Column { names, lengths, box_width: widest + 2.0 * PADDING, middles, offset }
    }

    /// The pixels that it takes from the drawing's right edge on.
    pub fn width(&self) -> f64 {
        let widest = self.lengths.iter().map(|length| width(length, LENGTH.size, false)).fold(0.0, f64::max);
        self.offset + self.box_width + PADDING + widest
    }

    /// The last pixel of the boxes, from the drawing's upper edge.
    pub fn height(&self) -> f64 {
        self.middles.last().map_or(0.0, |middle| middle + BOX_HEIGHT / 2.0)
    }

    pub fn svg(&self, plan: &Plan, frame: &Frame) -> String {
        let left = frame.right + self.offset;
        let (mut boxes, mut names, mut lengths) = (String::new(), String::new(), String::new());
        for (index, label) in plan.labels.iter().enumerate() {
            let middle = frame.top + self.middles[index];
            let (name, line) = (Style { fill: text_on(label.colour), ..NAME }, middle + 4.0);
            boxes += &self.leader(frame, label, middle);
            boxes += &self.one_box(plan, label, left, middle);
            names += &name.text(&NAME, &self.names[index], left + self.box_width / 2.0, line);
            lengths += &LENGTH.text(&LENGTH, &self.lengths[index], left + self.box_width + PADDING, line);
        }
        boxes + &NAME.group(&names) + &LENGTH.group(&lengths)
    }

    fn leader(&self, frame: &Frame, label: &Label, middle: f64) -> String {
        let (y, right, bend) = (frame.y(label.height), frame.right, self.offset - 8.0);
        format!(
            "<path d=\"M{} {}h6L{} {}h8\" fill=\"none\" stroke=\"{}\"/>\n",
            number(right),
            number(y),
            number(right + bend),
            number(middle),
            paint(label.colour)
        )
    }

    /// A label's box; where there are more labels of its colour than may be, with a red line around it.
    fn one_box(&self, plan: &Plan, label: &Label, left: f64, middle: f64) -> String {
        let fill = format!("class=\"label\" fill=\"{}\"", paint(label.colour));
        let mut svg = rectangle(left, middle, self.box_width, 0.0, &fill);
        if is_above_bound(plan, label.slot) {
            let look = format!("fill=\"none\" stroke=\"{RED}\" stroke-width=\"2\"");
            svg += &rectangle(left - 3.0, middle, self.box_width + 6.0, 6.0, &look);
        }
        svg
    }
}

pub fn colour_name(names: &Names, colour: usize) -> String {
    names.colour(colour).map_or_else(|| format!("colour {colour}"), str::to_string)
}

fn rectangle(left: f64, middle: f64, width: f64, more: f64, look: &str) -> String {
    let mut svg = String::new();
    let (top, height) = (middle - (BOX_HEIGHT + more) / 2.0, BOX_HEIGHT + more);
    let _ = writeln!(
        svg,
        "<rect x=\"{}\" y=\"{}\" width=\"{}\" height=\"{height}\" rx=\"4\" {look}/>",
        number(left),
        number(top),
        number(width)
    );
    svg
}

fn is_above_bound(plan: &Plan, slot: usize) -> bool {
    plan.faults.iter().any(|fault| matches!(fault, Fault::TooManyLabels { slots, .. } if slots.contains(&slot)))
}
