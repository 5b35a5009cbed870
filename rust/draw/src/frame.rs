//! The drawing's frame: where a sheet's units fall on the page.

use crate::background::Background;
use crate::balloons::MARGIN;
use crate::paint::{FAINT, GREY};
use crate::scale::Scale;
use crate::text::{Anchor, Style};
use crate::{number, precise, trimmed};
use backbone::Label;
use std::fmt::Write;

const TICK: f64 = 5.0;
const SLOT: Style = Style { size: 9.0, anchor: Anchor::End, is_bold: false, fill: GREY };
const SLOT_SPACING: f64 = 10.0;

/// A drawing's place on the page. Its left edge is x 0, its right edge the width, its upper edge height 0.
#[derive(Clone, Copy)]
pub struct Frame {
    pub left: f64,
    pub top: f64,
    pub right: f64,
    pub bottom: f64,
    pub scale: Scale,
}

impl Frame {
    pub fn x(&self, x: u32) -> f64 {
        self.left + f64::from(x) * self.scale.unit_across()
    }

    pub fn y(&self, y: u32) -> f64 {
        self.top + f64::from(y) * self.scale.unit_down()
    }

    /// What is given in the sheet's units, put in its place.
    pub fn in_units(&self, attributes: &str, inside: &str) -> String {
        let (across, down) = (self.scale.unit_across(), self.scale.unit_down());
        let exact = |times: f64| trimmed(&format!("{times:.6}"));
        let times = if across == down { exact(across) } else { exact(across) + " " + &exact(down) };
        format!(
            "<g transform=\"translate({} {}) scale({times})\"{attributes}>\n{}\n</g>\n",
            precise(self.left),
            precise(self.top),
            inside.trim_end()
        )
    }

    /// The sheet's edge, with what is drawn behind the sheet.
    pub fn edge(&self, background: Option<&Background>) -> String {
        let mut svg = format!(
            "<rect class=\"frame\" x=\"{}\" y=\"{}\" width=\"{}\" height=\"{}\" fill=\"#fafaf7\" stroke=\"#c4c4bc\"/>\n",
            number(self.left),
            number(self.top),
            number(self.right - self.left),
            number(self.bottom - self.top)
        );
        if let Some(background) = background {
            svg.push_str(&self.in_units("", background.as_str()));
        }
        svg
    }

    /// A tick at both edges for each slot, with its number where there is room; used slots come first. Where there is
    /// no layout the slots go across, to show where backbones might lie.
    pub fn slots(&self, heights: &[u32], labels: &[Label], is_laid_out: bool) -> String {
        if heights.is_empty() {
            return String::new();
        }
        let (mut ticks, mut across) = (String::new(), String::new());
        for height in heights {
            let y = number(self.y(*height));
            let (left, right) = (number(self.left - TICK), number(self.right - TICK / 2.0));
            let _ = write!(ticks, "M{left} {y}h{TICK}M{right} {y}h{TICK}");
            let _ = write!(across, "M{} {y}H{}", number(self.left), number(self.right));
        }
        let mut svg = format!("<path d=\"{ticks}\" stroke=\"{FAINT}\" fill=\"none\"/>\n");
        if !is_laid_out {
            let look = format!("stroke=\"{FAINT}\" stroke-dasharray=\"1 5\" fill=\"none\"");
            let _ = writeln!(svg, "<path d=\"{across}\" {look}/>");
        }
        svg + &self.slot_numbers(heights, labels)
    }

    fn slot_numbers(&self, heights: &[u32], labels: &[Label]) -> String {
        let x = self.left - MARGIN - 1.0;
        let shown = numbered(heights, labels, |height| self.y(height));
        let one = |slot: usize| SLOT.text(&SLOT, &slot.to_string(), x, self.y(heights[slot]) + 0.35 * SLOT.size);
        SLOT.group(&shown.into_iter().map(one).collect::<String>())
    }
}

/// The slots whose numbers have room beside each other.
fn numbered(heights: &[u32], labels: &[Label], y: impl Fn(u32) -> f64) -> Vec<usize> {
    let is_used = |slot: &usize| labels.iter().any(|label| label.slot == *slot);
    let mut order: Vec<usize> = (0..heights.len()).collect();
    order.sort_by_key(|slot| !is_used(slot));
    let mut shown: Vec<usize> = Vec::new();
    for slot in order {
        if shown.iter().all(|other| (y(heights[*other]) - y(heights[slot])).abs() >= SLOT_SPACING) {
            shown.push(slot);
        }
    }
    shown.sort_unstable();
    shown
}
