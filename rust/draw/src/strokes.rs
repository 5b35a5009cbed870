//! Backbones and drops, in the sheet's own units.

use crate::frame::Frame;
use crate::lines::{LabelLines, Line};
use crate::paint::{paint, HIGHLIGHT};
use crate::plan::Plan;
use crate::text::escape;
use crate::{listed_sites, number, precise};
use backbone::Label;
use sheet::Names;
use std::fmt::Write;

const BACKBONE: f64 = 2.6;
const DROP: f64 = 1.6;
const HIGHLIGHTED: f64 = 7.0;
const DOT: f64 = 5.2;

/// All strokes of a layout. A level stroke is as thick as the scale down makes it, an upright one as that across.
pub fn strokes(plan: &Plan, frame: &Frame, names: &Names, marked: &[usize]) -> String {
    if plan.labels.is_empty() {
        return String::new();
    }
    let mut inside = highlights(plan, frame, marked);
    for (label, lines) in plan.labels.iter().zip(&plan.lines) {
        inside.push_str(&label_strokes(frame, label, lines, &title(plan, label, names)));
    }
    frame.in_units(" fill=\"none\"", &inside) + &dots(plan, frame)
}

fn thickness(pixels: f64, unit: f64) -> String {
    precise(pixels / unit)
}

/// What a reader who points at a label is told.
fn title(plan: &Plan, label: &Label, names: &Names) -> String {
    let name = names.colour(label.colour).map_or_else(|| format!("colour {}", label.colour), str::to_string);
    let backbone = plan.sheet.width() - label.left_end;
    let heights = label.sites.iter().map(|site| plan.sheet.sites()[*site].y);
    let drops: u32 = heights.map(|y| y.abs_diff(label.height)).sum();
    let charges = match plan.sheet.charge() {
        None => String::new(),
        Some(_) => format!(", charges {}", label.length - backbone - drops),
    };
    format!(
        "{name}, slot {}: {}; backbone {backbone}, drops {drops}{charges}, length {}",
        label.slot,
        listed_sites(&label.sites),
        label.length
    )
}

fn label_strokes(frame: &Frame, label: &Label, lines: &LabelLines, title: &str) -> String {
    let Line { from: (left, height), to: (right, _) } = lines.backbone;
    let mut svg = format!(
        "<g stroke=\"{}\"><title>{}</title>\n<path class=\"backbone\" d=\"M{left} {height}H{right}\" \
         stroke-width=\"{}\"/>",
        paint(label.colour),
        escape(title),
        thickness(BACKBONE, frame.scale.unit_down())
    );
    let drops: String = lines.drops.iter().filter(|drop| drop.from != drop.to).map(drop_path).collect();
    if !drops.is_empty() {
        let thick = thickness(DROP, frame.scale.unit_across());
        let _ = write!(svg, "\n<path class=\"drop\" d=\"{drops}\" stroke-width=\"{thick}\"/>");
    }
    svg + "</g>\n"
}

fn drop_path(drop: &Line) -> String {
    let Line { from: (x, y), to: (_, height) } = drop;
    format!("M{x} {y}V{height}")
}

/// Broad lines below the drops of marked sites.
fn highlights(plan: &Plan, frame: &Frame, marked: &[usize]) -> String {
    let of_label = |(label, lines): (&Label, &LabelLines)| {
        let drops = label.sites.iter().zip(&lines.drops).filter(|(site, _)| marked.contains(site));
        drops.map(|(_, drop)| drop_path(drop)).collect::<String>()
    };
    let paths: String = plan.labels.iter().zip(&plan.lines).map(of_label).collect();
    if paths.is_empty() {
        return paths;
    }
    let thick = thickness(HIGHLIGHTED, frame.scale.unit_across());
    format!("<path class=\"differs\" d=\"{paths}\" stroke=\"{HIGHLIGHT}\" stroke-width=\"{thick}\"/>\n")
}

/// A dot where a drop meets its backbone: the round ends of a line of no length.
fn dots(plan: &Plan, frame: &Frame) -> String {
    let mut svg = String::new();
    for (label, lines) in plan.labels.iter().zip(&plan.lines) {
        let stroke = paint(label.colour);
        let point = |Line { to: (x, y), .. }: &Line| format!("M{} {}h0", number(frame.x(*x)), number(frame.y(*y)));
        let points: String = lines.drops.iter().map(point).collect();
        let _ = writeln!(svg, "<path d=\"{points}\" stroke=\"{stroke}\"/>");
    }
    format!("<g stroke-width=\"{DOT}\" stroke-linecap=\"round\">\n{svg}</g>\n")
}
