//! The sites with their numbers, and marks: at what is wrong, and at ties that differ.

use crate::area::Area;
use crate::balloons::{Balloon, RADIUS};
use crate::column::colour_name;
use crate::frame::Frame;
use crate::number;
use crate::paint::{paint, site_shape, text_in_site, HIGHLIGHT, RED};
use crate::plan::Plan;
use crate::text::{escape, Anchor, Style};
use backbone::Fault;
use sheet::Names;
use std::fmt::Write;

/// A site's number; most stand on dark shapes.
const NUMBER: Style = Style { size: 9.0, anchor: Anchor::Middle, is_bold: true, fill: "#ffffff" };
const RING: f64 = 10.5;

/// The sites, each with its number and what a reader who points at it is told.
pub fn sites(plan: &Plan, frame: &Frame, balloons: &[Balloon], names: &Names) -> String {
    let mut svg = String::new();
    for (site, balloon) in balloons.iter().enumerate().filter(|(_, balloon)| balloon.is_moved()) {
        svg.push_str(&thin_line(balloon, frame, paint(plan.sheet.sites()[site].colour)));
    }
    let mut numbers = String::new();
    for (number, balloon) in balloons.iter().enumerate() {
        let site = plan.sheet.sites()[number];
        let centre = (frame.left + balloon.centre.0, frame.top + balloon.centre.1);
        let name = names.site(number).map(|name| format!(" {name}")).unwrap_or_default();
        let told = format!("site {number}{name}: {}, x {}, y {}", colour_name(names, site.colour), site.x, site.y);
        let _ = write!(numbers, "<g class=\"site\"><title>{}</title>", escape(&told));
        numbers.push_str(site_shape(site.colour, centre, RADIUS).trim_end());
        let style = Style { fill: text_in_site(site.colour), ..NUMBER };
        let text = style.text(&NUMBER, &number.to_string(), centre.0, centre.1 + 0.355 * NUMBER.size);
        let _ = writeln!(numbers, "{}</g>", text.trim_end());
    }
    svg + &NUMBER.group(&numbers)
}

/// From a site to its number, where that stands elsewhere.
fn thin_line(balloon: &Balloon, frame: &Frame, stroke: &str) -> String {
    let place = |(x, y): (f64, f64)| (number(frame.left + x), number(frame.top + y));
    let ((x, y), (to_x, to_y)) = (place(balloon.site), place(balloon.centre));
    format!(
        "<path d=\"M{x} {y}L{to_x} {to_y}\" stroke=\"{stroke}\" stroke-width=\"0.8\"/>\
         <circle cx=\"{x}\" cy=\"{y}\" r=\"2.2\" fill=\"{stroke}\" stroke=\"#ffffff\" stroke-width=\"0.5\"/>\n"
    )
}

/// A ring around the number of each marked site.
pub fn rings(frame: &Frame, balloons: &[Balloon], marked: &[usize]) -> String {
    let marked = marked.iter().filter_map(|site| balloons.get(*site));
    marked.map(|balloon| ring(frame, balloon, HIGHLIGHT, 4.0)).collect()
}

fn ring(frame: &Frame, balloon: &Balloon, stroke: &str, width: f64) -> String {
    let radius = RING + (balloon.reach - RADIUS);
    format!(
        "<circle class=\"ring\" cx=\"{}\" cy=\"{}\" r=\"{}\" fill=\"none\" stroke=\"{stroke}\" stroke-width=\"{width}\"/>\n",
        number(frame.left + balloon.centre.0),
        number(frame.top + balloon.centre.1),
        number(radius)
    )
}

/// The places at which the rule is broken, in red. Numbers are drawn over them.
pub fn faults(plan: &Plan, frame: &Frame, balloons: &[Balloon]) -> String {
    plan.faults.iter().map(|fault| mark(fault, plan, frame, balloons)).collect()
}

fn mark(fault: &Fault, plan: &Plan, frame: &Frame, balloons: &[Balloon]) -> String {
    let height = |slot: usize| frame.y(plan.sheet.slots()[slot]);
    let site_at = |site: usize| plan.sheet.sites()[site];
    let place = |site: usize| (frame.x(site_at(site).x), frame.y(site_at(site).y));
    match fault {
        Fault::MixedColours { sites, .. } => sites.iter().map(|site| ring(frame, &balloons[*site], RED, 2.2)).collect(),
        Fault::NearSite { site, slot, .. } => {
            let (x, y) = place(*site);
            ring(frame, &balloons[*site], RED, 2.2) + &distance(x + 17.0, y, height(*slot))
        }
        Fault::NearTip { site, slot, left, .. } => {
            let tip = (frame.x(site_at(*site).x + left), height(*slot));
            ring(frame, &balloons[*site], RED, 2.2) + &distance_to_tip(place(*site), tip)
        }
        Fault::CloseBackbones { upper, lower, .. } => distance(frame.right - 14.0, height(*upper), height(*lower)),
        Fault::Crossing { x, slot, .. } => cross(frame, balloons, frame.x(*x), height(*slot)),
        Fault::TooManyLabels { .. } | Fault::FalseNumbers { .. } => String::new(),
    }
}

/// A cross, larger where a site's number covers its middle.
fn cross(frame: &Frame, balloons: &[Balloon], x: f64, y: f64) -> String {
    let point = Area::around((x - frame.left, y - frame.top), 1.0);
    let is_covered = balloons.iter().any(|balloon| balloon.area().overlaps(&point));
    let arm = if is_covered { 12.0 } else { 6.5 };
    let (left, top, bottom, across) = (number(x - arm), number(y - arm), number(y + arm), number(2.0 * arm));
    format!(
        "<path d=\"M{left} {top}l{across} {across}M{left} {bottom}l{across} -{across}\" stroke=\"{RED}\" \
         stroke-width=\"2.6\"/>\n"
    )
}

/// A distance that is too small.
fn distance(x: f64, from: f64, to: f64) -> String {
    let (left, x, from, to) = (number(x - 5.0), number(x), number(from), number(to));
    format!("<path d=\"M{x} {from}V{to}M{left} {from}h10M{left} {to}h10\" stroke=\"{RED}\" stroke-width=\"2.2\"/>\n")
}

/// A distance from a site to a tip that is too small, with a ring around the tip: no backbone lies above or below the site.
fn distance_to_tip(site: (f64, f64), tip: (f64, f64)) -> String {
    let ([x, y], [tip_x, tip_y]) = ([site.0, site.1].map(number), [tip.0, tip.1].map(number));
    format!(
        "<path class=\"to-tip\" d=\"M{x} {y}L{tip_x} {tip_y}\" stroke=\"{RED}\" stroke-width=\"2.2\"/>\
         <circle cx=\"{tip_x}\" cy=\"{tip_y}\" r=\"5\" fill=\"none\" stroke=\"{RED}\" stroke-width=\"2.2\"/>\n"
    )
}
