//! The lines above a drawing: what the layout states, what the sheet asks, and what is wrong.

use crate::page::Panel;
use crate::paint::{DARK, GREY, RED};
use crate::plan::Plan;
use crate::scale::millimetres;
use crate::text::{wrapped, Anchor, Style};
use backbone::{Aim, Side};

const LINE: Style = Style { size: 12.0, anchor: Anchor::Start, is_bold: false, fill: DARK };
const TITLE: Style = Style { size: 15.0, is_bold: true, ..LINE };
const LINE_HEIGHT: f64 = 17.5;
/// Where the first line stands.
const FIRST: f64 = 22.0;
/// So many places of a broken rule are told; the drawing shows all.
const MOST_FAULTS: usize = 4;

pub struct Heading(Vec<(String, Style)>);

impl Heading {
    pub fn of(panel: &Panel, room: f64) -> Heading {
        let mut lines = Vec::new();
        let mut add = |words: &str, style: Style| {
            let wrapped = wrapped(words, style.size, style.is_bold, room);
            lines.extend(wrapped.into_iter().map(|words| (words, style)));
        };
        let is_wrong = panel.plan.layout.is_none() || panel.plan.broken.is_some();
        add(&title(panel), if is_wrong { Style { fill: RED, ..TITLE } } else { TITLE });
        add(&facts(panel.plan), Style { fill: GREY, ..LINE });
        panel.remarks.iter().for_each(|remark| add(remark, LINE));
        verdict(panel.plan).iter().for_each(|line| add(line, Style { fill: RED, ..LINE }));
        Heading(lines)
    }

    pub fn height(&self) -> f64 {
        FIRST + LINE_HEIGHT * self.0.len() as f64
    }

    pub fn svg(&self, x: f64) -> String {
        let lines = self.0.iter().enumerate();
        let texts: String = lines
            .map(|(index, (words, style))| style.text(&LINE, words, x, FIRST + LINE_HEIGHT * index as f64))
            .collect();
        LINE.group(&texts)
    }
}

/// The title that is given, or what the layout states.
pub fn title(panel: &Panel) -> String {
    match (&panel.title, &panel.plan.layout) {
        (Some(title), _) => title.clone(),
        (None, None) => "no layout obeys rules 1 to 5".to_string(),
        (None, Some(layout)) => {
            format!("labels {}, length {} ({})", layout.labels, layout.length, millimetres(layout.length))
        }
    }
}

fn facts(plan: &Plan) -> String {
    let side = if plan.sheet.side == Side::Two { "two-sided" } else { "one-sided" };
    let aim = if plan.sheet.aim == Aim::Shortest { "shortest" } else { "fewest" };
    let length = |name: &str, units: u32| format!("{name} {units} ({})", millimetres(units));
    let charge = plan.sheet.charge().map(|charge| length("charge", charge));
    let lengths = [length("gap", plan.sheet.gap()), length("width", plan.sheet.width())];
    let facts = [side.to_string(), aim.to_string()].into_iter().chain(lengths).chain(charge);
    facts.collect::<Vec<_>>().join(", ")
}

/// The broken rule, and what is wrong.
fn verdict(plan: &Plan) -> Vec<String> {
    let Some(rule) = plan.broken else { return Vec::new() };
    let mut lines: Vec<String> = plan.faults.iter().take(MOST_FAULTS).map(|fault| fault.to_string()).collect();
    if let Some(first) = lines.first_mut() {
        *first = format!("rule {} is broken: {first}", rule.number());
    }
    match plan.faults.len().saturating_sub(MOST_FAULTS) {
        0 => {}
        1 => lines.push("and at one more place".to_string()),
        more => lines.push(format!("and at {more} more places")),
    }
    lines
}
