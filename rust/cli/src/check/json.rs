//! Findings as one JSON object: `sheets`, a list of objects, and `counts`.

use super::counts::{depth_name, Tally};
use super::{Checked, Counts, Finding, Format};
use crate::exit::Failure;
use crate::output::Output;
use backbone::Layout;
use sheet::json::quote;

#[derive(Default)]
pub struct Json {
    has_sheets: bool,
}

/// A list of numbers.
fn list<T: ToString>(numbers: &[T]) -> String {
    format!("[{}]", numbers.iter().map(T::to_string).collect::<Vec<_>>().join(", "))
}

fn layout(layout: &Layout) -> String {
    let Layout { labels, length, slots } = layout;
    format!("{{\"labels\": {labels}, \"length\": {length}, \"slots\": {}}}", list(slots))
}

/// The members of one sheet's object; those that say nothing are left out.
fn members(checked: &Checked) -> Vec<(&'static str, String)> {
    let mut members = vec![("file", quote(&checked.source.to_string())), ("finding", quote(checked.finding.name()))];
    match &checked.finding {
        Finding::Refused { refusal, .. } => members.push(("refusal", refusal.number().to_string())),
        Finding::Unlawful { rule, .. } => members.push(("rule", rule.number().to_string())),
        Finding::NotBest(more) => members.push((
            "more",
            format!(
                "{{\"labels\": {}, \"length\": {}, \"points\": {}, \"millimetres\": {:.3}}}",
                more.labels,
                more.length,
                more.points(),
                more.millimetres()
            ),
        )),
        _ => {}
    }
    let (sites, slots, text) = (checked.sites(), checked.finding.slots(), checked.text());
    let mut add = |name: &'static str, value: Option<String>| members.extend(value.map(|value| (name, value)));
    add("sites", (!sites.is_empty()).then(|| list(&sites)));
    add("slots", (!slots.is_empty()).then(|| list(&slots)));
    add("text", (!text.is_empty()).then(|| quote(&text)));
    add("depth", checked.depth.map(|depth| depth.to_string()));
    add("given", checked.given.as_ref().map(layout));
    add("best", checked.best.as_ref().map(layout));
    members
}

fn object(members: &[(&str, String)]) -> String {
    let shown: Vec<String> = members.iter().map(|(name, value)| format!("{}: {value}", quote(name))).collect();
    format!("{{{}}}", shown.join(", "))
}

impl Format for Json {
    fn begin(&mut self, output: &mut Output) -> Result<(), Failure> {
        output.text("{\"sheets\": [")
    }

    fn sheet(&mut self, checked: &Checked, output: &mut Output) -> Result<(), Failure> {
        let comma = if std::mem::replace(&mut self.has_sheets, true) { "," } else { "" };
        output.text(&format!("{comma}\n  {}", object(&members(checked))))
    }

    fn end(&mut self, counts: &Counts, output: &mut Output) -> Result<(), Failure> {
        let shown = |names: &mut dyn Iterator<Item = (&'static str, u64)>| {
            object(&names.map(|(name, count)| (name, count.to_string())).collect::<Vec<_>>())
        };
        let mut text = format!("\n],\n\"counts\": {}", shown(&mut counts.by_name()));
        if let Some(rows) = counts.by_depth() {
            let row = |(depth, tally): &(Option<u32>, &Tally)| {
                format!("\n  {}: {}", quote(&depth_name(*depth)), shown(&mut tally.by_name()))
            };
            text.push_str(&format!(",\n\"by_depth\": {{{}\n}}", rows.iter().map(row).collect::<Vec<_>>().join(",")));
        }
        output.text(&(text + "}\n"))
    }
}
