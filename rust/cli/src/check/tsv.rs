//! Findings as tab-separated values: a line of names, then a line a sheet. A tab, a line feed and a backslash in a
//! value are written \t, \n and \\.

use super::counts::depth_name;
use super::{Checked, Counts, Finding, Format};
use crate::exit::Failure;
use crate::output::{message, Output};
use backbone::Layout;

pub struct Tsv;

pub const NAMES: [&str; 16] = [
    "file",
    "finding",
    "refusal",
    "rule",
    "labels",
    "length",
    "best_labels",
    "best_length",
    "more_labels",
    "more_length",
    "more_points",
    "more_mm",
    "sites",
    "slots",
    "text",
    "depth",
];

fn row(checked: &Checked) -> [String; 16] {
    let numbers = |layout: &Option<Layout>| match layout {
        None => [String::new(), String::new()],
        Some(layout) => [layout.labels.to_string(), layout.length.to_string()],
    };
    let list = |numbers: Vec<usize>| numbers.iter().map(usize::to_string).collect::<Vec<_>>().join(",");
    let [labels, length] = numbers(&checked.given);
    let [best_labels, best_length] = numbers(&checked.best);
    let (mut refusal, mut rule, mut more) = (String::new(), String::new(), [const { String::new() }; 4]);
    match &checked.finding {
        Finding::Refused { refusal: number, .. } => refusal = number.number().to_string(),
        Finding::Unlawful { rule: number, .. } => rule = number.number().to_string(),
        Finding::NotBest(than) => {
            let (points, millimetres) = (than.points(), than.millimetres());
            more = [than.labels.to_string(), than.length.to_string(), points.to_string(), format!("{millimetres:.3}")];
        }
        _ => {}
    }
    let [more_labels, more_length, more_points, more_mm] = more;
    let (file, finding) = (checked.source.to_string(), checked.finding.name().to_string());
    let (sites, slots) = (list(checked.sites()), list(checked.finding.slots()));
    [
        file,
        finding,
        refusal,
        rule,
        labels,
        length,
        best_labels,
        best_length,
        more_labels,
        more_length,
        more_points,
        more_mm,
        sites,
        slots,
        checked.text(),
        depth_name(checked.depth),
    ]
}

fn escaped(value: &str) -> String {
    value.replace('\\', "\\\\").replace('\t', "\\t").replace('\n', "\\n").replace('\r', "\\r")
}

impl Format for Tsv {
    fn begin(&mut self, output: &mut Output) -> Result<(), Failure> {
        output.text(&(NAMES.join("\t") + "\n"))
    }

    fn sheet(&mut self, checked: &Checked, output: &mut Output) -> Result<(), Failure> {
        output.text(&(row(checked).map(|value| escaped(&value)).join("\t") + "\n"))
    }

    /// The table is no row, so it goes to standard error.
    fn end(&mut self, counts: &Counts, _: &mut Output) -> Result<(), Failure> {
        message(&format!("findings\n{}", counts.table().trim_end()));
        Ok(())
    }
}
