//! Findings as one HTML page: the table, sortable, and for each fault the engine's layout beside the best one. The page
//! loads nothing; its style and its script stand in it.

use super::junit::escaped;
use super::{Checked, Counts, Finding};
use crate::exit::Failure;
use crate::output::write_file;
use backbone::{split_stored, Layout, Sheet};
use draw::{Options, Side};
use std::fmt::Write;
use std::path::{Path, PathBuf};

const STYLE: &str = include_str!("report.css");
const SCRIPT: &str = include_str!("report.js");

/// The columns of the table, with what they sort by: numbers or text.
const COLUMNS: [(&str, &str); 11] = [
    ("number", "number"),
    ("file", "text"),
    ("finding", "text"),
    ("labels", "number"),
    ("length", "number"),
    ("best labels", "number"),
    ("best length", "number"),
    ("labels more", "number"),
    ("units more", "number"),
    ("mm more", "number"),
    ("what", "text"),
];

/// The page as far as it is made.
pub struct Report {
    path: PathBuf,
    rows: String,
    pictures: String,
    sheets: u64,
}

impl Report {
    /// A page in this folder, which is made where it is missing.
    pub fn new(folder: &Path) -> Result<Report, Failure> {
        std::fs::create_dir_all(folder).map_err(|error| Failure::about(&folder.display(), &error))?;
        let path = folder.join("index.html");
        Ok(Report { path, rows: String::new(), pictures: String::new(), sheets: 0 })
    }

    pub fn add(&mut self, checked: &Checked) {
        self.sheets += 1;
        let number = self.sheets;
        let picture = picture(checked);
        let (file, finding) = (escaped(&checked.source.to_string()), escaped(&checked.heading()));
        let link = if picture.is_some() { format!("<a href=\"#sheet{number}\">{file}</a>") } else { file.clone() };
        let class = if checked.finding.is_fault() { " class=\"fault\"" } else { "" };
        let _ = write!(self.rows, "<tr{class}><td>{number}</td><td>{link}</td><td>{finding}</td>");
        for number in numbers(checked) {
            let _ = write!(self.rows, "<td>{number}</td>");
        }
        let text = escaped(&checked.text());
        let _ = writeln!(self.rows, "<td>{text}</td></tr>");
        if let Some(svg) = picture {
            let _ = writeln!(
                self.pictures,
                "<section id=\"sheet{number}\"><h2>{file}: {finding}</h2><p>{text}</p>\n{svg}</section>"
            );
        }
    }

    /// Writes the page.
    pub fn finish(&self, counts: &Counts) -> Result<(), Failure> {
        let counted = |(name, count): (&str, u64)| format!("<tr><th scope=\"row\">{name}</th><td>{count}</td></tr>\n");
        let summary: String = counts.by_name().chain([("all", counts.all())]).map(counted).collect();
        let column = |(name, sort): &(&str, &str)| {
            format!("<th scope=\"col\" data-sort=\"{sort}\"><button type=\"button\">{name}</button></th>")
        };
        let columns: String = COLUMNS.iter().map(column).collect();
        let page = format!(
            "<!DOCTYPE html>\n<html lang=\"en\">\n<head>\n<meta charset=\"utf-8\">\n<title>backbone check</title>\n\
             <meta http-equiv=\"Content-Security-Policy\" content=\"default-src 'none'; style-src 'unsafe-inline'; \
             script-src 'unsafe-inline'\">\n<style>\n{STYLE}</style>\n</head>\n<body>\n<h1>backbone check</h1>\n\
             <table id=\"counts\">\n{summary}</table>\n<table id=\"sheets\">\n<thead><tr>{columns}</tr></thead>\n\
             <tbody>\n{}</tbody>\n</table>\n{}<script>\n{SCRIPT}</script>\n</body>\n</html>\n",
            self.rows, self.pictures
        );
        write_file(&self.path, page.as_bytes())
    }
}

/// Both layouts' numbers, and by how much they differ; empty where there are none.
fn numbers(checked: &Checked) -> [String; 7] {
    let stated = |layout: &Option<Layout>| match layout {
        None => [String::new(), String::new()],
        Some(layout) => [layout.labels.to_string(), layout.length.to_string()],
    };
    let [labels, length] = stated(&checked.given);
    let [best_labels, best_length] = stated(&checked.best);
    let [more_labels, more_units, more_mm] = match &checked.finding {
        Finding::NotBest(more) => {
            [more.labels.to_string(), more.length.to_string(), format!("{:.3}", more.millimetres())]
        }
        _ => [const { String::new() }; 3],
    };
    [labels, length, best_labels, best_length, more_labels, more_units, more_mm]
}

/// The engine's layout beside the best one, or alone on a two-sided sheet, which has none; no picture where the sheet is
/// refused, or where there is nothing to see.
fn picture(checked: &Checked) -> Option<String> {
    if !checked.finding.is_fault() || matches!(checked.finding, Finding::Refused { .. }) {
        return None;
    }
    let sheet = Sheet::from_words(split_stored(&checked.record.words).0).ok()?;
    let title = |layout: &Option<Layout>| layout.as_ref().map_or("no layout".to_string(), Layout::to_string);
    let titles = [format!("engine: {}", title(&checked.given)), format!("best: {}", title(&checked.best))];
    let sides = [
        Side { title: &titles[0], layout: checked.given.as_ref() },
        Side { title: &titles[1], layout: checked.best.as_ref() },
    ];
    let options = Options { names: checked.record.names.clone(), ..Options::default() };
    if sheet.side == backbone::Side::Two {
        let [title, _] = titles;
        return draw::picture(&sheet, checked.given.as_ref(), &Options { title: Some(title), ..options }).ok();
    }
    draw::compare(&sheet, sides, &options).ok()
}
