//! Engines that lay out the sheets of a corpus: their answers are checked, by depth, and in shares.

use crate::command::{backbone, rounding_engine, rows, Folder};

fn corpus(folder: &Folder, more: &[&str]) -> String {
    let out = folder.at("corpus");
    backbone(&[&["corpus", "--out", &out, "--seed", "11"], more].concat()).ends(0);
    out
}

#[test]
fn an_engine_that_does_not_round_has_no_findings() {
    let folder = Folder::new();
    let corpus = corpus(&folder, &["--depth", "1..6", "--count", "5"]);
    let engine = rounding_engine("none");
    for form in ["text", "words", "bin", "json"] {
        let run = backbone(&["check", &corpus, "--engine", &engine, "--engine-form", form, "--jobs", "2"]).ends(0);
        let count =
            |name: &str| run.out.lines().rev().find_map(|line| line.strip_prefix(name)?.trim().parse::<u32>().ok());
        assert_eq!(count("best").unwrap_or(0) + count("equal").unwrap_or(0), 30, "{}", run.out);
    }
}

/// On a corpus against rounding every sheet is a finding, and the engine's layout is the one beside it.
#[test]
fn an_engine_that_rounds_errs_on_every_sheet_of_its_corpus() {
    let folder = Folder::new();
    let corpus = corpus(&folder, &["--depth", "2..7", "--count", "4", "--round", "0.1mm"]);
    let (best, rounded) = (format!("{corpus}/best"), format!("{corpus}/rounded"));
    let engine = rounding_engine("0.1mm");
    let asked = backbone(&["check", &best, "--engine", &engine, "--by-depth", "--format", "tsv"]).ends(1);
    let stored = backbone(&["check", &rounded, "--by-depth", "--format", "tsv"]).ends(1);
    assert_eq!(asked.out, stored.out.replace("/rounded/", "/best/"));
    let (rows, place) = rows(&asked.out);
    assert!(rows.len() == 24 && rows.iter().all(|row| row[place("finding")] == "not best"));
    for depth in 2..=7 {
        let line = format!("{depth:<8}{:>10}{:>17}{:>10.2} %", 4, 4, 100.0);
        assert!(asked.said.contains(&line), "{} has no line {line}", asked.said);
    }
    backbone(&["check", &best]).ends(0);
}

#[test]
fn shards_of_a_check_are_merged_to_the_whole() {
    let folder = Folder::new();
    let corpus = corpus(&folder, &["--depth", "1..8", "--count", "6"]);
    let engine = rounding_engine("0.1mm");
    let check = ["check", &corpus, "--engine", &engine, "--format", "tsv", "--by-depth"];
    let whole = backbone(&check).ends(1);
    let mut reports = Vec::new();
    for shard in ["3/3", "1/3", "2/3"] {
        let run = backbone(&[&check[..], &["--shard", shard]].concat());
        assert!(run.code == 0 || run.code == 1);
        reports.push(folder.write(&format!("report-{}.tsv", reports.len()), &run.out));
    }
    let reports: Vec<&str> = reports.iter().map(String::as_str).collect();
    let merged = backbone(&[&["merge", "--by-depth"], &reports[..]].concat()).ends(1);
    assert_eq!((merged.out, merged.said), (whole.out, whole.said));
}

/// A lawful layout of a two-sided sheet is no finding, also where reports are merged.
#[test]
fn lawful_two_sided_layouts_are_merged() {
    let folder = Folder::new();
    let sheet =
        "head two-sided fewest gap 2 width 8\nslot 2\ncolour unbounded\nsite 2 4\nlayout labels 1 length 10\ntie 0\n";
    let file = folder.write("two-sided.txt", sheet);
    let report = backbone(&["check", &file, "--format", "tsv"]).ends(0);
    let merged = backbone(&["merge", "--strict", &folder.write("report.tsv", &report.out)]).ends(0);
    assert_eq!((&merged.out, &merged.said), (&report.out, &report.said));
    assert!(
        merged.out.contains("\tlawful\t") && merged.said.contains("lawful                   1\n"),
        "{}",
        merged.said
    );
}

#[test]
fn json_counts_by_depth() {
    let folder = Folder::new();
    let corpus = corpus(&folder, &["--depth", "2..3", "--count", "3"]);
    let run = backbone(&["check", &corpus, "--by-depth", "--format", "json"]).ends(0);
    for depth in ["2", "3"] {
        assert!(run.out.contains(&format!("\"{depth}\": {{\"best\": 3, \"equal\": 0,")), "{}", run.out);
    }
    assert_eq!(run.out.matches("\"depth\": 2").count(), 3);
}

#[test]
fn engines_without_an_answer_are_findings() {
    let folder = Folder::new();
    let file = folder.write("sheet.txt", "head one-sided fewest gap 2 width 8\nslot 2\ncolour unbounded\nsite 2 4\n");
    for (engine, wanted) in [
        ("exit 3", "no answer: the engine wrote nothing (exit status: 3)"),
        ("cat", "no answer: the engine wrote neither a layout nor `refused 10`"),
        ("echo refused 10", "false no layout: best: labels 1 length 8"),
        ("cat; echo layout labels 1 length 7; echo tie 0", "unlawful: rule 6"),
        ("echo layout labels 1 length 8; echo tie 3", "refused 11"),
    ] {
        let run = backbone(&["check", &file, "--engine", engine]).ends(1);
        assert!(run.out.starts_with(&format!("{file}: {wanted}")), "{engine}: {}", run.out);
    }
    backbone(&["check", &file, "--engine", "cat; echo layout labels 1 length 8; echo tie 0"]).ends(0);
}

/// Sheets that the reader refuses are no question to an engine.
#[test]
fn refused_sheets_are_not_asked_about() {
    let folder = Folder::new();
    let file = folder.write("sheet.txt", "head one-sided fewest gap 2 width 8\nslot 2\nslot 2\n");
    let marker = folder.at("asked");
    let run = backbone(&["check", &file, "--engine", &format!("touch '{marker}'")]).ends(1);
    assert!(run.out.contains("refused 4"), "{}", run.out);
    assert!(!std::path::Path::new(&marker).exists());
}

#[test]
fn reports_that_can_not_be_merged() {
    let folder = Folder::new();
    let corpus = corpus(&folder, &["--depth", "2", "--count", "2"]);
    let manifest = format!("{corpus}/manifest.tsv");
    let report = folder.write("report.tsv", &backbone(&["check", &corpus, "--format", "tsv"]).ends(0).out);
    let cut = std::fs::read_to_string(&report).expect("a report");
    let cut = folder.write("cut.tsv", &cut[..cut.len() - 30]);
    let other = folder.write("other.tsv", "a\tb\n1\t2\n");
    backbone(&["merge"]).ends(2);
    for (reports, wanted) in [
        ([&report, &report], "is in an earlier report too"),
        ([&report, &manifest], "it is of another kind"),
        ([&cut, &report], "is the report whole?"),
        ([&report, &other], "it is neither"),
        ([&report, &folder.at("missing")], "No such file"),
    ] {
        let run = backbone(&["merge", reports[0], reports[1]]).ends(3);
        assert!(run.said.contains(wanted) && run.out.is_empty(), "{} {}", run.out, run.said);
    }
}
