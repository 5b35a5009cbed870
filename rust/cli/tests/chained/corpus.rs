//! Corpora by depth: what is written is what the manifest says, and it depends on the seed alone.

use crate::command::{backbone, files, rows, Folder};
use model::depth::depth;
use model::ranked::rank;
use model::rounding::{lay_out, rounded_length, Rounding};
use model::rules::{judge, split};

fn corpus(folder: &str, more: &[&str]) -> crate::command::Run {
    backbone(&[&["corpus", "--out", folder], more].concat())
}

#[test]
fn one_seed_gives_one_corpus() {
    let folder = Folder::new();
    for (name, seed) in [("one", "5"), ("two", "5"), ("other", "6")] {
        corpus(&folder.at(name), &["--depth", "1..6", "--count", "4", "--seed", seed]).ends(0);
    }
    assert_eq!(files(&folder.at("one")).len(), 25, "24 sheets and a manifest");
    assert_eq!(files(&folder.at("one")), files(&folder.at("two")));
    assert_ne!(files(&folder.at("one")), files(&folder.at("other")));
}

#[test]
fn shards_are_together_the_whole() {
    let folder = Folder::new();
    let wanted = ["--depth", "3..5", "--count", "5", "--round", "0.1mm", "--charge", "9"];
    corpus(&folder.at("whole"), &wanted).ends(0);
    for shard in ["1/4", "2/4", "3/4", "4/4"] {
        corpus(&folder.at("shards"), &[&wanted[..], &["--shard", shard]].concat()).ends(0);
    }
    let manifests: Vec<String> = (1..=4).map(|shard| folder.at(&format!("shards/manifest-{shard}-of-4.tsv"))).collect();
    let merge: Vec<&str> = ["merge"].into_iter().chain(manifests.iter().rev().map(String::as_str)).collect();
    let merged = backbone(&merge).ends(0).out;
    assert_eq!(merged, std::fs::read_to_string(folder.at("whole/manifest.tsv")).expect("a manifest"));
    for kind in ["best", "rounded"] {
        assert_eq!(files(&folder.at(&format!("shards/{kind}"))), files(&folder.at(&format!("whole/{kind}"))));
    }
}

/// A line of a manifest with the stored sheets that it is about.
struct Line<'a> {
    field: &'a dyn Fn(&str) -> String,
    best: Vec<u32>,
    rounded: Vec<u32>,
}

/// Every line of a manifest, against the plain judge, the depth, the search and the rival.
#[test]
fn manifests_say_what_is_true() {
    hold_manifest(&[], None);
}

#[test]
fn manifests_of_charged_sheets_say_what_is_true() {
    hold_manifest(&["--charge", "40"], Some(40));
    hold_manifest(&["--charge", "0"], Some(0));
}

fn hold_manifest(more: &[&str], charge: Option<u32>) {
    let folder = Folder::new();
    let out = folder.at("corpus");
    let wanted = ["--depth", "1..7", "--count", "8", "--seed", "3", "--round", "0.1mm"];
    corpus(&out, &[&wanted, more].concat()).ends(0);
    let (rows, place) = rows(&std::fs::read_to_string(folder.at("corpus/manifest.tsv")).expect("a manifest"));
    assert_eq!(rows.len(), 56);
    let mut searched = 0;
    for row in rows {
        let field = |name: &str| row[place(name)].clone();
        let read = |kind: &str| {
            let text = std::fs::read_to_string(format!("{out}/{kind}/{}", field("file"))).expect("a sheet");
            sheet::encode(&text).expect("a stored sheet")
        };
        let line = Line { field: &field, best: read("best"), rounded: read("rounded") };
        hold_best(&line, charge);
        hold_rounded(&line);
        searched += u32::from(is_searched(&line));
    }
    assert!(searched > 40, "{searched}");
}

/// The sheet has this charge, the layout is lawful, and its numbers are those of the line.
fn hold_best(line: &Line, charge: Option<u32>) {
    let field = line.field;
    let (sheet, slot_of, (labels, length)) = split(&line.best).expect("a stored sheet");
    assert_eq!((judge(&line.best), sheet.charge), ((0, 0), charge));
    assert_eq!(field("depth"), depth(&sheet, &slot_of).to_string());
    assert_eq!((field("labels"), field("length")), (labels.to_string(), length.to_string()));
    assert_eq!(field("slots_by_site"), slot_of.iter().map(usize::to_string).collect::<Vec<_>>().join(","));
    assert_eq!(field("aim") == "shortest", sheet.shortest);
}

/// The search finds the same layout, as many equals, and the same second best, where the line has them.
fn is_searched(line: &Line) -> bool {
    let field = line.field;
    let (sheet, slot_of, _) = split(&line.best).expect("a stored sheet");
    let Some(found) = rank(&sheet, 3_000_000) else { return false };
    let found = found.expect("there is a layout");
    assert_eq!(found.slot_of, slot_of);
    if field("equals") == "-" {
        return false;
    }
    let second = found.second.map_or(["-".to_string(), "-".to_string()], |(a, b)| [a.to_string(), b.to_string()]);
    assert_eq!(field("equals"), found.equals.to_string());
    assert_eq!([field("second_labels"), field("second_length")], second);
    true
}

/// The rival's layout is its own, lawful, and worse.
fn hold_rounded(line: &Line) {
    let (field, rounding) = (line.field, Rounding::TenthMillimetre);
    let (sheet, best, numbers_of_best) = split(&line.best).expect("a stored sheet");
    let (same, rounded, numbers) = split(&line.rounded).expect("a stored sheet");
    assert_eq!((judge(&line.rounded), &same), ((0, 0), &sheet));
    assert_eq!(lay_out(&sheet, rounding), Ok(rounded.clone()));
    let cost = |(labels, length): (u32, u32)| if sheet.shortest { (length, labels) } else { (labels, length) };
    assert!(cost(numbers) > cost(numbers_of_best));
    assert_eq!((field("rounded_labels"), field("rounded_length")), (numbers.0.to_string(), numbers.1.to_string()));
    let sum = |slot_of: &[usize]| rounded_length(&sheet, slot_of, rounding).expect("a length").to_string();
    assert_eq!((field("sum_of_rounded"), field("sum_of_best")), (sum(&rounded), sum(&best)));
}

#[test]
fn aims_are_as_wanted() {
    let folder = Folder::new();
    for aim in ["fewest", "shortest"] {
        corpus(&folder.at(aim), &["--depth", "4", "--count", "6", "--aim", aim]).ends(0);
        let (rows, place) =
            rows(&std::fs::read_to_string(folder.at(&format!("{aim}/manifest.tsv"))).expect("a manifest"));
        assert!(rows.len() == 6 && rows.iter().all(|row| row[place("aim")] == aim));
    }
}

#[test]
fn what_is_there_is_kept() {
    let folder = Folder::new();
    corpus(&folder.at("corpus"), &["--depth", "2", "--count", "2"]).ends(0);
    let before = files(&folder.at("corpus"));
    let run = corpus(&folder.at("corpus"), &["--depth", "2", "--count", "2", "--seed", "9"]).ends(3);
    assert!(run.said.contains("manifest.tsv: it is there already"), "{}", run.said);
    assert_eq!(files(&folder.at("corpus")), before);
}

#[test]
fn wrong_use_and_what_can_not_be_written() {
    let folder = Folder::new();
    let out = folder.at("corpus");
    for wrong in [
        &["corpus"][..],
        &["corpus", "--out", &out],
        &["corpus", "--depth", "3"],
        &["corpus", "--depth", "0", "--out", &out],
        &["corpus", "--depth", "13", "--out", &out],
        &["corpus", "--depth", "5..3", "--out", &out],
        &["corpus", "--depth", "a..b", "--out", &out],
        &["corpus", "--depth", "3", "--out", &out, "--count", "0"],
        &["corpus", "--depth", "3", "--out", &out, "--seed", "-1"],
        &["corpus", "--depth", "3", "--out", &out, "--round", "0.1"],
        &["corpus", "--depth", "3", "--out", &out, "--aim", "best"],
        &["corpus", "--depth", "3", "--out", &out, "--charge", "16384"],
        &["corpus", "--depth", "3", "--out", &out, "--charge", "-1"],
        &["corpus", "--depth", "3", "--out", &out, "--charge"],
        &["corpus", "--depth", "3", "--out", &out, "--shard", "3/2"],
        &["corpus", "--depth", "3", "--out", &out, "more"],
    ] {
        let run = backbone(wrong).ends(2);
        assert!(run.out.is_empty() && run.said.starts_with("backbone: "), "{wrong:?} {}", run.said);
    }
    let file = folder.write("file", "");
    corpus(&format!("{file}/corpus"), &["--depth", "3"]).ends(3);
    corpus("/proc/corpus", &["--depth", "3"]).ends(3);
}

/// With one label there is one rounding, and that of a tenth of a point never makes two lengths one.
#[test]
fn sheets_that_are_not_found_are_told() {
    let folder = Folder::new();
    let wanted = ["--depth", "1", "--count", "3", "--round", "0.1pt", "--aim", "fewest"];
    let run = corpus(&folder.at("corpus"), &wanted).ends(1);
    assert!(run.said.contains("depth 1: 0 of 3 sheets; no fewest sheet of this depth on which"), "{}", run.said);
}

/// What is drawn is the same with every charge of a seed; a charge of 0 keeps the sheets, each with its word.
#[test]
fn a_charge_of_0_gives_the_corpus_without_one() {
    let folder = Folder::new();
    let wanted = ["--depth", "2..4", "--count", "4"];
    corpus(&folder.at("plain"), &wanted).ends(0);
    corpus(&folder.at("charged"), &[&wanted[..], &["--charge", "0"]].concat()).ends(0);
    let uncharged = |(name, text): (String, String)| (name, text.replace("charge 0\n", ""));
    let charged = files(&folder.at("charged"));
    assert_eq!(charged.iter().filter(|(_, text)| text.contains("\ncharge 0\nslot ")).count(), 12);
    assert_eq!(charged.into_iter().map(uncharged).collect::<Vec<_>>(), files(&folder.at("plain")));
}
