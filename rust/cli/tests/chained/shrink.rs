//! Sheets made small by engines with a planted fault.

use crate::command::{backbone, rounding_engine, Folder};
use model::rules::{split, Ties};
use model::sheet::Sheet;

/// A sheet of a corpus, of depth 6.
fn deep_sheet(folder: &Folder, round: &str) -> String {
    let out = folder.at("corpus");
    backbone(&["corpus", "--out", &out, "--depth", "6", "--count", "3", "--seed", "21", "--round", round]).ends(0);
    format!("{out}/best/depth-06/3.txt")
}

/// The fault: with three sites or more the engine says that there is no layout. The smallest sheet of three sites that
/// has a layout is known.
#[test]
fn a_planted_fault_is_found_in_its_smallest_sheet() {
    let folder = Folder::new();
    let file = deep_sheet(&folder, "none");
    let honest = rounding_engine("none");
    let engine = format!("s=$(cat); if [ $(echo \"$s\" | grep -c '^site') -ge 3 ]; then echo refused 10; else echo \"$s\" | {honest}; fi");
    let run = backbone(&["shrink", &file, "--with", &engine]).ends(1);
    let (_, sheet) = run.out.split_once('\n').expect("a comment and a sheet");
    assert!(run.out.starts_with("# false no layout: best: labels 1 length 2\n"), "{}", run.out);
    let mut lines: Vec<&str> = sheet.lines().collect();
    lines.sort_unstable();
    let aim = if sheet.contains("shortest") { "shortest" } else { "fewest" };
    let head = format!("head one-sided {aim} gap 1 width 2");
    let wanted = ["colour unbounded", &head, "refused 10", "site 0 0", "site 1 0", "site 2 0", "slot 0"];
    assert_eq!(lines, wanted);
}

/// The engine that rounds: whatever is left out of the smallest sheet, the engine is right about the rest.
#[test]
fn nothing_can_be_left_out_of_a_smallest_sheet() {
    let folder = Folder::new();
    let file = deep_sheet(&folder, "0.1mm");
    let (engine, out) = (rounding_engine("0.1mm"), folder.at("small.txt"));
    let run = backbone(&["shrink", &file, "--with", &engine, "-o", &out]).ends(1);
    assert!(run.out.is_empty() && run.said.contains("not best"), "{}", run.said);
    let found = backbone(&["check", &out]).ends(1);
    assert!(found.out.contains(": not best: "), "{}", found.out);
    let words = sheet::encode(&std::fs::read_to_string(&out).expect("a sheet")).expect("a stored sheet");
    let (sheet, slot_of, _) = split(&words).expect("a stored sheet");
    assert_eq!(Ties::new(&sheet, &slot_of).broken(), 0);
    assert!(sheet.sites.len() <= 3 && sheet.slots.len() <= 4, "{sheet:?}");
    for smaller in one_less(&sheet) {
        let file = folder.write("smaller.txt", &sheet::show(&smaller.words()));
        let run = backbone(&["check", &file, "--engine", &engine]);
        assert_eq!(run.code, 0, "{}", run.out);
    }
}

/// The sheet without each of its sites and without each of its slots.
fn one_less(sheet: &Sheet) -> Vec<Sheet> {
    let mut found = Vec::new();
    for site in 0..sheet.sites.len() {
        let mut smaller = sheet.clone();
        smaller.sites.remove(site);
        found.push(smaller);
    }
    for slot in 0..sheet.slots.len() {
        let mut smaller = sheet.clone();
        smaller.slots.remove(slot);
        found.push(smaller);
    }
    found
}

/// The engine does not know of charges: it lays out the sheet without that line, and gives the layout alone. The smallest
/// sheet on which its length is false has one site off one backbone, and a charge of 1.
#[test]
fn a_charge_stays_in_the_smallest_sheet_of_an_engine_that_forgets_it() {
    let folder = Folder::new();
    let out = folder.at("corpus");
    backbone(&["corpus", "--out", &out, "--depth", "5", "--count", "1", "--seed", "21", "--charge", "35"]).ends(0);
    let engine = format!("grep -v '^charge' | {} | sed -n '/^layout/,$p'", rounding_engine("none"));
    let run = backbone(&["shrink", &format!("{out}/best/depth-05/1.txt"), "--with", &engine]).ends(1);
    let (first, sheet) = run.out.split_once('\n').expect("a comment and a sheet");
    assert!(first.starts_with("# unlawful: rule 6: the layout states 1 label and length "), "{first}");
    let words = sheet::encode(sheet).expect("a stored sheet");
    let (sheet, slot_of, stated) = split(&words).expect("a stored sheet");
    assert_eq!((sheet.sites.len(), sheet.slots.len(), sheet.bounds.len(), sheet.charge), (1, 1, 1, Some(1)));
    let (labels, length) = Ties::new(&sheet, &slot_of).numbers();
    assert_eq!(stated, (labels, length - 1), "{sheet:?}");
}

/// What has nothing to do with the charge is found in a sheet without one.
#[test]
fn a_charge_that_is_not_needed_goes() {
    let folder = Folder::new();
    let text = "head one-sided fewest gap 1 width 9\ncharge 7\nslot 3\ncolour unbounded\nsite 2 1\nsite 4 5\n";
    let run = backbone(&["shrink", &folder.write("sheet.txt", text), "--with", "echo refused 10"]).ends(1);
    assert!(run.out.starts_with("# false no layout: ") && !run.out.contains("\ncharge "), "{}", run.out);
}

#[test]
fn an_engine_without_a_fault_leaves_nothing_to_shrink() {
    let folder = Folder::new();
    let file = deep_sheet(&folder, "none");
    let run = backbone(&["shrink", &file, "--with", &rounding_engine("none")]).ends(0);
    assert!(run.out.is_empty(), "{}", run.out);
}

/// An engine that is wrong now and then is told, and nothing is written.
#[test]
fn an_engine_that_changes_its_mind_is_told() {
    let folder = Folder::new();
    let file = folder.write("sheet.txt", "head one-sided fewest gap 1 width 1\nslot 0\ncolour unbounded\nsite 0 0\n");
    let marker = folder.at("asked");
    let honest = rounding_engine("none");
    let engine = format!("if [ -e '{marker}' ]; then {honest}; else touch '{marker}'; echo refused 10; fi");
    let run = backbone(&["shrink", &file, "--with", &engine]).ends(3);
    assert!(run.said.contains("the engine answered 'false no layout' and then 'best' to one sheet"), "{}", run.said);
    assert!(run.out.is_empty());
}

#[test]
fn wrong_use_and_refused_sheets() {
    let folder = Folder::new();
    let refused = folder.write("refused.txt", "head one-sided fewest gap 2 width 8\nslot 2\nslot 2\n");
    backbone(&["shrink", &refused]).ends(2);
    backbone(&["shrink", "--with", "cat"]).ends(2);
    backbone(&["shrink", &folder.at("missing.txt"), "--with", "cat"]).ends(3);
    let run = backbone(&["shrink", &refused, "--with", "cat"]).ends(1);
    assert!(run.said.contains("refused 4") && run.out.is_empty(), "{}", run.said);
    let two_sided = folder.write("two-sided.txt", "head two-sided fewest gap 2 width 8\nslot 2\n");
    let run = backbone(&["shrink", &two_sided, "--with", "cat"]).ends(1);
    assert!(run.said.contains("refused 18: the sheet is two-sided") && run.out.is_empty(), "{}", run.said);
}
