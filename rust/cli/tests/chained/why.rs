//! Why a sheet is refused, as the command says it.

use crate::command::{backbone, Folder};

const SHEET: &str = "\
head one-sided fewest gap 4 width 8
slot 2
slot 5
slot 8
colour unbounded \"bolts\"
site 2 4 \"upper\"
site 6 6
colour unbounded
site 4 5
";

/// Document 01's sheet A with gap 4: sites 0 and 2 have no layout together. With gap 3 it has none either, by document 02, and
/// with gap 2 it has one.
#[test]
fn a_sheet_without_a_layout_is_explained() {
    let folder = Folder::new();
    let (file, picture) = (folder.write("sheet.txt", SHEET), folder.at("why.svg"));
    let run = backbone(&["why", &file, "-o", &picture]).ends(1);
    assert_eq!(
        run.out,
        "refused 10: no layout obeys rules 1 to 5\n\
         2 of 3 sites have no layout together; leaving out any one of them gives one:\n  \
         site 0 \"upper\" at x 2 y 4, colour 0 \"bolts\"\n  \
         site 2 at x 4 y 5, colour 1\n\
         what would help, each tried:\n  \
         a gap of 2 helps, and 3 does not; it is 4\n  \
         there is no bound to raise\n  \
         no one slot more helps\n"
    );
    let svg = std::fs::read_to_string(picture).expect("a picture");
    assert!(svg.starts_with("<svg ") && svg.contains("2 of 3 sites have no layout together"));
}

#[test]
fn a_sheet_with_a_layout_needs_no_reason() {
    let folder = Folder::new();
    let file = folder.write("sheet.txt", &SHEET.replace("gap 4", "gap 2"));
    let run = backbone(&["why", &file]).ends(0);
    assert_eq!(run.out, "the sheet has a layout: labels 2 length 19\n");
}

/// A stored sheet's own layout is left aside.
#[test]
fn layouts_are_left_aside() {
    let folder = Folder::new();
    let file = folder.write("sheet.txt", &format!("{SHEET}refused 10\n"));
    backbone(&["why", &file]).ends(1);
    let file = folder.write("sheet.txt", &format!("{SHEET}layout labels 1 length 9\ntie 0\ntie 0\ntie 0\n"));
    assert!(backbone(&["why", &file]).ends(1).out.starts_with("refused 10: "));
}

#[test]
fn other_refusals_name_what_they_come_from() {
    let folder = Folder::new();
    for (text, wanted) in [
        ("", "refused 1: "),
        ("head one-sided fewest gap 2 width 8\ntie 1\n", "word 1 is 0x90000001"),
        ("head one-sided fewest gap 2 width 8\nslot 5\nslot 5\n", "slot 0 has height 5, and slot 1 after it height 5"),
        ("head one-sided fewest gap 2 width 8\ncolour unbounded\nsite 9 1\n", "site 0 has x 9, and the width is 8"),
        ("head one-sided fewest gap 2 width 8\ncolour unbounded\nsite 3 1\nsite 3 2\n", "sites 0 and 1 both have x 3"),
        ("head one-sided fewest gap 2 width 8\ncolour bound 7\ncolour bound 8\n", "give 72, above 64"),
        ("head two-sided fewest gap 2 width 8\nslot 5\n", "word 0 is 0x18008008, a two-sided head"),
        ("head two-sided fewest gap 2 width 8\ncolour unbounded\nsite 3 1\n", "refused 18: the sheet is two-sided"),
    ] {
        let run = backbone(&["why", &folder.write("sheet.txt", text)]).ends(1);
        assert!(run.out.starts_with("refused ") && run.out.contains(wanted), "{text:?}: {}", run.out);
    }
}

#[test]
fn what_can_not_be_read_or_written() {
    let folder = Folder::new();
    backbone(&["why"]).ends(2);
    backbone(&["why", &folder.at("missing.txt")]).ends(3);
    backbone(&["why", &folder.write("wrong.txt", "slots 5\n")]).ends(3);
    let file = folder.write("sheet.txt", SHEET);
    backbone(&["why", &file, "-o", &folder.at("no/folder/why.svg")]).ends(3);
}
