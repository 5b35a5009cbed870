//! What is kept in the folder of examples: the corpus of ten sheets a depth, and the sheet without a layout.

use crate::command::{backbone, files, rounding_engine, rows, Folder};
use model::ranked::rank;
use model::rules::split;

/// The folder of examples.
fn examples(name: &str) -> String {
    format!("{}/../../examples/{name}", env!("CARGO_MANIFEST_DIR"))
}

/// The kept corpus is the one that its command writes.
#[test]
fn the_kept_corpus_is_made_by_its_command() {
    let folder = Folder::new();
    let out = folder.at("corpus");
    let command = ["corpus", "--depth", "1..8", "--count", "10", "--seed", "7", "--round", "0.1mm", "--out", &out];
    backbone(&command).ends(0);
    assert!(files(&out) == files(&examples("corpus")), "run: backbone {}", command.join(" "));
}

#[test]
fn the_kept_corpus_is_best_and_its_rounded_layouts_are_not() {
    let (best, rounded) = (examples("corpus/best"), examples("corpus/rounded"));
    backbone(&["check", &best]).ends(0);
    for run in [
        backbone(&["check", &rounded, "--format", "tsv"]),
        backbone(&["check", &best, "--engine", &rounding_engine("0.1mm"), "--format", "tsv"]),
    ] {
        let (rows, place) = rows(&run.ends(1).out);
        assert!(rows.len() == 80 && rows.iter().all(|row| row[place("finding")] == "not best"));
    }
}

/// The maker's layouts are those of the search, where that ends.
#[test]
fn the_kept_corpus_agrees_with_the_search() {
    let mut ended = 0;
    for (name, text) in files(&examples("corpus/best")) {
        let (sheet, slot_of, numbers) = split(&sheet::encode(&text).expect("a text")).expect("a stored sheet");
        if let Some(found) = rank(&sheet, 3_000_000) {
            let found = found.expect("there is a layout");
            assert_eq!((found.slot_of, found.best), (slot_of, numbers), "{name}");
            ended += 1;
        }
    }
    assert!(ended >= 70, "{ended} of 80");
}

/// The sheet without a layout with what `backbone why` says and draws of it.
#[test]
fn the_kept_reason_is_the_one_that_is_given() {
    let folder = Folder::new();
    let picture = folder.at("why.svg");
    let run = backbone(&["why", &examples("why/sheet.txt"), "-o", &picture]).ends(1);
    let kept = |name: &str| std::fs::read_to_string(examples(name)).expect("it is kept");
    assert_eq!(run.out, kept("why/answer.txt"));
    let is_kept = std::fs::read_to_string(picture).expect("a picture") == kept("why/picture.svg");
    assert!(is_kept, "run: ./backbone why examples/why/sheet.txt -o examples/why/picture.svg");
}
