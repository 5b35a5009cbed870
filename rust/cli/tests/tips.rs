//! Foreign sites at the tip of a backbone, as the subcommands meet them: sheet A with gap 3 by hand, and the example by the
//! plain search.

mod common;

use common::{examples, run, stored_a, SHEET_A};
use model::rules::{breaks_at_tips_alone, split};
use model::search;

/// Sheet A with gap 3, and the layout that document 01 gives it: its tip at (4, 2) is 2 right of the site (2, 4) and 2 above it.
fn with_gap_3(text: &str) -> String {
    text.replace("gap 2", "gap 3")
}

const NEAR: &str =
    "rule 5: site 0 lies 2 left of the tip of the backbone at slot 0 and 2 below it, both less than the gap 3";

fn stored() -> String {
    with_gap_3(&stored_a(2, 19, [2, 2, 0]))
}

#[test]
fn sheet_a_with_gap_3_has_no_layout() {
    let laid_out = run(["lay-out", "-"], with_gap_3(SHEET_A).as_bytes());
    assert_eq!((laid_out.code, &laid_out.text()[..]), (Some(1), "refused 10\n"));
    let claimed = run(["check", "-"], format!("{}refused 10\n", with_gap_3(SHEET_A)).as_bytes());
    assert_eq!((claimed.code, claimed.text().lines().next()), (Some(0), Some("standard input: true no layout")));
}

#[test]
fn its_layout_is_unlawful_in_every_report() {
    let text = run(["check", "-"], stored().as_bytes());
    let line = format!("standard input: unlawful: {NEAR}; the sheet has no layout");
    assert_eq!((text.code, text.text().lines().next()), (Some(1), Some(&line[..])));
    let json = run(["check", "--format", "json", "-"], stored().as_bytes()).text();
    assert!(
        json.contains(r#""finding": "unlawful", "rule": 5, "sites": [0], "slots": [0], "text": "rule 5: "#),
        "{json}"
    );
    for format in ["tsv", "junit"] {
        assert!(run(["check", "--format", format, "-"], stored().as_bytes()).text().contains(NEAR), "{format}");
    }
    let engine = "printf 'layout labels 2 length 19\\ntie 2\\ntie 2\\ntie 0\\n'";
    let answered = run(["check", "--engine", engine, "-"], with_gap_3(SHEET_A).as_bytes());
    assert!(answered.text().contains(&format!("unlawful: {NEAR}")), "{answered:?}");
}

/// 13 of the twin, the strokes and the page, with what it comes from; the picture says it too.
#[test]
fn its_layout_has_no_twin_no_strokes_and_no_page() {
    for command in ["twin", "strokes", "page"] {
        let refused = run([command, "-"], stored().as_bytes());
        assert_eq!((refused.code, &refused.text()[..]), (Some(1), "refused 13\n"), "{command}");
        assert!(refused.err.contains(NEAR), "{}", refused.err);
    }
    let drawn = run(["draw", "-"], stored().as_bytes());
    assert!(
        drawn.text().contains(">rule 5 is broken: site 0 lies 2 left of the tip of the backbone at slot 0"),
        "{drawn:?}"
    );
}

/// Each site has a layout without any one of the others, and one more slot helps: both by the plain search.
#[test]
fn why_it_has_none() {
    let told = run(["why", "-"], with_gap_3(SHEET_A).as_bytes());
    let lines = "refused 10: no layout obeys rules 1 to 5\n\
                 3 of 3 sites have no layout together; leaving out any one of them gives one:\n  \
                 site 0 at x 2 y 4, colour 0\n  \
                 site 1 at x 6 y 6, colour 0\n  \
                 site 2 at x 4 y 5, colour 1\n\
                 what would help, each tried:\n  \
                 a gap of 2 helps, and 3 does not; it is 3\n  \
                 there is no bound to raise\n  \
                 one more slot helps at height 0 to 1, or 9 to 16383\n";
    assert_eq!((told.code, &told.text()[..]), (Some(1), lines));
    let sheet = model::sheet::read(&sheet::encode(&with_gap_3(SHEET_A)).unwrap()).unwrap();
    let has_layout = |sheet: &model::sheet::Sheet| search::find(sheet).is_some();
    for left_out in 0..3 {
        let mut fewer = sheet.clone();
        fewer.sites.remove(left_out);
        assert!(has_layout(&fewer) && !has_layout(&sheet), "{left_out}");
    }
    for height in (0..20).filter(|height| ![2, 5, 8].contains(height)).chain([16_383]) {
        let mut more = sheet.clone();
        more.slots.push(height);
        more.slots.sort_unstable();
        assert_eq!(has_layout(&more), height <= 1 || height >= 9, "{height}");
    }
}

/// The example breaks rule 5 at a tip and nowhere else; what the command finds best is what the search finds.
#[test]
fn the_example_by_the_plain_search() {
    let path = examples().join("near_tip.txt");
    let words = sheet::encode(&std::fs::read_to_string(&path).unwrap()).unwrap();
    assert!(breaks_at_tips_alone(&words));
    let (sheet, ..) = split(&words).unwrap();
    let best = search::best(&sheet).expect("a layout");
    let numbers = format!("labels {} length {}", best[0] >> 21 & 0x7F, best[0] & 0x1F_FFFF);
    let told = run(["check".as_ref(), path.as_os_str()], b"");
    let text = "unlawful: rule 5: site 0 lies on the row of the backbone at slot 1, 16 left of its tip, less than the gap 20; \
                best: ";
    assert!(told.text().contains(&format!("{text}{numbers}\n")), "{}", told.text());
}
