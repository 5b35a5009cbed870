//! A charge on bends, as the subcommands meet it: sheet A by hand, an example by the plain search, words kept and refused.

mod common;

use common::{examples, run, shell, stored_a, SHEET_A};
use model::rules::{layout_words, split, Ties};
use model::search;
use model::sheet::read;

/// Sheet A has three sites off their backbones in each of its layouts below, so a charge of 5 adds 15.
fn charged(text: &str) -> String {
    text.replacen("slot 2", "charge 5\nslot 2", 1)
}

fn first_line(arguments: &[&str], text: &str) -> (Option<i32>, String) {
    let run = run(arguments, text.as_bytes());
    (run.code, run.text().lines().next().unwrap_or_default().to_string())
}

fn check(text: &str) -> (Option<i32>, String) {
    let (code, line) = first_line(&["check", "-"], text);
    (code, line.replace("standard input: ", ""))
}

#[test]
fn lengths_of_sheet_a_have_the_charges() {
    let lines = "labels 2 length 34\nsite 0 colour 0 slot 0\nsite 1 colour 0 slot 0\nsite 2 colour 1 slot 2\n";
    assert_eq!(run(["lay-out", "-"], charged(SHEET_A).as_bytes()).text(), lines);
    let stored = run(["lay-out", "--format", "stored", "-"], charged(SHEET_A).as_bytes()).text();
    assert_eq!(stored, charged(&stored_a(2, 34, [0, 0, 2])));
    assert_eq!(check(&stored), (Some(0), "best".to_string()));
    assert_eq!(check(&charged(&stored_a(2, 34, [2, 2, 0]))).1.split(':').next(), Some("equal"));
}

/// An engine that does not know of charges states a length without them.
#[test]
fn lengths_without_the_charges_break_rule_6() {
    let text = "unlawful: rule 6: the layout states 2 labels and length 19, but has 2 labels and length 34; \
                best: labels 2 length 34";
    assert_eq!(check(&charged(&stored_a(2, 19, [0, 0, 2]))), (Some(1), text.to_string()));
    let drawn = run(["draw", "-"], charged(&stored_a(2, 19, [0, 0, 2])).as_bytes());
    assert!(drawn.text().contains("states 2 labels and length 19, but has 2 labels and length 34"), "{drawn:?}");
}

/// The example's best layout is another with its charge than without, by the search over all layouts.
#[test]
fn the_example_by_the_plain_search() {
    let example = |name: &str| std::fs::read_to_string(examples().join(name)).unwrap();
    let [sheet, uncharged] =
        ["charge.txt", "uncharged.txt"].map(|name| read(&sheet::encode(&example(name)).unwrap()).unwrap());
    assert_eq!(model::sheet::Sheet { charge: None, ..sheet.clone() }, uncharged);
    let [best, other] = [&sheet, &uncharged].map(|sheet| search::find(sheet).unwrap().slot_of);
    assert_eq!(Ties::new(&sheet, &best).numbers(), (2, 1740));
    assert_eq!(Ties::new(&uncharged, &other).numbers(), (2, 1580));
    for (sheet, slot_of) in [(&sheet, &best), (&uncharged, &other)] {
        let stored = sheet::show(&[sheet.words(), layout_words(sheet, slot_of)].concat());
        assert_eq!(check(&stored), (Some(0), "best".to_string()));
    }
    // 720 + 178 + 7 * 24 and 660 + 22 + 24: 32 units longer than the best.
    let taken = sheet::show(&[sheet.words(), layout_words(&sheet, &other)].concat());
    let text = "not best: 32 units (4 points, 1.411 mm) longer; best: labels 2 length 1740";
    assert_eq!(check(&taken), (Some(1), text.to_string()));
}

/// A charge word of 0 is a word like any other: every form and every tool gives it back.
#[test]
fn a_charge_of_0_is_kept() {
    let stored = stored_a(2, 25, [0, 0, 2]).replacen("slot 2", "charge 0\nslot 2", 1).replace("one-sided", "two-sided");
    let twin = stored_a(2, 19, [0, 0, 2]).replacen("slot 2", "charge 0\nslot 2", 1);
    for form in ["text", "words", "bin", "json"] {
        let line = format!("$BACKBONE convert --to {form} - | $BACKBONE convert --to text -");
        assert_eq!(shell(&line, stored.as_bytes()).text(), stored, "{form}");
        let line = format!("$BACKBONE twin --to {form} - | $BACKBONE convert --to text -");
        assert_eq!(shell(&line, stored.as_bytes()).text(), twin, "{form}");
    }
    let laid_out = shell("$BACKBONE twin - | $BACKBONE lay-out --format stored -", stored.as_bytes());
    assert_eq!(laid_out.text(), twin);
}

/// The twin has the charge, and its length is true with it; strokes are those without a charge. A page has the charges in its
/// lengths: two at slot 0, one at slot 2.
#[test]
fn twins_strokes_and_pages() {
    let two_sided = charged(&stored_a(2, 40, [0, 0, 2])).replace("one-sided", "two-sided");
    let twin = charged(&stored_a(2, 34, [0, 0, 2]));
    assert_eq!(check(&two_sided).1.split(':').next(), Some("lawful"));
    assert_eq!(run(["twin", "-"], two_sided.as_bytes()).text(), twin);
    let strokes = |text: &str| run(["strokes", "-"], text.as_bytes()).text();
    assert_eq!(strokes(&twin), strokes(&stored_a(2, 19, [0, 0, 2])));
    assert_eq!(strokes(&twin).lines().filter(|line| line.starts_with("drop ")).count(), 3);
    let uncharged = run(["page", "-"], stored_a(2, 19, [0, 0, 2]).as_bytes()).text();
    let expected = [("      12 ", "      22 "), ("       7 ", "      12 "), ("      19 ", "      34 ")];
    let page = expected.iter().fold(uncharged, |page, (without, with)| page.replacen(without, with, 1));
    assert_eq!(run(["page", "-"], twin.as_bytes()).text(), page);
}

/// Out of its place, twice, with a spare bit, and as the first word: by every subcommand that reads a sheet.
#[test]
fn charges_that_are_refused() {
    let stored = stored_a(2, 19, [0, 0, 2]);
    let cases = [
        (stored.replace("slot 5", "charge 5\nslot 5"), 2, "a charge stands elsewhere than right after the head"),
        (charged(&charged(&stored)), 2, "word 2 is 0x50000005: it is a second charge"),
        (stored.replacen("slot 2", "0x50004005\nslot 2", 1), 2, "word 1 is 0x50004005: a spare bit is set"),
        (format!("charge 5\n{stored}"), 1, "word 0 is 0x50000005, no head"),
        (stored.replace("tie 2", "charge 5"), 11, "word 12 is 0x50000005: it is no tie"),
    ];
    for (text, number, cause) in &cases {
        for command in ["twin", "strokes", "page"] {
            let told = run([command, "-"], text.as_bytes());
            assert_eq!((told.code, told.text()), (Some(1), format!("refused {number}\n")), "{text}");
            assert!(told.err.contains(cause), "{cause}: {}", told.err);
        }
        assert!(check(text).1.starts_with(&format!("refused {number}: ")), "{text}");
        assert_eq!(check(text).0, Some(1));
        let words = shell("$BACKBONE convert --to json - | $BACKBONE convert --to words -", text.as_bytes()).text();
        assert_eq!(sheet::encode(&words), sheet::encode(text), "any list of words can be converted");
    }
    for (text, number, cause) in &cases[..4] {
        for command in ["lay-out", "why"] {
            let told = run([command, "-"], text.as_bytes());
            assert_eq!(told.code, Some(1), "{text}");
            assert!(told.text().starts_with(&format!("refused {number}")), "{text}");
            assert!(told.text().contains(cause) || told.err.contains(cause), "{cause}: {told:?}");
        }
        assert_eq!(run(["draw", "-"], text.as_bytes()).code, Some(1), "{text}");
    }
}

/// What the form can't hold is no refusal: the input can't be read.
#[test]
fn charges_out_of_range_are_not_read() {
    for charge in ["16384", "-1", "five", ""] {
        let text = SHEET_A.replacen("slot 2", &format!("charge {charge}\nslot 2"), 1);
        let run = run(["lay-out", "-"], text.as_bytes());
        assert_eq!((run.code, run.out.len()), (Some(3), 0), "{text}");
        assert!(run.err.contains("line 2, column "), "{}", run.err);
    }
    let most = SHEET_A.replacen("slot 2", "charge 16383\nslot 2", 1);
    assert_eq!(first_line(&["lay-out", "-"], &most), (Some(0), format!("labels 2 length {}", 19 + 3 * 16_383)));
}

/// Whether there is a layout does not depend on the charge, nor does what would help.
#[test]
fn why_does_not_know_the_charge() {
    let sheet = SHEET_A.replace("gap 2", "gap 4");
    let why = |text: &str| run(["why", "-"], text.as_bytes());
    assert!(why(&sheet).text().starts_with("refused 10: "));
    assert_eq!(why(&charged(&sheet)), why(&sheet));
    assert_eq!(check(&format!("{}refused 10\n", charged(&sheet))), (Some(0), "true no layout".to_string()));
    let text = "the sheet has a layout: labels 2 length 34";
    assert_eq!(first_line(&["why", "-"], &charged(SHEET_A)), (Some(0), text.to_string()));
}

/// A picture of rounded lengths is of the charged ones; both titles have them.
#[test]
fn rounded_lengths_have_the_charges() {
    let drawn = run(["draw", "--rounded", "-"], charged(SHEET_A).as_bytes()).text();
    assert!(drawn.contains("exact: labels 2, length 34 "), "{drawn}");
    let (sheet, slot_of, _) = split(&sheet::encode(&charged(&stored_a(2, 34, [0, 0, 2]))).unwrap()).unwrap();
    let tenths = model::rounding::rounded_length(&sheet, &slot_of, model::rounding::Rounding::TenthMillimetre).unwrap();
    assert!(drawn.contains(&format!("({}.{} mm when rounded)", tenths / 10, tenths % 10)), "{tenths}: {drawn}");
}
