//! `backbone page` and `backbone lay-out --format page`: the page of sheet A by hand, those of the plain model, every refusal
//! and exit code.

mod common;

use common::{assert_unwritten_is_3, best_a, examples, refused_stored, run, shell, stored_a, Run, SHEET_A};
use model::page::text;
use model::random::{any_stored, small_sheet, Random};
use model::search;
use sheet::{Form, Record};
use std::ffi::OsStr;

/// Document 01's sheet A with its best layout: slot 0 has a backbone of 6 and drops of 2 and 4, slot 2 a backbone of 4 and
/// a drop of 3.
const PAGE_A: &str = include_str!("../../../examples/a.page");

/// A run that printed this and said nothing else.
fn printed(text: &str) -> Run {
    Run { code: Some(0), out: text.as_bytes().to_vec(), err: String::new() }
}

#[test]
fn sheet_a_in_every_form() {
    for form in [Form::Text, Form::Words, Form::Binary, Form::Json] {
        let input = |text: &str| sheet::write(&sheet::parse(text).unwrap(), form).unwrap();
        assert_eq!(run(["page", "-"], &input(&best_a())), printed(PAGE_A), "{form:?}");
        assert_eq!(run(["lay-out", "--format", "page", "-"], &input(SHEET_A)), printed(PAGE_A), "{form:?}");
    }
}

/// Of a stored sheet `lay-out` gives the page of the best layout, `page` that of the layout that stands there.
#[test]
fn the_page_of_another_layout() {
    let worse = stored_a(3, 18, [0, 1, 2]);
    assert_eq!(run(["lay-out", "--format=page", "-"], worse.as_bytes()), printed(PAGE_A));
    let first = "  0  0  1        2        8             \n  1  0  1        5        3             \n";
    assert!(run(["page", "-"], worse.as_bytes()).text().starts_with(first));
}

/// Backbones reach from edge to edge, so the labels' lengths are 2 and 4 more. It is no longer laid out.
#[test]
fn a_two_sided_sheet() {
    let stored = stored_a(2, 25, [0, 0, 2]).replace("one-sided", "two-sided");
    let expected = PAGE_A.replace("2       12", "2       14").replace("8        7", "8       11").replace("19", "25");
    assert_eq!(run(["page", "-"], stored.as_bytes()), printed(&expected));
    let file = examples().join("a_two_sided.txt");
    assert_eq!(run([OsStr::new("page"), file.as_os_str()], b""), printed(&expected));
    let laid_out = run(["lay-out", "--format", "page", "-"], stored.as_bytes());
    assert_eq!((laid_out.code, &laid_out.text()[..]), (Some(1), "refused 18\n"));
}

#[test]
fn a_sheet_without_sites_has_a_total() {
    let total = "total    0                0             \n";
    let head = "head one-sided fewest gap 2 width 8\n";
    assert_eq!(run(["lay-out", "--format", "page", "-"], head.as_bytes()), printed(total));
    assert_eq!(run(["page", "-"], format!("{head}layout labels 0 length 0\n").as_bytes()), printed(total));
}

/// awk reads the lines: the lengths of the labels add up to the last line's.
#[test]
fn lines_are_for_awk() {
    let sum = r#"$BACKBONE page - | awk '$1 == "total" { print sum, $3 } $1 != "drop" { sum += $5 }'"#;
    assert_eq!(shell(sum, best_a().as_bytes()).text(), "19 19\n");
}

/// The number on standard output; the meaning and what it comes from on standard error.
#[test]
fn refusals() {
    for (text, number, cause) in refused_stored() {
        let told = run(["page", "-"], text.as_bytes());
        assert_eq!((told.code, told.text()), (Some(1), format!("refused {number}\n")), "{text}");
        assert!(told.err.contains(&format!("refused {number}: ")) && told.err.contains(cause), "{}", told.err);
    }
    for (sheet, number) in [("", 1), ("0x10008008 0x10008008", 2), (&SHEET_A.replace("gap 2", "gap 4"), 10)] {
        let told = run(["lay-out", "--format", "page", "-"], sheet.as_bytes());
        assert_eq!((told.code, told.text()), (Some(1), format!("refused {number}\n")), "{sheet}");
        assert!(told.err.contains(&format!("refused {number}: ")), "{}", told.err);
    }
}

#[test]
fn output_that_cannot_be_written_is_3() {
    assert_unwritten_is_3("page");
    assert_unwritten_is_3("lay-out --format page");
}

/// The page that stands beside the gearbox's twin is the plain model's, and the command's.
#[test]
fn an_example_has_its_page() {
    let file = |ending: &str| examples().join(format!("gearbox_twin.{ending}"));
    let read = |ending: &str| std::fs::read_to_string(file(ending)).unwrap();
    assert_eq!(text(&sheet::encode(&read("txt")).unwrap()), Ok(read("page")));
    assert_eq!(run([OsStr::new("page"), file("txt").as_os_str()], b""), printed(&read("page")));
}

#[test]
fn pages_are_those_of_the_plain_model() {
    let mut random = Random::new(122);
    let (mut written, mut refused) = (0, 0);
    for _ in 0..500 {
        let words = any_stored(&mut random);
        let run = run(["page", "-"], &sheet::write(&Record::of_words(words.clone()), Form::Words).unwrap());
        match text(&words) {
            Ok(page) => {
                assert_eq!(run, printed(&page), "{words:x?}");
                written += 1;
            }
            Err(refusal) => {
                assert_eq!((run.code, run.text()), (Some(1), format!("refused {refusal}\n")), "{words:x?}");
                refused += 1;
            }
        }
    }
    assert!(written > 100 && refused > 100, "{written} {refused}");
}

/// The best layout is that of the plain search.
#[test]
fn laid_out_pages_are_those_of_the_search() {
    let mut random = Random::new(123);
    let mut written = 0;
    for _ in 0..200 {
        let sheet = small_sheet(&mut random).one_sided();
        let run = run(["lay-out", "--format", "page", "-"], sheet::show(&sheet.words()).as_bytes());
        match search::best(&sheet) {
            Some(layout) => {
                let page = text(&[sheet.words(), layout].concat()).unwrap();
                assert_eq!(run, printed(&page), "{sheet:?}");
                written += 1;
            }
            None => assert_eq!((run.code, &run.text()[..]), (Some(1), "refused 10\n"), "{sheet:?}"),
        }
    }
    assert!(written > 50, "{written}");
}
