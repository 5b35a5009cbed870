//! `backbone twin`: the twin of the plain model in every form, names kept, and its refusals with exit code 1.

mod common;

use common::{examples, run, shell, stored_a, SHEET_A};
use model::random::{any_stored, Random};
use model::twin;
use sheet::{Form, Record};

const FORMS: [(&str, Form); 4] =
    [("text", Form::Text), ("words", Form::Words), ("bin", Form::Binary), ("json", Form::Json)];

fn two_sided(text: &str) -> String {
    text.replace("one-sided", "two-sided")
}

/// Document 01's two-sided example with its layout: one-sided the same ties have length 19, as sheet A's best has.
#[test]
fn sheet_a_in_every_form() {
    let name = |text: &str| text.replace("site 6 6", "site 6 6 \"front bolt\"");
    let (stored, expected) = (two_sided(&name(&stored_a(2, 25, [0, 0, 2]))), name(&stored_a(2, 19, [0, 0, 2])));
    let (stored, expected) = (sheet::parse(&stored).unwrap(), sheet::parse(&expected).unwrap());
    for (_, from) in FORMS {
        // Only text and JSON have names.
        let input = sheet::read(&sheet::write(&stored, from).unwrap()).unwrap();
        let expected = Record { names: input.names.clone(), ..expected.clone() };
        for (name, to) in FORMS {
            let run = run(["twin", "--to", name, "-"], &sheet::write(&input, from).unwrap());
            assert_eq!((run.code, &run.err[..]), (Some(0), ""));
            assert_eq!(run.out, sheet::write(&expected, to).unwrap(), "{from:?} to {to:?}");
        }
    }
}

#[test]
fn without_a_form_it_is_text_and_a_one_sided_sheet_comes_back() {
    let expected = stored_a(2, 19, [0, 0, 2]);
    for stored in [two_sided(&stored_a(2, 25, [0, 0, 2])), expected.clone()] {
        let run = run(["twin", "-"], stored.as_bytes());
        assert_eq!((run.code, run.text(), &run.err[..]), (Some(0), expected.clone(), ""));
    }
    // Lawful, and not the best: it is not laid out anew.
    let worse = stored_a(3, 18, [0, 1, 2]);
    assert_eq!(run(["twin", "-"], worse.as_bytes()).text(), worse);
}

/// The number on standard output; the meaning and what it comes from on standard error.
#[test]
fn refusals() {
    let layout = "layout labels 2 length 25\ntie 0\ntie 0\ntie 1\n";
    let cases = [
        (String::new(), 1, "there is no word"),
        (format!("slot 5\n{layout}"), 1, "word 0 is 0x20000005, no head"),
        (stored_a(2, 25, [0, 0, 2]).replace("slot 5", "tie 1"), 2, "word 2 is 0x90000001: a tie stands in the sheet"),
        (
            stored_a(2, 25, [0, 0, 2]).replace("slot 5", "slot 2"),
            4,
            "slot 0 has height 2, and slot 1 after it height 2",
        ),
        (SHEET_A.to_string(), 11, "there is no word of a layout"),
        (format!("{SHEET_A}refused 10\n"), 11, "there is no word of a layout"),
        (stored_a(2, 25, [0, 0, 3]), 11, "site 2 is tied to slot 3, and the sheet has 3 slots"),
        (format!("{SHEET_A}{layout}"), 13, "rule 4: the vertical of site 1 meets the backbone at slot 1, at x 6"),
        (stored_a(2, 24, [0, 0, 2]), 13, "rule 6: the layout states 2 labels and length 24"),
    ];
    for (text, number, cause) in cases {
        let text = two_sided(&text);
        let plain = run(["twin", "-"], text.as_bytes());
        assert_eq!((plain.code, plain.text()), (Some(1), format!("refused {number}\n")), "{text}");
        assert!(plain.err.contains(&format!("refused {number}: ")) && plain.err.contains(cause), "{}", plain.err);
        let json = run(["twin", "--to", "json", "-"], text.as_bytes()).text();
        let json = sheet::json::Json::parse(&json).unwrap();
        assert_eq!(json.member("refused").and_then(|refused| refused.whole()), Some(number));
    }
}

#[test]
fn twins_are_those_of_the_plain_model() {
    let mut random = Random::new(120);
    let (mut changed, mut refused) = (0, 0);
    for _ in 0..1_000 {
        let words = any_stored(&mut random);
        let run =
            run(["twin", "--to", "words", "-"], &sheet::write(&Record::of_words(words.clone()), Form::Words).unwrap());
        match twin::words(&words) {
            Ok(twin) => {
                assert_eq!((run.code, sheet::read(&run.out).unwrap().words), (Some(0), twin.clone()), "{words:x?}");
                changed += usize::from(twin != words);
            }
            Err(refusal) => {
                assert_eq!((run.code, run.text()), (Some(1), format!("refused {refusal}\n")), "{words:x?}");
                refused += 1;
            }
        }
    }
    assert!(changed > 40 && refused > 40, "{changed} {refused}");
}

/// The examples' twins stand beside them, and a search finds their two-sided layouts best.
#[test]
fn examples_have_their_twins() {
    for name in ["a_two_sided", "gearbox"] {
        let file = |ending: &str| std::fs::read_to_string(examples().join(format!("{name}{ending}"))).unwrap();
        let stored = sheet::encode(&file(".txt")).unwrap();
        let expected = twin::words(&stored).unwrap();
        assert_eq!(sheet::encode(&file("_twin.txt")).as_ref(), Ok(&expected), "{name}");
        let (sheet, slot_of, _) = model::rules::split(&stored).unwrap();
        let found = model::ranked::rank(&sheet, u64::MAX).flatten().unwrap();
        assert_eq!(found.slot_of, slot_of, "{name}");
        let line = format!("$BACKBONE twin '{}'", examples().join(format!("{name}.txt")).display());
        assert_eq!(sheet::encode(&shell(&line, b"").text()), Ok(expected), "{name}");
    }
}
