//! `backbone convert`: every form to every form, names kept where the form has them.

mod common;

use common::{examples, run, SHEET_A};
use sheet::{Form, Record};

const FORMS: [(&str, Form); 4] =
    [("text", Form::Text), ("words", Form::Words), ("bin", Form::Binary), ("json", Form::Json)];

fn convert(to: &str, input: &[u8]) -> Vec<u8> {
    let run = run(["convert", "--to", to, "-"], input);
    assert_eq!((run.code, &run.err[..]), (Some(0), ""), "{run:?}");
    run.out
}

#[test]
fn every_form_to_every_form() {
    let stored = SHEET_A.to_string() + "layout labels 2 length 19\ntie 0\ntie 0\ntie 2\n0x60000000\n";
    let refused = "0x20000005\nslot 5\n".to_string();
    for text in [SHEET_A.to_string(), stored, refused, String::new()] {
        let record = Record::of_words(sheet::encode(&text).unwrap());
        for (_, from) in FORMS {
            // An empty file has no form; it is an empty list in all of them but JSON.
            let input = sheet::write(&record, from).unwrap();
            for (name, to) in FORMS {
                assert_eq!(convert(name, &input), sheet::write(&record, to).unwrap(), "{from:?} to {to:?}: {text}");
            }
        }
    }
}

#[test]
fn names_and_claims_are_kept_in_text_and_json() {
    let text =
        SHEET_A.replace("site 2 4", "site 2 4 \"B\u{fc}gel \\\"7\\\"\"").replacen("unbounded", "bound 3 \"screws\"", 1);
    let text = text + "refused 10\n";
    let json = convert("json", text.as_bytes());
    assert_eq!(String::from_utf8(convert("text", &json)), Ok(text.clone()));
    let words = String::from_utf8(convert("words", text.as_bytes())).unwrap();
    assert!(words.starts_with("0x10008008\n0x20000002\n") && words.ends_with("\n0x40010005\nrefused 10\n"), "{words}");
    assert!(sheet::parse(&words).unwrap().claims_no_layout);
    let bytes = run(["convert", "--to", "bin", "-"], text.as_bytes());
    assert_eq!((bytes.code, bytes.out.len()), (Some(3), 0));
    assert!(bytes.err.contains("no place for 'refused 10'"), "{}", bytes.err);
}

#[test]
fn words_of_the_examples() {
    let mut met = 0;
    for entry in std::fs::read_dir(examples()).unwrap() {
        let path = entry.unwrap().path();
        let words = path.with_extension("words");
        if path.extension().is_some_and(|ending| ending == "txt") && words.exists() {
            let run = run(["convert".as_ref(), "--to".as_ref(), "words".as_ref(), path.as_os_str()], b"");
            assert_eq!(run.text(), std::fs::read_to_string(&words).unwrap(), "{}", path.display());
            met += 1;
        }
    }
    assert!(met >= 12, "{met}");
}
