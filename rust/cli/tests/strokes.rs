//! `backbone strokes`: the lines of sheet A by hand, those of the plain model in text and JSON, every refusal and exit code.

mod common;

use common::{assert_unwritten_is_3, best_a, examples, refused_stored, run, shell, stored_a, Run};
use model::random::{any_stored, Random};
use model::strokes::{stroke_at, strokes, Stroke};
use sheet::json::{Json, Value};
use sheet::{Form, Record};

/// Document 01's sheet A with its best layout: width 8, slots at 2, 5 and 8, sites at (2,4), (6,6) and (4,5), in eighths.
const LINES_A: &str = "\
bone 0.25 0.25 1 0.25
bone 0.5 1 1 1
drop 0.25 0.5 0.25 0.25
drop 0.75 0.75 0.75 0.25
drop 0.5 0.625 0.5 1
";

#[test]
fn sheet_a_in_every_form() {
    let stored = sheet::parse(&best_a()).unwrap();
    for form in [Form::Text, Form::Words, Form::Binary, Form::Json] {
        let run = run(["strokes", "-"], &sheet::write(&stored, form).unwrap());
        assert_eq!((run.code, &run.text()[..], &run.err[..]), (Some(0), LINES_A, ""), "{form:?}");
    }
    for (place, line) in LINES_A.lines().enumerate() {
        let run = run(["strokes", "--format=text", "--place", &place.to_string(), "-"], best_a().as_bytes());
        assert_eq!((run.code, run.text(), &run.err[..]), (Some(0), format!("{line}\n"), ""));
    }
}

/// Backbones reach from edge to edge.
#[test]
fn a_two_sided_sheet() {
    let stored = stored_a(2, 25, [0, 0, 2]).replace("one-sided", "two-sided");
    let expected = LINES_A.replace("bone 0.25", "bone 0").replace("bone 0.5", "bone 0");
    assert_eq!(run(["strokes", "-"], stored.as_bytes()).text(), expected);
    let file = examples().join("a_two_sided.txt");
    assert_eq!(run([std::ffi::OsStr::new("strokes"), file.as_os_str()], b"").text(), expected);
}

/// No stroke is no refusal, unless a place is asked for.
#[test]
fn a_sheet_without_strokes() {
    let head = "head one-sided fewest gap 2 width 8\nlayout labels 0 length 0\n";
    assert_eq!(run(["strokes", "-"], head.as_bytes()), Run { code: Some(0), out: Vec::new(), err: String::new() });
    assert_eq!(run(["strokes", "--format", "json", "-"], head.as_bytes()).text(), "{\"strokes\": [\n]}\n");
    let refused = run(["strokes", "--place", "0", "-"], head.as_bytes());
    assert_eq!((refused.code, &refused.text()[..]), (Some(1), "refused 14\n"));
}

/// awk reads the lines: the lengths, eight times as many units, add up to the one that the layout states.
#[test]
fn lines_are_for_awk() {
    let sum = r#"$BACKBONE strokes - | awk '{ x = $4 - $2; y = $5 - $3; sum += x + (y < 0 ? -y : y) } END { print 8 * sum }'"#;
    assert_eq!(shell(sum, best_a().as_bytes()).text(), "19\n");
}

/// The number on standard output; the meaning and what it comes from on standard error. Each comes before 14.
#[test]
fn refusals() {
    let past = &["--place", "5"][..];
    let all = refused_stored().into_iter().flat_map(|case| [(case.clone(), &[][..]), (case, past)]);
    let past_last =
        [(past, "strokes: 5; places count from 0"), (&["--place", "18446744073709551615"], "past the last")];
    let past_last = past_last.map(|(options, cause)| ((best_a(), 14, cause), options));
    for ((text, number, cause), options) in all.chain(past_last) {
        let with = |more: &[&'static str]| run(["strokes", "-"].iter().chain(options).chain(more), text.as_bytes());
        let plain = with(&[]);
        assert_eq!((plain.code, plain.text()), (Some(1), format!("refused {number}\n")), "{text}");
        assert!(plain.err.contains(&format!("refused {number}: ")) && plain.err.contains(cause), "{}", plain.err);
        let json = with(&["--format", "json"]);
        let told = Json::parse(&json.text()).unwrap();
        assert_eq!((json.code, told.member("refused").and_then(Json::whole)), (Some(1), Some(number)), "{text}");
    }
}

#[test]
fn output_that_cannot_be_written_is_3() {
    assert_unwritten_is_3("strokes");
}

/// The lines that stand beside the gearbox's twin are the plain model's, and the command's.
#[test]
fn an_example_has_its_strokes() {
    let file = |ending: &str| examples().join(format!("gearbox_twin.{ending}"));
    let read = |ending: &str| std::fs::read_to_string(file(ending)).unwrap();
    let expected: String = strokes(&sheet::encode(&read("txt")).unwrap()).unwrap().iter().map(line).collect();
    assert_eq!(read("strokes"), expected);
    assert_eq!(run([std::ffi::OsStr::new("strokes"), file("txt").as_os_str()], b"").text(), expected);
}

/// A stroke of the plain model as a line: coordinates are eighths, so three decimals hold them.
fn line(stroke: &Stroke) -> String {
    let kind = if stroke.is_drop { "drop" } else { "bone" };
    let number = |points: &f32| format!("{points:.3}").trim_end_matches('0').trim_end_matches('.').to_string();
    format!("{kind} {}\n", stroke.ends.iter().map(number).collect::<Vec<_>>().join(" "))
}

/// The same line from a stroke of the JSON form.
fn line_of_json(stroke: &Json) -> String {
    let end = |name: &str| {
        let number = |axis: &str| match &stroke.member(name).and_then(|end| end.member(axis)).unwrap().value {
            Value::Number(digits) => digits.clone(),
            other => panic!("{other:?}"),
        };
        format!("{} {}", number("x"), number("y"))
    };
    format!("{} {} {}\n", stroke.member("kind").and_then(Json::string).unwrap(), end("from"), end("to"))
}

#[test]
fn strokes_are_those_of_the_plain_model() {
    let mut random = Random::new(121);
    let (mut drawn, mut refused) = (0, 0);
    for _ in 0..500 {
        let words = any_stored(&mut random);
        let input = sheet::write(&Record::of_words(words.clone()), Form::Words).unwrap();
        let (text, json) = (run(["strokes", "-"], &input), run(["strokes", "--format", "json", "-"], &input).text());
        match strokes(&words) {
            Ok(all) => {
                let expected: String = all.iter().map(line).collect();
                assert_eq!((text.code, text.text()), (Some(0), expected.clone()), "{words:x?}");
                let items = Json::parse(&json).unwrap().member("strokes").unwrap().items().unwrap().to_vec();
                assert_eq!(items.iter().map(line_of_json).collect::<String>(), expected, "{words:x?}");
                drawn += 1;
            }
            Err(refusal) => {
                assert_eq!((text.code, text.text()), (Some(1), format!("refused {refusal}\n")), "{words:x?}");
                refused += 1;
            }
        }
        let place = random.below(8) as usize;
        let one = run(["strokes", "--place", &place.to_string(), "-"], &input);
        let expected = stroke_at(&words, place).map(|stroke| line(&stroke));
        assert_eq!(one.text(), expected.unwrap_or_else(|refusal| format!("refused {refusal}\n")), "{words:x?}");
    }
    assert!(drawn > 100 && refused > 100, "{drawn} {refused}");
}
