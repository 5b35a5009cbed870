//! `backbone lay-out`: document 01's lines, its refusals with exit code 1, and the stored sheet in every form.

mod common;

use common::{examples, run, stored_a, SHEET_A};

/// What document 01 says that the program prints for sheet A.
const LINES_A: &str = "labels 2 length 19\nsite 0 colour 0 slot 0\nsite 1 colour 0 slot 0\nsite 2 colour 1 slot 2\n";

#[test]
fn sheet_a_in_every_form() {
    let words = "0x10008008, 0x20000002, 0x20000005, 0x20000008, 0x300000FF, 0x40008004, 0x40018006, 0x300000FF, \
                 0x40010005";
    let json = r#"{"side": "one-sided", "aim": "fewest", "gap": 2, "width": 8, "slots": [2, 5, 8], "colours":
        [{"sites": [{"x": 2, "y": 4}, {"x": 6, "y": 6}]}, {"sites": [{"x": 4, "y": 5}]}]}"#;
    let bytes: Vec<u8> = sheet::encode(words).unwrap().iter().flat_map(|word| word.to_le_bytes()).collect();
    let marked = [b"\xEF\xBB\xBF", SHEET_A.as_bytes()].concat();
    let inputs: [&[u8]; 5] = [SHEET_A.as_bytes(), words.as_bytes(), json.as_bytes(), &bytes, &marked];
    for input in inputs {
        let run = run(["lay-out", "-"], input);
        assert_eq!((run.code, &run.text()[..], &run.err[..]), (Some(0), LINES_A, ""));
    }
}

/// Document 01's drawn examples, changes to sheet A, and what the program prints; gap 3 by document 02.
#[test]
fn drawn_examples() {
    let shortest = run(["lay-out", "-"], SHEET_A.replace("fewest", "shortest").as_bytes());
    let lines = "labels 3 length 18\nsite 0 colour 0 slot 0\nsite 1 colour 0 slot 1\nsite 2 colour 1 slot 2\n";
    assert_eq!((shortest.code, &shortest.text()[..]), (Some(0), lines));
    for gap in ["gap 3", "gap 4"] {
        let run = run(["lay-out", "-"], SHEET_A.replace("gap 2", gap).as_bytes());
        assert_eq!((run.code, &run.text()[..]), (Some(1), "refused 10\n"));
        assert!(run.err.contains("no layout obeys rules 1 to 5"), "{}", run.err);
    }
    let head = run(["lay-out", "-"], b"0x10008008");
    assert_eq!((head.code, &head.text()[..]), (Some(0), "labels 0 length 0\n"));
}

/// Every example, the large ones too, as the plain table finds it.
#[test]
fn every_example() {
    let mut met = 0;
    for entry in std::fs::read_dir(examples()).unwrap() {
        let path = entry.unwrap().path();
        if path.extension().is_none_or(|ending| ending != "txt") {
            continue;
        }
        let words = sheet::encode(&std::fs::read_to_string(&path).unwrap()).unwrap();
        let sheet = model::sheet::read(backbone::split_stored(&words).0).unwrap();
        let (mut work, mut answer) = (vec![0; sheet.work_words() as usize], vec![0; sheet.sites.len() + 1]);
        let refusal = model::maker::make(&sheet.words(), &mut work, &mut answer);
        let run = run([std::ffi::OsStr::new("lay-out"), path.as_os_str()], b"");
        let first = run.text().lines().next().unwrap_or_default().to_string();
        if refusal == 0 {
            let numbers = format!("labels {} length {}", answer[0] >> 21 & 0x7F, answer[0] & 0x1F_FFFF);
            let slot = |line: &str| line.rsplit(' ').next().unwrap().parse::<u32>().unwrap();
            let slots: Vec<u32> = run.text().lines().skip(1).map(slot).collect();
            let wanted: Vec<u32> = answer[1..].iter().map(|word| word & 0xFF).collect();
            assert_eq!((run.code, first, slots), (Some(0), numbers, wanted), "{}", path.display());
        } else {
            assert_eq!((run.code, first), (Some(1), format!("refused {refusal}")), "{}", path.display());
        }
        met += 1;
    }
    assert!(met >= 12, "{met}");
}

#[test]
fn refusals_have_number_meaning_and_cause() {
    let head = "head one-sided fewest gap 2 width 8\n";
    let many = format!("{head}{}", (0..49).map(|height| format!("slot {height}\n")).collect::<String>());
    let cases = [
        ("".to_string(), 1, "there is no word"),
        ("slot 5\n".to_string(), 1, "word 0 is 0x20000005, no head"),
        ("0x10008000\n".to_string(), 1, "the head's width is 0"),
        (format!("{head}site 2 4\n"), 2, "word 1 is 0x40008004: a site stands before the first colour"),
        (format!("{head}{head}"), 2, "word 1 is 0x10008008: a head stands after the first word"),
        (many, 3, "there are 49 slots, at most 48 are allowed"),
        (format!("{head}slot 5\nslot 5\n"), 4, "slot 0 has height 5, and slot 1 after it height 5"),
        (format!("{head}colour unbounded\nsite 9 4\n"), 5, "site 0 has x 9, and the width is 8"),
        (format!("{head}colour unbounded\nsite 2 4\nsite 2 5\n"), 6, "sites 0 and 1 both have x 2"),
        (format!("{head}colour bound 7\ncolour bound 8\n"), 7, "the bounds 7 of colour 0, 8 of colour 1 give 72"),
        (format!("{head}colour unbounded\nsite 2 4\n"), 10, "no layout obeys rules 1 to 5"),
        (SHEET_A.replace("one-sided", "two-sided"), 18, "word 0 is 0x18008008, a two-sided head"),
    ];
    for (text, number, cause) in cases {
        let plain = run(["lay-out", "-"], text.as_bytes());
        assert_eq!((plain.code, plain.text()), (Some(1), format!("refused {number}\n")), "{text}");
        assert!(plain.err.contains(cause), "{cause}: {}", plain.err);
        let json = sheet::json::Json::parse(&run(["lay-out", "--format=json", "-"], text.as_bytes()).text()).unwrap();
        assert_eq!(json.member("refused").and_then(|refused| refused.whole()), Some(number));
    }
}

/// Stored or not, whether it has a layout or not; and what can be done is said.
#[test]
fn two_sided_sheets_are_no_longer_laid_out() {
    for sheet in [SHEET_A.to_string(), stored_a(2, 25, [0, 0, 2]), SHEET_A.replace("gap 2", "gap 4")] {
        let run = run(["lay-out", "-"], sheet.replace("one-sided", "two-sided").as_bytes());
        assert_eq!((run.code, &run.text()[..]), (Some(1), "refused 18\n"));
        assert!(
            run.err.contains("refused 18: the sheet is two-sided") && run.err.contains("`backbone twin`"),
            "{}",
            run.err
        );
    }
}

#[test]
fn stored_sheets_in_every_form() {
    let named = SHEET_A.replace("site 6 6", "site 6 6 \"a \\\"b\\\"\"");
    let stored = named.clone() + "layout labels 2 length 19\ntie 0\ntie 0\ntie 2\n";
    let text = run(["lay-out", "--format", "stored", "-"], named.as_bytes());
    assert_eq!((text.code, text.text()), (Some(0), stored.clone()));
    let wanted = sheet::parse(&stored).unwrap();
    for format in ["words", "bin", "json"] {
        let run = run(["lay-out", "-", "--format", format], named.as_bytes());
        let record = sheet::read(&run.out).unwrap();
        assert_eq!((run.code, &record.words), (Some(0), &wanted.words), "{format}");
        assert_eq!(record.names == wanted.names, format == "json", "names are no part of words");
    }
}

#[test]
fn of_a_stored_sheet_the_sheet_is_laid_out_anew() {
    for stored in [stored_a(3, 18, [0, 1, 2]), stored_a(0, 0, [9, 9, 9]), format!("{SHEET_A}refused 10\n")] {
        let run = run(["lay-out", "-"], stored.as_bytes());
        assert_eq!((run.code, &run.text()[..]), (Some(0), LINES_A));
    }
}
