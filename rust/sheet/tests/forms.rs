//! Every record survives the way through each form; forms are told apart; errors say where they are.

use model::random::{any_list, any_word, Random};
use sheet::json::{Json, Value};
use sheet::{parse, parse_json, read, read_as, show_record, write, Form, Record};

const FORMS: [Form; 4] = [Form::Text, Form::Words, Form::Binary, Form::Json];

fn random_name(random: &mut Random) -> Option<String> {
    const LETTERS: [char; 20] = [
        'a', 'B', ' ', '"', '\\', '\n', '\r', '\t', '#', '{', '}', ',', '\0', '\x1B', '\u{7F}', '\u{85}', 'é', '螺',
        '\u{2028}', '🔩',
    ];
    (!random.one_in(3)).then(|| (0..random.below(6)).map(|_| random.pick(&LETTERS)).collect())
}

/// Any list of words with any names.
fn random_record(random: &mut Random) -> Record {
    let mut words = any_list(random);
    if random.one_in(4) {
        words.push(any_word(random));
    }
    let mut record = Record::of_words(words);
    let names = &mut record.names;
    names.colours.iter_mut().chain(&mut names.sites).for_each(|name| *name = random_name(random));
    record.claims_no_layout = random.one_in(4) && !sheet::has_layout(&record.words);
    record
}

#[test]
fn records_survive_text_and_json() {
    let mut random = Random::new(73);
    let (mut named, mut claimed) = (0, 0);
    for _ in 0..6_000 {
        let record = random_record(&mut random);
        for form in [Form::Text, Form::Json] {
            let bytes = write(&record, form).unwrap();
            assert_eq!(read_as(form, &bytes).as_ref(), Ok(&record), "{}", String::from_utf8_lossy(&bytes));
        }
        named += usize::from(record.names.sites.iter().any(Option::is_some));
        claimed += usize::from(record.claims_no_layout);
    }
    assert!(named > 1000 && claimed > 500, "{named} {claimed}");
}

#[test]
fn words_survive_every_form() {
    let mut random = Random::new(74);
    for _ in 0..6_000 {
        let record = Record::of_words(any_list(&mut random));
        for form in FORMS {
            assert_eq!(read_as(form, &write(&record, form).unwrap()), Ok(record.clone()));
        }
    }
}

#[test]
fn forms_are_told_apart() {
    let mut random = Random::new(75);
    let mut met = [0; 4];
    for _ in 0..6_000 {
        let record = random_record(&mut random);
        for (index, form) in FORMS.into_iter().enumerate() {
            let Some(bytes) = write(&record, form) else { continue };
            let has_head = record.words.first().is_some_and(|word| word >> 28 == 1);
            let read = read(&bytes).map(|read| read.words);
            // Words in bytes that don't begin with a head may look like text in another encoding.
            let may_fail = form == Form::Binary && !has_head;
            assert!(read == Ok(record.words.clone()) || may_fail && read.is_err(), "{form:?} {read:?} {record:?}");
            met[index] += 1;
        }
    }
    assert!(met.iter().all(|times| *times > 3_000), "{met:?}");
}

#[test]
fn names_and_claims_in_text() {
    let text = "colour unbounded # none\ncolour bound 3 \"a # \\\"b\\\" \\\\\" # a remark\nsite 6 4 \"\"\nsite 7 4\nrefused 10\n";
    let record = parse(text).unwrap();
    assert_eq!(record.words, [0x300000FF, 0x30000003, 0x40018004, 0x4001C004]);
    assert_eq!(record.names.colours, [None, Some("a # \"b\" \\".to_string())]);
    assert_eq!(record.names.sites, [Some(String::new()), None]);
    assert!(record.claims_no_layout);
    assert!(show_record(&record).ends_with("site 7 4\nrefused 10\n"));
}

#[test]
fn numbers_may_share_a_line() {
    let words = vec![0x10008008, 0x20000002, 0x300000FF];
    for text in
        ["0x10008008, 0x20000002, 0x300000FF", "0x10008008,0x20000002\n0x300000ff,", "0x10008008 0x20000002 0x300000FF"]
    {
        assert_eq!(sheet::encode(text), Ok(words.clone()), "{text}");
    }
}

#[test]
fn errors_in_text_say_where_they_are() {
    let at = |text: &str| parse(text).map_err(|error| (error.line, error.column));
    assert_eq!(at("slot 5 \"name\""), Err((1, 8)));
    assert_eq!(at("site 5 \"y\" 4"), Err((1, 8)));
    assert_eq!(at("site 5 4 \"y\" \"z\""), Err((1, 14)));
    assert_eq!(at("site 5 4 \"no end"), Err((1, 17)));
    assert_eq!(at("site 5 4 \"é\\q\""), Err((1, 12)));
    assert_eq!(at("site 5 4 \"\\u{110000}\""), Err((1, 11)));
    assert_eq!(at("\"site\" 5 4"), Err((1, 1)));
    assert_eq!(at("refused"), Err((1, 8)));
    assert_eq!(at("refused 8"), Err((1, 9)));
    assert_eq!(at("refused 10\nslot 5"), Err((2, 1)));
    assert_eq!(at("layout labels 0 length 0\nrefused 10"), Err((2, 9)));
    assert_eq!(at("0x20000005 slot 5"), Err((1, 12)));
}

#[test]
fn encodings() {
    let sheet_a = "head one-sided fewest gap 2 width 8\nslot 5\n";
    let words = Ok(vec![0x10008008, 0x20000005]);
    let words_of = |bytes: &[u8]| read(bytes).map(|record| record.words).map_err(|error| error.to_string());
    assert_eq!(words_of(sheet_a.as_bytes()), words);
    assert_eq!(words_of(&[b"\xEF\xBB\xBF", sheet_a.as_bytes()].concat()), words);
    assert_eq!(words_of(sheet_a.replace('\n', "\r\n").as_bytes()), words);
    let wide = Err("the text is UTF-16; UTF-8 is read".to_string());
    let sheet_a = sheet_a.replace("slot 5", "slot 5 # 螺");
    let units = |mark: &str| format!("{mark}{sheet_a}").encode_utf16().collect::<Vec<u16>>();
    for mark in ["", "\u{FEFF}"] {
        assert_eq!(words_of(&units(mark).iter().flat_map(|unit| unit.to_le_bytes()).collect::<Vec<u8>>()), wide);
        assert_eq!(words_of(&units(mark).iter().flat_map(|unit| unit.to_be_bytes()).collect::<Vec<u8>>()), wide);
    }
    let latin = words_of(b"slot 5\ncolour unbounded \"B\xFCgel\"");
    assert_eq!(latin, Err("line 2, column 20: the text is not UTF-8: byte 0xFC".to_string()));
    assert_eq!(words_of(&[8, 0x80, 0, 0x10, 5]), Err("5 bytes are not whole words of four bytes".to_string()));
    assert_eq!(words_of(b""), Ok(vec![]));
    assert!(words_of(b"slot 5\nslot 6\n\0").unwrap_err().starts_with("line 3, column 1: "));
    // Heads whose bytes begin as marks of an encoding do.
    for head in [0x1000FEFFu32, 0x1000FFFE, 0x1FBFBBEF] {
        assert_eq!(words_of(&head.to_le_bytes()), Ok(vec![head]));
    }
}

#[test]
fn json_of_sheet_a() {
    let text = r#" {"width": 8, "gap": 2, "side": "one-sided", "aim": "fewest", "slots": [2, 5, 8],
        "colours": [{"sites": [{"x": 2, "y": 4, "name": "a\u00e9\ud83d\udd29"}, {"y": 6, "x": 6}], "name": null},
                    {"bound": null, "sites": [{"x": 4, "y": 5}]}],
        "layout": {"labels": 2, "length": 19, "slots": [0, 0, 2]}} "#;
    let record = parse_json(text).unwrap();
    let sheet_a = [
        0x10008008, 0x20000002, 0x20000005, 0x20000008, 0x300000FF, 0x40008004, 0x40018006, 0x300000FF, 0x40010005,
        0x80400013, 0x90000000, 0x90000000, 0x90000002,
    ];
    assert_eq!(record.words, sheet_a);
    assert_eq!(record.names.sites, [Some("aé🔩".to_string()), None, None]);
    assert_eq!(record.names.colours, [None, None]);
}

/// A charge word is a member after the width, one of 0 too; without the word there is no member. Where the word is out of
/// its place, the list is shown as words.
#[test]
fn json_of_charges() {
    let rest = [0x20000002, 0x300000FF, 0x40008004];
    let shown = |words: &[u32]| sheet::show_json(&Record::of_words(words.to_vec()));
    for (word, member) in [(0x50000000, ", \"charge\": 0,\n"), (0x50003FFF, ", \"charge\": 16383,\n")] {
        let words = [&[0x10008008, word], &rest[..]].concat();
        assert!(shown(&words).contains(&format!("\"width\": 8{member}")), "{}", shown(&words));
        assert_eq!(parse_json(&shown(&words)).map(|record| record.words), Ok(words));
    }
    assert!(!shown(&[&[0x10008008], &rest[..]].concat()).contains("charge"));
    let out_of_place: [&[u32]; 5] = [
        &[0x10008008, 0x50000003, 0x50000003],
        &[0x10008008, 0x20000002, 0x50000003],
        &[0x10008008, 0x50004003],
        &[0x10008008, 0x300000FF, 0x50000003, 0x40008004],
        &[0x50000003, 0x10008008],
    ];
    for words in out_of_place {
        assert!(shown(words).starts_with("{\n  \"words\": ["), "{}", shown(words));
        for form in FORMS {
            let record = Record::of_words(words.to_vec());
            assert_eq!(read_as(form, &write(&record, form).unwrap()), Ok(record), "{form:?}");
        }
    }
}

#[test]
fn errors_in_json_say_where_they_are() {
    let at = |text: &str| parse_json(text).map_err(|error| (error.line, error.column));
    let head = r#"{"side": "one-sided", "aim": "fewest", "gap": 2, "width": 8, "slots": [], "colours": []"#;
    assert!(at(&format!("{head}}}")).is_ok());
    assert_eq!(at(""), Err((1, 1)));
    assert_eq!(at("[1]"), Err((1, 1)));
    assert_eq!(at("{\n  \"slots\": [1,\n 20000]}"), Err((1, 1)), "the side is missing");
    assert_eq!(at(&head.replace("\"gap\": 2", "\n\"gap\": 0")), Err((2, 49)), "no closing brace");
    assert_eq!(at(&(head.replace("\"gap\": 2", "\n\"gap\": 0") + "}")), Err((2, 8)));
    assert_eq!(at(&(head.replace("\"slots\": []", "\n\"slots\": [2, 20000]") + "}")), Err((2, 14)));
    assert_eq!(at(&(head.replace("\"slots\": []", "\n\"slots\": [2.5]") + "}")), Err((2, 11)));
    assert_eq!(at(&(head.replace("\"slots\": []", "\n\"slots\": [-1]") + "}")), Err((2, 11)));
    assert_eq!(at(&(head.replace("\"slots\"", "\n\"slot\"") + "}")), Err((2, 9)));
    for charge in ["16384", "-1", "2.5", "null", "\"3\""] {
        assert_eq!(at(&format!("{head},\n\"charge\": {charge}}}")), Err((2, 11)), "{charge}");
    }
    assert!(at(&format!("{head}, \"charge\": 0}}")).is_ok());
    assert_eq!(at(&format!("{head},\n\"gap\": 3}}")), Err((2, 1)), "twice");
    assert_eq!(at(&format!("{head},\n\"refused\": 9}}")), Err((2, 12)));
    assert_eq!(at(&format!("{head}}}\nx")), Err((2, 1)));
    assert_eq!(at(r#"{"words": ["20000005"]}"#), Err((1, 12)));
    assert_eq!(at(r#"{"words": [4294967296]}"#), Err((1, 12)));
    assert_eq!(at(r#"{"words": [], "names": {"colours": ["a"], "sites": []}}"#), Err((1, 36)));
    assert_eq!(at(&"[".repeat(100_000)), Err((1, 66)));
}

#[test]
fn json_values() {
    let value = |text: &str| Json::parse(text).map(|json| json.value).ok();
    assert_eq!(value(" true "), Some(Value::Bool(true)));
    assert_eq!(value("[]"), Some(Value::List(vec![])));
    assert_eq!(value(r#""\"\\\/\b\f\n\r\t\u0041""#), Some(Value::String("\"\\/\x08\x0C\n\r\tA".to_string())));
    for number in ["0", "-0", "10", "1.5", "1e5", "-1.25E-7"] {
        assert_eq!(value(number), Some(Value::Number(number.to_string())));
    }
    for wrong in ["01", "+1", "1.", ".5", "1e", "--1", "tru", "nul", "\"\t\"", "\"\\x\"", "\"\\ud800\"", "{\"a\" 1}"] {
        assert_eq!(value(wrong), None, "{wrong}");
    }
    for wrong in
        ["\"\\ud800\\u0041\"", "\"\\udc00\"", "\"\\u12\"", "[1,]", "{,}", "{\"a\":1,}", "[1 2]", "\"a", "{", "["]
    {
        assert_eq!(value(wrong), None, "{wrong}");
    }
}

/// Bytes changed in a few places: they are read or refused, and what is read is written and read again as it was.
#[test]
fn changed_bytes_are_read_or_refused() {
    let mut random = Random::new(76);
    let (mut accepted, mut refused) = (0, 0);
    for _ in 0..20_000 {
        let record = random_record(&mut random);
        let form = random.pick(&FORMS);
        let Some(mut bytes) = write(&record, form) else { continue };
        for _ in 0..random.between(1, 3) {
            let place = random.below(bytes.len() as u32 + 1) as usize;
            let byte = random.pick(b"\"\\{}[],:#0x19 \n\r\t\0\x7F\x80\xC3\xFFlesu");
            match random.below(3) {
                0 => bytes.insert(place, byte),
                1 if place < bytes.len() => bytes[place] = byte,
                _ => bytes.truncate(place),
            }
        }
        match read(&bytes) {
            Ok(record) => {
                let text = write(&record, Form::Text).unwrap();
                assert_eq!(read_as(Form::Text, &text), Ok(record));
                accepted += 1;
            }
            Err(error) => {
                assert!(!error.to_string().is_empty());
                refused += 1;
            }
        }
    }
    assert!(accepted > 1_000 && refused > 1_000, "{accepted} {refused}");
}
