//! `backbone check`: each finding on document 01's sheet A, all of them against a plain search on random stored sheets,
//! and each format taken apart again.

mod common;

use common::{run, stored_a, Folder, SHEET_A};
use model::random::{damage, invented_layout, small_sheet, Random};
use model::rules::{layout_words, split, Ties};
use model::search;
use model::sheet::{read, Sheet};
use sheet::json::Json;
use sheet::{Form, Record};
use std::collections::BTreeMap;

/// The first line that `check` writes of one stored sheet, without the file's name, and the exit code.
fn check(text: &str) -> (Option<i32>, String) {
    let run = run(["check", "-"], text.as_bytes());
    let line = run.text().lines().next().unwrap_or_default().to_string();
    (run.code, line.strip_prefix("standard input: ").unwrap_or(&line).to_string())
}

#[test]
fn findings_of_lawful_layouts_and_of_claims() {
    let no_layout = SHEET_A.replace("gap 2", "gap 4");
    hold(&[
        (stored_a(2, 19, [0, 0, 2]), 0, "best"),
        (stored_a(2, 19, [2, 2, 0]), 0, "equal: site 0 has slot 2, in the first of the equals slot 0"),
        (
            stored_a(3, 18, [0, 1, 2]),
            1,
            "not best: 1 label more, 1 unit (0.125 points, 0.044 mm) shorter; best: labels 2 length 19",
        ),
        (
            stored_a(2, 19, [0, 0, 2]).replace("fewest", "shortest"),
            1,
            "not best: 1 label fewer, 1 unit (0.125 points, 0.044 mm) longer; best: labels 3 length 18",
        ),
        (format!("{SHEET_A}refused 10\n"), 1, "false no layout: best: labels 2 length 19"),
        (format!("{no_layout}refused 10\n"), 0, "true no layout"),
    ]);
}

/// Sheet A two-sided has 2 labels and length 25 with slots 0, 0, 2; whether that is best is not said.
#[test]
fn findings_of_two_sided_sheets() {
    let two_sided = |text: String| text.replace("one-sided", "two-sided");
    let no_layout = SHEET_A.replace("gap 2", "gap 4");
    let refused = |head: &str| {
        let meaning = "the sheet is two-sided, and such sheets are no longer laid out";
        format!("refused 18: {meaning}: word 0 is 0x{head}, a two-sided head")
    };
    hold(&[
        (
            two_sided(stored_a(2, 25, [0, 0, 2])),
            0,
            "lawful: two-sided sheets are no longer laid out, so that it is best is not said",
        ),
        (
            two_sided(stored_a(2, 25, [0, 0, 1])),
            1,
            "unlawful: rule 4: the vertical of site 1 meets the backbone at slot 1, at x 6; \
             two-sided sheets are no longer laid out",
        ),
        (
            two_sided(stored_a(2, 19, [0, 0, 2])),
            1,
            "unlawful: rule 6: the layout states 2 labels and length 19, but has 2 labels and length 25; \
             two-sided sheets are no longer laid out",
        ),
        (two_sided(format!("{SHEET_A}refused 10\n")), 1, &refused("18008008")),
        (two_sided(format!("{no_layout}refused 10\n")), 1, &refused("18010008")),
        (
            two_sided(SHEET_A.to_string()),
            1,
            "refused 11: there is no layout, or it is not one tie to a slot for each site: there is no word of a layout",
        ),
    ]);
    let strict = run(["check", "--strict", "-"], two_sided(stored_a(2, 25, [0, 0, 2])).as_bytes());
    assert_eq!(strict.code, Some(0), "a lawful layout is no finding");
}

/// What an engine would say of a two-sided sheet is not asked: the file would be there if it were.
#[test]
fn engines_are_not_asked_about_two_sided_sheets() {
    let folder = Folder::new("not-asked");
    let (sheet, marker) = (stored_a(2, 25, [0, 0, 2]).replace("one-sided", "two-sided"), folder.path("asked"));
    let engine = format!("touch '{marker}'; echo refused 10");
    let run = run(["check", "--engine", &engine, "-"], sheet.as_bytes());
    assert_eq!(run.code, Some(1));
    assert!(run.text().starts_with("standard input: refused 18: the sheet is two-sided"), "{}", run.text());
    assert!(!std::path::Path::new(&marker).exists());
}

/// Each rule and refusal that sheet A can show.
#[test]
fn findings_of_unlawful_layouts_and_of_refusals() {
    hold(&[
        (
            stored_a(2, 16, [0, 0, 1]),
            1,
            "unlawful: rule 4: the vertical of site 1 meets the backbone at slot 1, at x 6; best: labels 2 length 19",
        ),
        (
            stored_a(1, 13, [0, 0, 0]),
            1,
            "unlawful: rule 1: sites 0 and 2 share slot 0, but their colours are 0 and 1; best: labels 2 length 19",
        ),
        (
            stored_a(2, 18, [2, 2, 0]),
            1,
            "unlawful: rule 6: the layout states 2 labels and length 18, but has 2 labels and length 19; \
             best: labels 2 length 19",
        ),
        (
            stored_a(2, 16, [0, 0, 1]).replace("gap 2", "gap 4"),
            1,
            "unlawful: rule 3: the backbones at slots 0 and 1 lie 3 apart, less than the gap 4; the sheet has no layout",
        ),
        (
            SHEET_A.to_string(),
            1,
            "refused 11: there is no layout, or it is not one tie to a slot for each site: there is no word of a layout",
        ),
        (
            stored_a(2, 19, [0, 0, 3]),
            1,
            "refused 11: there is no layout, or it is not one tie to a slot for each site: \
             site 2 is tied to slot 3, and the sheet has 3 slots",
        ),
        (
            stored_a(2, 19, [0, 0, 2]).replace("width 8", "width 5"),
            1,
            "refused 5: a site's x is above the width: site 1 has x 6, and the width is 5",
        ),
    ]);
}

#[test]
fn equals_are_findings_where_that_is_asked_for() {
    let strict = |stored: String| run(["check", "--strict", "-"], stored.as_bytes()).code;
    assert_eq!(strict(stored_a(2, 19, [2, 2, 0])), Some(1), "an equal");
    assert_eq!(strict(stored_a(2, 19, [0, 0, 2])), Some(0), "the best");
}

/// Holds stored sheets to the exit code and the line that a check gives.
fn hold(cases: &[(String, i32, &str)]) {
    for (stored, code, line) in cases {
        assert_eq!(check(stored), (Some(*code), line.to_string()), "{stored}");
    }
}

/// The sites and slots that a finding names, as JSON gives them.
#[test]
fn sites_and_slots_of_findings() {
    let bounded = SHEET_A.replacen("colour unbounded", "colour bound 1", 1);
    let layout = |labels: u32, length: u32, [a, b, c]: [u8; 3]| {
        format!("layout labels {labels} length {length}\ntie {a}\ntie {b}\ntie {c}\n")
    };
    let cases = [
        (stored_a(1, 13, [0, 0, 0]), "1", "[0, 2]", "[0]"),
        (bounded + &layout(3, 18, [0, 1, 2]), "2", "[0, 1]", "[0, 1]"),
        (stored_a(2, 16, [0, 0, 1]).replace("gap 2", "gap 4"), "3", "[0, 1, 2]", "[0, 1]"),
        (stored_a(2, 16, [0, 0, 1]), "4", "[1]", "[1]"),
        (stored_a(2, 19, [0, 0, 3]), "11", "[2]", "[3]"),
        (stored_a(2, 19, [0, 0, 2]).replace("slot 5", "slot 1"), "4", "", "[0, 1]"),
        (stored_a(2, 19, [0, 0, 2]).replace("site 6 6", "site 2 6"), "6", "[0, 1]", ""),
    ];
    for (stored, number, sites, slots) in cases {
        let text = run(["check", "--format", "json", "-"], stored.as_bytes()).text();
        let member = |name: &str, value: &str| value.is_empty() || text.contains(&format!("\"{name}\": {value},"));
        assert!(member("rule", number) || member("refusal", number), "{number}: {text}");
        assert!(member("sites", sites) && member("slots", slots), "{sites} {slots}: {text}");
        assert!(!sites.is_empty() || !text.contains("\"sites\": ["), "{text}");
    }
}

/// A stored sheet as an engine might write it: best, lawful, invented, damaged, or a claim.
fn engine(random: &mut Random) -> Record {
    let sheet = small_sheet(random);
    let mut words = sheet.words();
    let mut claims_no_layout = false;
    match (random.below(8), search::find(&sheet)) {
        // Many small sheets have no layout; that is said of some.
        (0..=3, None) => return engine(random),
        (0, _) | (4..=6, None) => claims_no_layout = true,
        (1, Some(found)) => words.extend(layout_words(&sheet, &found.slot_of)),
        (2..=5, Some(_)) => words.extend(lawful_layout(&sheet, random)),
        _ => words.extend(invented_layout(&sheet, random)),
    }
    if random.one_in(8) && !claims_no_layout {
        damage(&mut words, random);
    }
    let mut record = Record::of_words(words);
    record.claims_no_layout = claims_no_layout;
    record
}

/// The best of a few lawful layouts that are drawn; an invented one where none of them is lawful.
fn lawful_layout(sheet: &Sheet, random: &mut Random) -> Vec<u32> {
    let slots = sheet.slots.len() as u32;
    let mut lawful: Vec<Vec<usize>> = Vec::new();
    for _ in 0..100 {
        let slot_of = sheet.sites.iter().map(|_| random.below(slots) as usize).collect::<Vec<_>>();
        if Ties::new(sheet, &slot_of).broken() == 0 && lawful.len() < 4 {
            lawful.push(slot_of);
        }
    }
    let best = lawful.into_iter().min_by_key(|slot_of| {
        let (count, length) = Ties::new(sheet, slot_of).numbers();
        if sheet.shortest {
            (length, count)
        } else {
            (count, length)
        }
    });
    best.map_or_else(|| invented_layout(sheet, random), |slot_of| layout_words(sheet, &slot_of))
}

/// The finding, the number of its refusal or rule, and by how many labels and units it is worse.
type Wanted = (&'static str, u64, (i64, i64));

/// What should be found, by the plain reader, the plain rules and the search over all layouts.
fn wanted(record: &Record) -> Wanted {
    let start = record.words.iter().position(|word| word >> 28 == 8).unwrap_or(record.words.len());
    let sheet = match read(&record.words[..start]) {
        Err(refusal) => return ("refused", u64::from(refusal), (0, 0)),
        Ok(sheet) => sheet,
    };
    let best = search::find(&sheet);
    if record.claims_no_layout && sheet.two_sided {
        return ("refused", 18, (0, 0));
    }
    if record.claims_no_layout {
        return (if best.is_some() { "false no layout" } else { "true no layout" }, 0, (0, 0));
    }
    let (_, slot_of, stated) = match split(&record.words) {
        Err(refusal) => return ("refused", u64::from(refusal), (0, 0)),
        Ok(parts) => parts,
    };
    let ties = Ties::new(&sheet, &slot_of);
    match (ties.broken(), best) {
        (0, _) if ties.numbers() != stated => ("unlawful", 6, (0, 0)),
        (0, _) if sheet.two_sided => ("lawful", 0, (0, 0)),
        (0, Some(best)) if best.slot_of == slot_of => ("best", 0, (0, 0)),
        (0, Some(best)) => {
            let least = Ties::new(&sheet, &best.slot_of).numbers();
            let more = (i64::from(stated.0) - i64::from(least.0), i64::from(stated.1) - i64::from(least.1));
            (if more == (0, 0) { "equal" } else { "not best" }, 0, more)
        }
        (rule, _) => ("unlawful", u64::from(rule), (0, 0)),
    }
}

/// What one object of `--format json` says.
fn found(json: &Json) -> (String, u64, (i64, i64)) {
    let name = json.member("finding").and_then(Json::string).unwrap().to_string();
    let number = json.member("refusal").or(json.member("rule")).and_then(Json::whole).unwrap_or(0);
    let more = |name: &str| match json.member("more").and_then(|more| more.member(name)).map(|number| &number.value) {
        Some(sheet::json::Value::Number(digits)) => digits.parse().unwrap(),
        _ => 0,
    };
    (name, number, (more("labels"), more("length")))
}

#[test]
fn findings_are_those_of_a_plain_search() {
    const SHEETS: usize = 3_000;
    let folder = Folder::new("plain-search");
    let mut random = Random::new(101);
    let mut all = Vec::new();
    for number in 0..SHEETS {
        let record = engine(&mut random);
        // Each form in its turn; words in bytes have no place for a claim.
        let form = [Form::Text, Form::Json, Form::Words, Form::Binary][number % 4];
        let form = if record.claims_no_layout { Form::Text } else { form };
        folder.file(&format!("{number:04}.txt"), sheet::write(&record, form).unwrap());
        all.push(record);
    }
    let run = run(["check", "--jobs", "2", "--format", "json", folder.0.to_str().unwrap()], b"");
    assert_eq!(run.code, Some(1), "{}", run.err);
    let json = Json::parse(&run.text()).unwrap();
    let sheets = json.member("sheets").and_then(Json::items).unwrap();
    assert_eq!(sheets.len(), SHEETS);
    let mut met: BTreeMap<(&str, u64), u64> = BTreeMap::new();
    for (record, json) in all.iter().zip(sheets) {
        let (name, number, more) = wanted(record);
        assert_eq!(found(json), (name.to_string(), number, more), "{record:x?} {json:?}");
        *met.entry((name, number)).or_default() += 1;
    }
    hold_met(&met);
    for (name, count) in counts_of(sheets) {
        assert_eq!(json.member("counts").and_then(|counts| counts.member(&name)).and_then(Json::whole), Some(count));
    }
}

/// Each finding, and each rule, was met often enough.
fn hold_met(met: &BTreeMap<(&str, u64), u64>) {
    for (name, number, count) in [
        ("best", 0, 150),
        ("equal", 0, 15),
        ("lawful", 0, 300),
        ("not best", 0, 150),
        ("false no layout", 0, 50),
        ("true no layout", 0, 50),
        ("refused", 18, 100),
    ] {
        assert!(met.get(&(name, number)).is_some_and(|times| *times >= count), "{name}: {met:?}");
    }
    for rule in 1..=6 {
        assert!(met.get(&("unlawful", rule)).is_some_and(|times| *times >= 5), "rule {rule}: {met:?}");
    }
}

fn counts_of(sheets: &[Json]) -> BTreeMap<String, u64> {
    let mut counts = BTreeMap::new();
    for sheet in sheets {
        *counts.entry(found(sheet).0).or_default() += 1;
    }
    counts
}

/// A folder with some of everything, an unreadable file and a folder in it among them.
fn mixed_folder(name: &str, sheets: usize) -> Folder {
    let folder = Folder::new(name);
    let mut random = Random::new(102);
    for number in 0..sheets {
        folder.file(&format!("{number:03}.txt"), sheet::show_record(&engine(&mut random)));
    }
    std::fs::create_dir(folder.0.join("500")).unwrap();
    folder.file("500/a.words", stored_a(2, 19, [0, 0, 2]));
    folder.file("500/notes.md", "no sheet");
    folder.file("600 <&>\".txt", stored_a(3, 18, [0, 1, 2]));
    folder.file("700.txt", "slot five\n");
    folder
}

#[test]
fn threads_change_nothing() {
    let folder = mixed_folder("threads", 300);
    for format in ["text", "json", "tsv", "junit"] {
        let with = |jobs: &str| run(["check", "--format", format, "--jobs", jobs, folder.0.to_str().unwrap()], b"");
        let one = with("1");
        assert_eq!(one.code, Some(3), "an unreadable file counts more than findings");
        assert!(one.err.contains("700.txt: line 1, column 6"), "{}", one.err);
        for jobs in ["2", "7", "1000"] {
            assert_eq!(with(jobs), one);
        }
    }
}

/// The rows of `--format tsv`, by the names of their columns.
fn rows(text: &str) -> Vec<BTreeMap<String, String>> {
    let mut lines = text.lines().map(|line| line.split('\t').map(str::to_string).collect::<Vec<_>>());
    let names = lines.next().unwrap();
    lines
        .map(|values| {
            assert_eq!(values.len(), names.len(), "{values:?}");
            names.iter().cloned().zip(values).collect()
        })
        .collect()
}

#[test]
fn tsv_and_json_say_the_same() {
    let folder = mixed_folder("tsv", 300);
    let in_format = |format: &str| run(["check", "--format", format, folder.0.to_str().unwrap()], b"");
    let json = Json::parse(&in_format("json").text()).unwrap();
    let tsv = in_format("tsv");
    let (sheets, rows) = (json.member("sheets").and_then(Json::items).unwrap(), rows(&tsv.text()));
    assert_eq!(sheets.len(), rows.len());
    assert_eq!(rows.len(), 303);
    for (sheet, row) in sheets.iter().zip(&rows) {
        let (name, number, (labels, length)) = found(sheet);
        assert_eq!(row["file"], sheet.member("file").and_then(Json::string).unwrap());
        assert_eq!(row["finding"], name);
        assert_eq!(format!("{}{}", row["refusal"], row["rule"]).parse().unwrap_or(0), number);
        assert_eq!(
            (row["more_labels"].parse().unwrap_or(0), row["more_length"].parse().unwrap_or(0)),
            (labels, length)
        );
        assert_eq!(row["text"], sheet.member("text").and_then(Json::string).unwrap_or_default());
        let units: f64 = row["more_length"].parse().unwrap_or(0.0);
        assert_eq!(row["more_points"].parse().unwrap_or(0.0), units / 8.0);
        let millimetres: f64 = row["more_mm"].parse().unwrap_or(0.0);
        assert!((millimetres - units * 25.4 / 576.0).abs() <= 0.000_51, "{row:?}");
    }
    assert!(tsv.err.contains("unreadable               1\n"), "{}", tsv.err);
}

/// The opening tags of an XML text with their attributes; panics where the text is not well-formed.
fn tags(xml: &str) -> Vec<(String, BTreeMap<String, String>)> {
    let (mut tags, mut open) = (Vec::new(), Vec::new());
    let body = xml.strip_prefix("<?xml version=\"1.0\" encoding=\"UTF-8\"?>\n").expect("an XML declaration");
    for part in body.split('<').skip(1) {
        let (tag, after) = part.split_once('>').expect("the tag ends");
        assert!(after.trim().is_empty(), "text between tags: {after}");
        if let Some(name) = tag.strip_prefix('/') {
            assert_eq!(open.pop().as_deref(), Some(name));
            continue;
        }
        let inside = tag.trim_end_matches('/');
        let (name, rest) = inside.split_once(' ').expect("attributes");
        let mut pieces = rest.split('"');
        let mut attributes = BTreeMap::new();
        while let (Some(key), Some(value)) = (pieces.next(), pieces.next()) {
            assert!(!value.contains(['<', '\n', '\t']) && value.split('&').skip(1).all(|rest| rest.contains(';')));
            attributes.insert(key.trim().trim_end_matches('=').to_string(), value.to_string());
        }
        tags.push((name.to_string(), attributes));
        if inside.len() == tag.len() {
            open.push(name.to_string());
        }
    }
    assert!(open.is_empty(), "{open:?}");
    tags
}

#[test]
fn junit_has_a_case_for_each_sheet() {
    let folder = mixed_folder("junit", 200);
    let in_format = |format: &str| run(["check", "--format", format, folder.0.to_str().unwrap()], b"").text();
    let json = Json::parse(&in_format("json")).unwrap();
    let counts = counts_of(json.member("sheets").and_then(Json::items).unwrap());
    let count = |names: &[&str]| names.iter().map(|name| counts.get(*name).copied().unwrap_or(0)).sum::<u64>();
    let failures = count(&["not best", "unlawful", "false no layout", "refused"]);
    assert!(count(&["lawful"]) > 10, "two-sided sheets pass: {counts:?}");
    let tags = tags(&in_format("junit"));
    let of_name = |name: &str| tags.iter().filter(|(tag, _)| tag == name).count() as u64;
    assert_eq!((of_name("testcase"), of_name("failure"), of_name("error")), (203, failures, 1));
    let suite = &tags[0].1;
    assert_eq!(
        (&suite["tests"][..], &suite["failures"][..], &suite["errors"][..]),
        ("203", &failures.to_string()[..], "1")
    );
    let named = |(_, attributes): &&(String, BTreeMap<String, String>)| {
        attributes.get("name").is_some_and(|name| name.ends_with("600 &lt;&amp;&gt;&quot;.txt"))
    };
    assert_eq!(tags.iter().filter(named).count(), 1);
}

#[test]
fn files_are_told_in_the_order_of_the_command_line() {
    let folder = Folder::new("order");
    let best = folder.file("z.txt", stored_a(2, 19, [0, 0, 2]));
    let other =
        folder.file("a.bin", sheet::write(&sheet::parse(&stored_a(3, 18, [0, 1, 2])).unwrap(), Form::Binary).unwrap());
    let run = run(["check", &best, "-", &other], format!("{SHEET_A}refused 10\n").as_bytes());
    let findings: Vec<String> = run.text().lines().take(3).map(|line| line.to_string()).collect();
    assert!(findings[0].ends_with("z.txt: best"), "{findings:?}");
    assert!(findings[1].starts_with("standard input: false no layout"), "{findings:?}");
    assert!(findings[2].contains("a.bin: not best"), "{findings:?}");
    assert_eq!(run.code, Some(1));
    let table: Vec<(String, u64)> = run.text().lines().skip(4).map(row_of_table).collect();
    let lawful = [("best", 1), ("equal", 0), ("lawful", 0), ("not best", 1)];
    let claims = [("unlawful", 0), ("false no layout", 1), ("true no layout", 0)];
    let others = [("no answer", 0), ("refused", 0), ("unreadable", 0), ("all", 3)];
    let wanted = lawful.into_iter().chain(claims).chain(others);
    assert_eq!(table, wanted.map(|(name, count)| (name.to_string(), count)).collect::<Vec<_>>());
}

fn row_of_table(line: &str) -> (String, u64) {
    let (name, count) = line.rsplit_once(' ').unwrap();
    (name.trim().to_string(), count.parse().unwrap())
}

/// Files with bytes of any sort: each has its finding, in every format and on the page, and nothing panics.
#[test]
fn any_bytes_have_a_finding() {
    const FILES: usize = 600;
    let folder = Folder::new("any-bytes");
    let mut random = Random::new(103);
    for number in 0..FILES {
        let record = engine(&mut random);
        let form = random.pick(&[Form::Text, Form::Json, Form::Words, Form::Binary]);
        let mut bytes = sheet::write(&record, form).unwrap_or_default();
        for _ in 0..random.pick(&[0, 1, 1, 2, 40]) {
            let place = random.below(bytes.len() as u32 + 1) as usize;
            match random.below(3) {
                0 => bytes.insert(place, random.below(256) as u8),
                1 if place < bytes.len() => bytes[place] = random.below(256) as u8,
                _ => bytes.truncate(place.max(bytes.len() / 2)),
            }
        }
        folder.file(&format!("{number:03}.bin"), bytes);
    }
    let report = folder.path("report");
    for format in ["text", "json", "tsv", "junit"] {
        let run = run(["check", "--format", format, "--report", &report, folder.0.to_str().unwrap()], b"");
        assert_eq!(run.code, Some(3), "{}", run.err);
        let found = run.text().matches(".bin").count();
        assert!(found >= FILES, "{format}: {found}");
    }
    let page = std::fs::read_to_string(report + "/index.html").unwrap();
    assert_eq!(page.split("<tbody>").nth(1).unwrap().split("</tbody>").next().unwrap().matches("<tr").count(), FILES);
}
