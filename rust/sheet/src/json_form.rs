//! A record as JSON.
//!
//! ```json
//! {
//!   "side": "one-sided", "aim": "fewest", "gap": 2, "width": 8,
//!   "slots": [2, 5, 8],
//!   "colours": [
//!     {"bound": 3, "name": "screws", "sites": [{"x": 2, "y": 4, "name": "front weight"}, {"x": 6, "y": 6}]},
//!     {"bound": null, "sites": [{"x": 4, "y": 5}]}
//!   ],
//!   "layout": {"labels": 2, "length": 19, "slots": [0, 0, 2]}
//! }
//! ```
//!
//! A charge word is `"charge": 3` after the width. A bound of null, or none, is "unbounded"; names may be left out.
//! `"refused": 10` in place of the layout says that its writer found none. A list of words that is not in the order of a
//! stored sheet is `{"words": ["0x20000005", ..]}`, with `"names": {"colours": [..], "sites": [..]}` where there are any.

use crate::json::{quote, Json, Value};
use crate::{show_number, Names, Record, TextError};
use backbone::{Aim, FormError, Side, Word};

/// The record as JSON.
pub fn show_json(record: &Record) -> String {
    let parts = show_sheet(record).unwrap_or_else(|| show_words(record));
    let claim = record.claims_no_layout.then(|| "\"refused\": 10".to_string());
    let parts: Vec<String> = parts.into_iter().chain(claim).collect();
    format!("{{\n  {}\n}}\n", parts.join(",\n  "))
}

/// The members of any list of words.
fn show_words(record: &Record) -> Vec<String> {
    let words: Vec<String> = record.words.iter().map(|word| quote(&show_number(*word))).collect();
    let mut parts = vec![format!("\"words\": [{}]", words.join(", "))];
    let Names { colours, sites } = &record.names;
    if colours.iter().chain(sites).any(Option::is_some) {
        let shown = |names: &[Option<String>]| names.iter().map(show_name).collect::<Vec<_>>().join(", ");
        parts.push(format!("\"names\": {{\"colours\": [{}], \"sites\": [{}]}}", shown(colours), shown(sites)));
    }
    parts
}

fn show_name(name: &Option<String>) -> String {
    name.as_deref().map_or_else(|| "null".to_string(), quote)
}

/// The members of a sheet or a stored sheet; none where the words are not in its order.
fn show_sheet(record: &Record) -> Option<Vec<String>> {
    let words = record.words.iter().map(|word| Word::decode(*word)).collect::<Option<Vec<Word>>>()?;
    let (Word::Head { side, aim, gap, width }, rest) = words.split_first()? else { return None };
    let side = if *side == Side::Two { "two-sided" } else { "one-sided" };
    let aim = if *aim == Aim::Shortest { "shortest" } else { "fewest" };
    let (charge, rest) = split_charge(rest);
    let charge = charge.map_or_else(String::new, |charge| format!(", \"charge\": {charge}"));
    let (slots, rest) = split(rest, |word| matches!(word, Word::Slot { .. }));
    let (colours, rest) = split(rest, |word| matches!(word, Word::Colour { .. } | Word::Site { .. }));
    let mut parts = vec![
        format!("\"side\": \"{side}\", \"aim\": \"{aim}\", \"gap\": {gap}, \"width\": {width}{charge}"),
        format!("\"slots\": [{}]", numbers(slots)),
        format!("\"colours\": [{}]", show_colours(colours, &record.names)?),
    ];
    if let Some((Word::Layout { labels, length }, ties)) = rest.split_first() {
        let (slots, rest) = split(ties, |word| matches!(word, Word::Tie { .. }));
        let slots = numbers(slots);
        parts.push(format!("\"layout\": {{\"labels\": {labels}, \"length\": {length}, \"slots\": [{slots}]}}"));
        return rest.is_empty().then_some(parts);
    }
    rest.is_empty().then_some(parts)
}

/// The charge that stands at the front, and the words from there on.
fn split_charge(words: &[Word]) -> (Option<u32>, &[Word]) {
    match words.split_first() {
        Some((Word::Charge { charge }, rest)) => (Some(*charge), rest),
        _ => (None, words),
    }
}

/// The words up to the first that is of another kind, and those from there on.
fn split(words: &[Word], is_kind: impl Fn(&Word) -> bool) -> (&[Word], &[Word]) {
    words.split_at(words.iter().position(|word| !is_kind(word)).unwrap_or(words.len()))
}

/// The heights or slots of words, with commas.
fn numbers(words: &[Word]) -> String {
    let number = |word: &Word| match word {
        Word::Slot { height } => height.to_string(),
        Word::Tie { slot } => slot.to_string(),
        _ => String::new(),
    };
    words.iter().map(number).collect::<Vec<_>>().join(", ")
}

/// Each colour with its sites; none if a site stands before the first colour.
fn show_colours(words: &[Word], names: &Names) -> Option<String> {
    let mut colours: Vec<(String, Vec<String>)> = Vec::new();
    let mut sites = 0;
    for word in words {
        match word {
            Word::Site { x, y } => {
                let name = shown_name(names.site(sites));
                colours.last_mut()?.1.push(format!("{{\"x\": {x}, \"y\": {y}{name}}}"));
                sites += 1;
            }
            Word::Colour { bound } => {
                let bound = if *bound == 255 { "null".to_string() } else { bound.to_string() };
                let name = shown_name(names.colour(colours.len()));
                colours.push((format!("\"bound\": {bound}{name}"), Vec::new()));
            }
            _ => return None,
        }
    }
    let shown = |(colour, sites): &(String, Vec<String>)| format!("{{{colour}, \"sites\": [{}]}}", sites.join(", "));
    let shown: Vec<String> = colours.iter().map(shown).collect();
    Some(if shown.is_empty() { String::new() } else { format!("\n    {}\n  ", shown.join(",\n    ")) })
}

fn shown_name(name: Option<&str>) -> String {
    name.map_or_else(String::new, |name| format!(", \"name\": {}", quote(name)))
}

/// The record of a JSON text, or its first error.
///
/// ```
/// let text = r#"{"side": "one-sided", "aim": "fewest", "gap": 2, "width": 8, "slots": [5], "colours": [], "refused": 10}"#;
/// let record = sheet::parse_json(text).unwrap();
/// assert_eq!(record.words, [0x10008008, 0x20000005]);
/// assert!(record.claims_no_layout);
/// ```
pub fn parse_json(text: &str) -> Result<Record, TextError> {
    let json = Json::parse(text)?;
    let mut record = Record::default();
    if json.member("words").is_some() {
        only(&json, &["words", "names", "refused"])?;
        parse_words(&json, &mut record)?;
    } else {
        only(&json, &["side", "aim", "gap", "width", "charge", "slots", "colours", "layout", "refused"])?;
        parse_sheet(&json, &mut record)?;
    }
    if let Some(claim) = json.member("refused") {
        if claim.whole() != Some(10) || crate::has_layout(&record.words) {
            return Err(claim.error("\"refused\" is 10, and stands in the layout's place"));
        }
        record.claims_no_layout = true;
    }
    Ok(record)
}

/// Refuses what is no object, and members of other names.
fn only(json: &Json, names: &[&str]) -> Result<(), TextError> {
    let Value::Object(members) = &json.value else { return Err(json.error("an object should stand here")) };
    match members.iter().find(|(name, _)| !names.contains(&&name[..])) {
        None => Ok(()),
        Some((name, value)) => {
            Err(value.error(format!("\"{}\" is not among {}", name.escape_debug(), names.join(", "))))
        }
    }
}

fn wanted<'a>(json: &'a Json, name: &str) -> Result<&'a Json, TextError> {
    json.member(name).ok_or_else(|| json.error(format!("\"{name}\" is missing")))
}

fn items<'a>(json: &'a Json, name: &str) -> Result<&'a [Json], TextError> {
    let list = wanted(json, name)?;
    list.items().ok_or_else(|| list.error(format!("\"{name}\" is a list")))
}

fn parse_words(json: &Json, record: &mut Record) -> Result<(), TextError> {
    for item in items(json, "words")? {
        let number = item.whole().and_then(|number| u32::try_from(number).ok());
        let word = number.or_else(|| item.string().and_then(crate::text::raw_number));
        record.push(word.ok_or_else(|| item.error("a word is a string, \"0x20000005\""))?, None);
    }
    let Some(names) = json.member("names") else { return Ok(()) };
    only(names, &["colours", "sites"])?;
    for (list, kept) in [("colours", &mut record.names.colours), ("sites", &mut record.names.sites)] {
        let given = items(names, list)?;
        if given.len() != kept.len() {
            return Err(wanted(names, list)?.error(format!("there are {} {list} among the words", kept.len())));
        }
        for (item, kept) in given.iter().zip(kept) {
            *kept = name_of(item)?;
        }
    }
    Ok(())
}

/// A name, or null.
fn name_of(json: &Json) -> Result<Option<String>, TextError> {
    match &json.value {
        Value::Null => Ok(None),
        Value::String(name) => Ok(Some(name.clone())),
        _ => Err(json.error("a name is a string")),
    }
}

fn member_name(json: &Json) -> Result<Option<String>, TextError> {
    json.member("name").map_or(Ok(None), name_of)
}

fn choice<T: Copy>(json: &Json, name: &str, choices: [(&str, T); 2]) -> Result<T, TextError> {
    let value = wanted(json, name)?;
    let found = choices.iter().find(|(known, _)| value.string() == Some(known)).map(|(_, choice)| *choice);
    found.ok_or_else(|| value.error(format!("\"{name}\" is \"{}\" or \"{}\"", choices[0].0, choices[1].0)))
}

/// A number that the field of this word can hold.
fn number(json: &Json, name: &str, word: impl Fn(u32) -> Word) -> Result<u32, TextError> {
    // What is no whole number is out of every range.
    let number = json.whole().and_then(|number| u32::try_from(number).ok()).unwrap_or(u32::MAX);
    match word(number).checked_encode() {
        Ok(_) => Ok(number),
        Err(FormError::OutOfRange { least, most, .. }) => {
            Err(json.error(format!("{name} must be a whole number from {least} to {most}")))
        }
        Err(other) => Err(json.error(other.to_string())),
    }
}

fn small_number(json: &Json, name: &str) -> Result<u8, TextError> {
    let number = json.whole().and_then(|number| u8::try_from(number).ok());
    number.ok_or_else(|| json.error(format!("{name} must be a whole number from 0 to 255")))
}

fn parse_sheet(json: &Json, record: &mut Record) -> Result<(), TextError> {
    let side = choice(json, "side", [("one-sided", Side::One), ("two-sided", Side::Two)])?;
    let aim = choice(json, "aim", [("fewest", Aim::Fewest), ("shortest", Aim::Shortest)])?;
    let head = |gap, width| Word::Head { side, aim, gap, width };
    let gap = number(wanted(json, "gap")?, "gap", |gap| head(gap, 1))?;
    let width = number(wanted(json, "width")?, "width", |width| head(1, width))?;
    record.push(head(gap, width).encode(), None);
    if let Some(charge) = json.member("charge") {
        let charge = number(charge, "charge", |charge| Word::Charge { charge })?;
        record.push(Word::Charge { charge }.encode(), None);
    }
    for slot in items(json, "slots")? {
        let height = number(slot, "height", |height| Word::Slot { height })?;
        record.push(Word::Slot { height }.encode(), None);
    }
    for colour in items(json, "colours")? {
        parse_colour(colour, record)?;
    }
    json.member("layout").map_or(Ok(()), |layout| parse_layout(layout, record))
}

fn parse_colour(json: &Json, record: &mut Record) -> Result<(), TextError> {
    only(json, &["bound", "name", "sites"])?;
    let bound = match json.member("bound") {
        None => 255,
        Some(bound) if bound.value == Value::Null => 255,
        Some(bound) => small_number(bound, "bound")?,
    };
    record.push(Word::Colour { bound }.encode(), member_name(json)?);
    for site in items(json, "sites")? {
        only(site, &["x", "y", "name"])?;
        let x = number(wanted(site, "x")?, "x", |x| Word::Site { x, y: 0 })?;
        let y = number(wanted(site, "y")?, "y", |y| Word::Site { x: 0, y })?;
        record.push(Word::Site { x, y }.encode(), member_name(site)?);
    }
    Ok(())
}

fn parse_layout(json: &Json, record: &mut Record) -> Result<(), TextError> {
    only(json, &["labels", "length", "slots"])?;
    let labels = number(wanted(json, "labels")?, "labels", |labels| Word::Layout { labels, length: 0 })?;
    let length = number(wanted(json, "length")?, "length", |length| Word::Layout { labels: 0, length })?;
    record.push(Word::Layout { labels, length }.encode(), None);
    for slot in items(json, "slots")? {
        record.push(Word::Tie { slot: small_number(slot, "slot")? }.encode(), None);
    }
    Ok(())
}
