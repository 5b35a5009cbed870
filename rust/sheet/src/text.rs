//! The text form: one line a word.

use crate::tokens::{quote, shown, TextError, Tokens};
use crate::{has_layout, Record};
use backbone::{Aim, Side, Word};

/// The line of a claim that a sheet has no layout.
pub const CLAIM: &str = "refused 10\n";

/// The text of a list of words.
///
/// ```
/// assert_eq!(sheet::show(&[0x10008008, 0x50000003, 0x20000005, 0x60000000]), "\
/// head one-sided fewest gap 2 width 8
/// charge 3
/// slot 5
/// 0x60000000
/// ");
/// ```
pub fn show(words: &[u32]) -> String {
    words.iter().map(|word| show_word(*word) + "\n").collect()
}

/// The text of a record, with its names and its claim.
///
/// ```
/// let text = "colour bound 3 \"screws\"\nsite 6 4 \"front \\\"weight\\\"\"\nrefused 10\n";
/// assert_eq!(sheet::show_record(&sheet::parse(text).unwrap()), text);
/// ```
pub fn show_record(record: &Record) -> String {
    let mut text = String::new();
    let mut colours = record.names.colours.iter();
    let mut sites = record.names.sites.iter();
    for word in &record.words {
        text.push_str(&show_word(*word));
        let name = match Word::decode(*word) {
            Some(Word::Colour { .. }) => colours.next(),
            Some(Word::Site { .. }) => sites.next(),
            _ => None,
        };
        if let Some(Some(name)) = name {
            text.push(' ');
            text.push_str(&quote(name));
        }
        text.push('\n');
    }
    text + if record.claims_no_layout { CLAIM } else { "" }
}

fn show_word(word: u32) -> String {
    match Word::decode(word) {
        Some(Word::Head { side, aim, gap, width }) => {
            let side = if side == Side::Two { "two-sided" } else { "one-sided" };
            let aim = if aim == Aim::Shortest { "shortest" } else { "fewest" };
            format!("head {side} {aim} gap {gap} width {width}")
        }
        Some(Word::Charge { charge }) => format!("charge {charge}"),
        Some(Word::Slot { height }) => format!("slot {height}"),
        Some(Word::Colour { bound: 255 }) => "colour unbounded".to_string(),
        Some(Word::Colour { bound }) => format!("colour bound {bound}"),
        Some(Word::Site { x, y }) => format!("site {x} {y}"),
        Some(Word::Layout { labels, length }) => format!("layout labels {labels} length {length}"),
        Some(Word::Tie { slot }) => format!("tie {slot}"),
        None => show_number(word),
    }
}

/// A word as a number.
pub fn show_number(word: u32) -> String {
    format!("0x{word:08X}")
}

/// The words of a text, or its first error.
///
/// ```
/// assert_eq!(sheet::encode("slot 5 # the middle\n0x300000FF"), Ok(vec![0x20000005, 0x300000FF]));
/// let error = sheet::encode("slot 5\nsite 6 four\n").unwrap_err();
/// assert_eq!(error.to_string(), "line 2, column 8: y must be from 0 to 16383, not 'four'");
/// ```
pub fn encode(text: &str) -> Result<Vec<u32>, TextError> {
    parse(text).map(|record| record.words)
}

/// The words, the names and the claim of a text, or its first error.
///
/// ```
/// let record = sheet::parse("colour bound 3 \"screws\"\nsite 6 4\nrefused 10").unwrap();
/// assert_eq!(record.words, [0x30000003, 0x40018004]);
/// assert_eq!((record.names.colour(0), record.names.site(0)), (Some("screws"), None));
/// assert!(record.claims_no_layout);
/// ```
pub fn parse(text: &str) -> Result<Record, TextError> {
    let mut record = Record::default();
    for (index, line) in text.lines().enumerate() {
        let mut tokens = Tokens::of_line(index + 1, line)?;
        if !tokens.is_empty() {
            parse_line(&mut tokens, &mut record)?;
            tokens.end()?;
        }
    }
    Ok(record)
}

fn parse_line(tokens: &mut Tokens, record: &mut Record) -> Result<(), TextError> {
    const NAMES: &str = "a line begins with head, charge, slot, colour, site, layout, tie, refused or 0x";
    let (column, name) = tokens.next(NAMES)?;
    if record.claims_no_layout {
        return Err(tokens.error(column, "nothing follows the line 'refused 10'".to_string()));
    }
    let word = match name {
        "head" => Word::Head {
            side: tokens.choice(&[("one-sided", Side::One), ("two-sided", Side::Two)])?,
            aim: tokens.choice(&[("fewest", Aim::Fewest), ("shortest", Aim::Shortest)])?,
            gap: tokens.named_number("gap", |gap| head(gap, 1))?,
            width: tokens.named_number("width", |width| head(1, width))?,
        },
        "charge" => Word::Charge { charge: tokens.number("charge", |charge| Word::Charge { charge })? },
        "slot" => Word::Slot { height: tokens.number("height", |height| Word::Slot { height })? },
        "colour" => parse_colour(tokens)?,
        "site" => Word::Site {
            x: tokens.number("x", |x| Word::Site { x, y: 0 })?,
            y: tokens.number("y", |y| Word::Site { x: 0, y })?,
        },
        "layout" => Word::Layout {
            labels: tokens.named_number("labels", |labels| Word::Layout { labels, length: 0 })?,
            length: tokens.named_number("length", |length| Word::Layout { labels: 0, length })?,
        },
        "tie" => Word::Tie { slot: tokens.small_number("slot")? },
        "refused" => return parse_claim(tokens, record),
        _ if name.starts_with("0x") => return parse_numbers(tokens, (column, name), record),
        _ => return Err(tokens.error(column, format!("{NAMES}, not '{}'", shown(name)))),
    };
    let name = if matches!(word, Word::Colour { .. } | Word::Site { .. }) { tokens.name() } else { None };
    record.push(word.encode(), name);
    Ok(())
}

/// A line of words as numbers, with blanks or commas between them.
fn parse_numbers(tokens: &mut Tokens, first: (usize, &str), record: &mut Record) -> Result<(), TextError> {
    let mut next = Some(first);
    while let Some((column, token)) = next {
        for part in token.split(',').filter(|part| !part.is_empty()) {
            let wrong =
                || tokens.error(column, format!("0x and 1 to 8 hexadecimal digits are a word, not '{}'", shown(part)));
            record.push(raw_number(part).ok_or_else(wrong)?, None);
        }
        next = if tokens.is_empty() { None } else { Some(tokens.next("a word")?) };
    }
    Ok(())
}

/// An engine's word that the sheet has no layout.
fn parse_claim(tokens: &mut Tokens, record: &mut Record) -> Result<(), TextError> {
    let (column, number) = tokens.next("10")?;
    if number != "10" {
        return Err(tokens.error(column, format!("of refusals 10 alone is a claim, not '{}'", shown(number))));
    }
    if has_layout(&record.words) {
        return Err(tokens.error(column, "a sheet with a layout can't be refused 10".to_string()));
    }
    record.claims_no_layout = true;
    Ok(())
}

fn head(gap: u32, width: u32) -> Word {
    Word::Head { side: Side::One, aim: Aim::Fewest, gap, width }
}

fn parse_colour(tokens: &mut Tokens) -> Result<Word, TextError> {
    let bounded = tokens.choice(&[("bound", true), ("unbounded", false)])?;
    let bound = if bounded { tokens.small_number("bound")? } else { 255 };
    Ok(Word::Colour { bound })
}

/// The word that 0x and 1 to 8 hexadecimal digits are.
pub fn raw_number(token: &str) -> Option<u32> {
    let digits = token.strip_prefix("0x")?;
    let is_number = (1..=8).contains(&digits.len()) && digits.bytes().all(|digit| digit.is_ascii_hexdigit());
    is_number.then(|| u32::from_str_radix(digits, 16).ok()).flatten()
}
