//! The forms of a file, told apart by what it holds.

use crate::text::CLAIM;
use crate::tokens::TextError;
use crate::{parse, parse_json, show_json, show_number, show_record, Record};
use std::fmt;

/// How a sheet is written.
#[derive(Clone, Copy, Debug, PartialEq, Eq)]
pub enum Form {
    /// One line a word, with names; hexadecimal words may stand among them.
    Text,
    /// Hexadecimal, one word a line.
    Words,
    /// Four bytes a word, the lowest first.
    Binary,
    /// An object; see [`crate::parse_json`].
    Json,
}

/// Why bytes hold no list of words.
#[derive(Clone, Debug, PartialEq, Eq)]
pub enum ReadError {
    Text(TextError),
    /// Not whole words.
    Bytes(usize),
    /// Text in another encoding.
    Encoding(&'static str),
}

impl fmt::Display for ReadError {
    fn fmt(&self, out: &mut fmt::Formatter) -> fmt::Result {
        match self {
            ReadError::Text(error) => error.fmt(out),
            ReadError::Bytes(bytes) => write!(out, "{bytes} bytes are not whole words of four bytes"),
            ReadError::Encoding(name) => write!(out, "the text is {name}; UTF-8 is read"),
        }
    }
}

impl std::error::Error for ReadError {}

impl Form {
    /// The form of these bytes. Words in bytes that begin with a head have 0x10 to 0x1F in the fourth place, where
    /// text has none; other words in bytes have a zero byte, and are not text for the most part; JSON begins with a
    /// brace.
    pub fn of(bytes: &[u8]) -> Form {
        let is_head = bytes.get(3).is_some_and(|byte| byte >> 4 == 1);
        let is_zero = bytes.contains(&0) && !is_mostly_text(bytes) && other_encoding(bytes).is_none();
        if is_head || is_zero {
            return Form::Binary;
        }
        let first = without_mark(bytes).iter().find(|byte| !byte.is_ascii_whitespace());
        if first == Some(&b'{') {
            Form::Json
        } else {
            Form::Text
        }
    }
}

/// Whether more than three in four bytes are those of text: a zero byte in it is a slip.
fn is_mostly_text(bytes: &[u8]) -> bool {
    let is_text = |byte: &&u8| byte.is_ascii_graphic() || byte.is_ascii_whitespace();
    bytes.iter().filter(is_text).count() > bytes.len() / 4 * 3
}

/// The bytes without UTF-8's byte order mark.
fn without_mark(bytes: &[u8]) -> &[u8] {
    bytes.strip_prefix(b"\xEF\xBB\xBF").unwrap_or(bytes)
}

/// UTF-16 by its byte order mark; or where no even byte is zero and most odd ones are, or the other way round.
fn other_encoding(bytes: &[u8]) -> Option<&'static str> {
    let every_second = |first: usize| bytes.iter().skip(first).step_by(2);
    let is_wide = |zero: usize| {
        let zeros = every_second(zero).filter(|byte| **byte == 0).count();
        zeros * 4 > bytes.len() && every_second(1 - zero).all(|byte| *byte != 0)
    };
    let is_marked = bytes.starts_with(b"\xFF\xFE") || bytes.starts_with(b"\xFE\xFF");
    let is_even = bytes.len().is_multiple_of(2);
    (is_marked || is_even && (is_wide(0) || is_wide(1))).then_some("UTF-16")
}

/// What bytes of any form hold.
pub fn read(bytes: &[u8]) -> Result<Record, ReadError> {
    read_as(Form::of(bytes), bytes)
}

/// What bytes of this form hold.
pub fn read_as(form: Form, bytes: &[u8]) -> Result<Record, ReadError> {
    match form {
        Form::Text | Form::Words => parse(decoded(bytes)?).map_err(ReadError::Text),
        Form::Json => parse_json(decoded(bytes)?).map_err(ReadError::Text),
        Form::Binary if !bytes.len().is_multiple_of(4) => Err(ReadError::Bytes(bytes.len())),
        Form::Binary => {
            let word = |four: &[u8]| u32::from_le_bytes([four[0], four[1], four[2], four[3]]);
            Ok(Record::of_words(bytes.chunks_exact(4).map(word).collect()))
        }
    }
}

/// UTF-8, with a byte order mark or without.
fn decoded(bytes: &[u8]) -> Result<&str, ReadError> {
    if let Some(name) = other_encoding(bytes) {
        return Err(ReadError::Encoding(name));
    }
    let bytes = without_mark(bytes);
    std::str::from_utf8(bytes).map_err(|error| {
        let (before, after) = bytes.split_at(error.valid_up_to());
        let before = String::from_utf8_lossy(before);
        let line = before.matches('\n').count() + 1;
        let column = before.rsplit('\n').next().map_or(0, |last| last.chars().count()) + 1;
        let byte = after.first().map_or_else(String::new, |byte| format!(": byte 0x{byte:02X}"));
        ReadError::Text(TextError { line, column, message: format!("the text is not UTF-8{byte}") })
    })
}

/// The bytes of a record in a form; none if the record claims that there is no layout, and the form has no place
/// for that.
pub fn write(record: &Record, form: Form) -> Option<Vec<u8>> {
    let text = match form {
        Form::Text => show_record(record),
        Form::Json => show_json(record),
        Form::Words => {
            let words: String = record.words.iter().map(|word| show_number(*word) + "\n").collect();
            words + if record.claims_no_layout { CLAIM } else { "" }
        }
        Form::Binary => {
            let bytes = record.words.iter().flat_map(|word| word.to_le_bytes()).collect();
            return (!record.claims_no_layout).then_some(bytes);
        }
    };
    Some(text.into_bytes())
}
