//! The tokens of one line of text, with their columns.

use backbone::{FormError, Word};
use std::fmt;

/// What is wrong with a text, and where; lines and columns count from 1, columns in characters.
#[derive(Clone, Debug, PartialEq, Eq)]
pub struct TextError {
    pub line: usize,
    pub column: usize,
    pub message: String,
}

impl fmt::Display for TextError {
    fn fmt(&self, out: &mut fmt::Formatter) -> fmt::Result {
        write!(out, "line {}, column {}: {}", self.line, self.column, self.message)
    }
}

impl std::error::Error for TextError {}

/// A token of a line.
#[derive(Clone, Debug, PartialEq, Eq)]
enum Token<'a> {
    Bare(&'a str),
    /// What stood in quotes.
    Name(String),
}

/// The tokens of one line.
pub struct Tokens<'a> {
    line: usize,
    rest: std::iter::Peekable<std::vec::IntoIter<(usize, Token<'a>)>>,
    end: usize,
}

impl<'a> Tokens<'a> {
    /// Parts a line at blanks; what stands in quotes is one token; what follows a `#` is left out.
    pub fn of_line(line: usize, text: &'a str) -> Result<Tokens<'a>, TextError> {
        let mut tokens = Vec::new();
        let (mut column, mut end) = (1, 1);
        let mut rest = text;
        while let Some(first) = rest.chars().next() {
            let length = match first {
                '#' => break,
                '"' => {
                    let (name, length) = quoted(rest).map_err(|(offset, problem)| {
                        let column = column + rest[..offset].chars().count();
                        TextError { line, column, message: problem.to_string() }
                    })?;
                    tokens.push((column, Token::Name(name)));
                    length
                }
                blank if blank.is_whitespace() => blank.len_utf8(),
                _ => {
                    let length = rest.find(|c: char| c.is_whitespace() || c == '#' || c == '"').unwrap_or(rest.len());
                    tokens.push((column, Token::Bare(&rest[..length])));
                    length
                }
            };
            column += rest[..length].chars().count();
            rest = &rest[length..];
            end = if first.is_whitespace() { end } else { column };
        }
        Ok(Tokens { line, rest: tokens.into_iter().peekable(), end })
    }

    pub fn error(&self, column: usize, message: String) -> TextError {
        TextError { line: self.line, column, message }
    }

    pub fn is_empty(&mut self) -> bool {
        self.rest.peek().is_none()
    }

    /// The next token; where there is none, `wanted` says what should stand there.
    pub fn next(&mut self, wanted: &str) -> Result<(usize, &'a str), TextError> {
        let end = self.end;
        match self.rest.next() {
            Some((column, Token::Bare(token))) => Ok((column, token)),
            Some((column, Token::Name(_))) => Err(self.error(column, format!("{wanted} should stand before the name"))),
            None => Err(self.error(end, format!("{wanted} is missing"))),
        }
    }

    /// The name in quotes that stands here, if one does.
    pub fn name(&mut self) -> Option<String> {
        match self.rest.next_if(|(_, token)| matches!(token, Token::Name(_))) {
            Some((_, Token::Name(name))) => Some(name),
            _ => None,
        }
    }

    pub fn end(&mut self) -> Result<(), TextError> {
        match self.rest.next() {
            None => Ok(()),
            Some((column, Token::Bare(token))) => {
                Err(self.error(column, format!("the line should end before '{}'", shown(token))))
            }
            Some((column, Token::Name(_))) => {
                Err(self.error(column, "a name stands after a colour or a site alone".to_string()))
            }
        }
    }

    pub fn choice<T: Copy>(&mut self, choices: &[(&str, T)]) -> Result<T, TextError> {
        let names = choices.iter().map(|(name, _)| *name).collect::<Vec<_>>().join(" or ");
        let (column, token) = self.next(&names)?;
        let found = choices.iter().find(|(name, _)| *name == token).map(|(_, value)| *value);
        found.ok_or_else(|| self.error(column, format!("{names} should stand here, not '{}'", shown(token))))
    }

    /// A number after its name.
    pub fn named_number(&mut self, name: &'static str, word: impl Fn(u32) -> Word) -> Result<u32, TextError> {
        self.choice(&[(name, ())])?;
        self.number(name, word)
    }

    /// A number that the field of this word can hold.
    pub fn number(&mut self, name: &str, word: impl Fn(u32) -> Word) -> Result<u32, TextError> {
        let (column, token) = self.next(name)?;
        // A token that is no number is out of every range.
        let number = decimal(token).unwrap_or(u32::MAX);
        match word(number).checked_encode() {
            Ok(_) => Ok(number),
            Err(FormError::OutOfRange { least, most, .. }) => {
                Err(self.error(column, format!("{name} must be from {least} to {most}, not '{}'", shown(token))))
            }
            Err(other) => Err(self.error(column, other.to_string())),
        }
    }

    pub fn small_number(&mut self, name: &str) -> Result<u8, TextError> {
        let (column, token) = self.next(name)?;
        let number = decimal(token).and_then(|number| u8::try_from(number).ok());
        number.ok_or_else(|| self.error(column, format!("{name} must be from 0 to 255, not '{}'", shown(token))))
    }
}

/// Digits alone, without a sign.
fn decimal(token: &str) -> Option<u32> {
    token.bytes().all(|digit| digit.is_ascii_digit()).then(|| token.parse().ok()).flatten()
}

/// A token for a message: no control characters, and its front alone if it is long.
pub fn shown(token: &str) -> String {
    const MOST: usize = 40;
    let front: String = token.chars().take(MOST).flat_map(char::escape_debug).collect();
    if token.chars().count() > MOST {
        front + ".."
    } else {
        front
    }
}

/// What stands in the quotes at the front of a text, and the bytes that it takes with them; or the place of an
/// error and what it is.
fn quoted(text: &str) -> Result<(String, usize), (usize, &'static str)> {
    let mut name = String::new();
    let mut characters = text.char_indices().skip(1);
    while let Some((place, character)) = characters.next() {
        match character {
            '"' => return Ok((name, place + 1)),
            '\\' => name.push(escaped(&mut characters).ok_or((place, ESCAPES))?),
            other => name.push(other),
        }
    }
    Err((text.len(), "the name's closing quote is missing"))
}

const ESCAPES: &str = "after a backslash stands \", \\, n, r, t or u{..}";

/// The character that stands after a backslash.
fn escaped(characters: &mut impl Iterator<Item = (usize, char)>) -> Option<char> {
    match characters.next()?.1 {
        'n' => Some('\n'),
        'r' => Some('\r'),
        't' => Some('\t'),
        'u' => {
            characters.next().filter(|(_, brace)| *brace == '{')?;
            let digits: String = characters.map(|(_, digit)| digit).take_while(|digit| *digit != '}').collect();
            u32::from_str_radix(&digits, 16).ok().and_then(char::from_u32)
        }
        itself => matches!(itself, '"' | '\\').then_some(itself),
    }
}

/// A name in quotes, as `quoted` reads it.
pub fn quote(name: &str) -> String {
    let mut text = String::from("\"");
    for character in name.chars() {
        match character {
            '"' => text.push_str("\\\""),
            '\\' => text.push_str("\\\\"),
            '\n' => text.push_str("\\n"),
            '\r' => text.push_str("\\r"),
            '\t' => text.push_str("\\t"),
            control if control.is_control() => text.push_str(&format!("\\u{{{:X}}}", control as u32)),
            other => text.push(other),
        }
    }
    text + "\""
}
