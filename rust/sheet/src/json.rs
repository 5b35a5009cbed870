//! JSON as far as sheets need it: values with the places at which they stand, and strings in quotes.

use crate::TextError;

/// A value and where it begins; lines and columns count from 1.
#[derive(Clone, Debug, PartialEq)]
pub struct Json {
    pub line: usize,
    pub column: usize,
    pub value: Value,
}

#[derive(Clone, Debug, PartialEq)]
pub enum Value {
    Null,
    Bool(bool),
    /// As it is written.
    Number(String),
    String(String),
    List(Vec<Json>),
    /// Members in the order in which they stand, no name twice.
    Object(Vec<(String, Json)>),
}

impl Json {
    /// The value of a text that holds one and nothing else.
    pub fn parse(text: &str) -> Result<Json, TextError> {
        let mut parser = Parser { rest: text, line: 1, column: 1 };
        let value = parser.value(0)?;
        parser.skip_blanks();
        match parser.rest.chars().next() {
            None => Ok(value),
            Some(_) => Err(parser.error("the text should end here")),
        }
    }

    /// An error at this value.
    pub fn error(&self, message: impl Into<String>) -> TextError {
        TextError { line: self.line, column: self.column, message: message.into() }
    }

    /// The member of this name, if the value is an object that has it.
    pub fn member(&self, name: &str) -> Option<&Json> {
        match &self.value {
            Value::Object(members) => members.iter().find(|(known, _)| known == name).map(|(_, value)| value),
            _ => None,
        }
    }

    /// The items, if the value is a list.
    pub fn items(&self) -> Option<&[Json]> {
        match &self.value {
            Value::List(items) => Some(items),
            _ => None,
        }
    }

    /// The text, if the value is a string.
    pub fn string(&self) -> Option<&str> {
        match &self.value {
            Value::String(text) => Some(text),
            _ => None,
        }
    }

    /// The number, if the value is a whole one that is not negative and fits.
    pub fn whole(&self) -> Option<u64> {
        match &self.value {
            Value::Number(digits) => digits.parse().ok(),
            _ => None,
        }
    }
}

/// Lists and objects nest so far and no further, so that no text runs out of stack.
const MOST_NESTED: usize = 64;

struct Parser<'a> {
    rest: &'a str,
    line: usize,
    column: usize,
}

impl<'a> Parser<'a> {
    fn error(&self, message: impl Into<String>) -> TextError {
        TextError { line: self.line, column: self.column, message: message.into() }
    }

    /// Passes over so many bytes, which end at a character.
    fn skip(&mut self, bytes: usize) -> &'a str {
        let (passed, rest) = self.rest.split_at(bytes);
        for character in passed.chars() {
            (self.line, self.column) =
                if character == '\n' { (self.line + 1, 1) } else { (self.line, self.column + 1) };
        }
        self.rest = rest;
        passed
    }

    fn skip_blanks(&mut self) {
        let blanks = self.rest.len() - self.rest.trim_start_matches([' ', '\t', '\r', '\n']).len();
        self.skip(blanks);
    }

    /// Passes over a token after blanks, if it stands there.
    fn take(&mut self, token: &str) -> bool {
        self.skip_blanks();
        let stands = self.rest.starts_with(token);
        if stands {
            self.skip(token.len());
        }
        stands
    }

    fn value(&mut self, nested: usize) -> Result<Json, TextError> {
        self.skip_blanks();
        if nested > MOST_NESTED {
            return Err(self.error("lists and objects are nested too deep"));
        }
        let (line, column) = (self.line, self.column);
        let value = match self.rest.chars().next() {
            Some('{') => Value::Object(self.members(nested)?),
            Some('[') => Value::List(self.list(nested)?),
            Some('"') => Value::String(self.string()?),
            Some(first) if first == '-' || first.is_ascii_digit() => Value::Number(self.number()?),
            _ if self.take("null") => Value::Null,
            _ if self.take("true") => Value::Bool(true),
            _ if self.take("false") => Value::Bool(false),
            _ => return Err(self.error("a JSON value should stand here")),
        };
        Ok(Json { line, column, value })
    }

    fn list(&mut self, nested: usize) -> Result<Vec<Json>, TextError> {
        let mut items = Vec::new();
        self.take("[");
        if self.take("]") {
            return Ok(items);
        }
        loop {
            items.push(self.value(nested + 1)?);
            if self.take("]") {
                return Ok(items);
            }
            if !self.take(",") {
                return Err(self.error("a comma or a closing bracket should stand here"));
            }
        }
    }

    fn members(&mut self, nested: usize) -> Result<Vec<(String, Json)>, TextError> {
        let mut members: Vec<(String, Json)> = Vec::new();
        self.take("{");
        if self.take("}") {
            return Ok(members);
        }
        loop {
            self.skip_blanks();
            let (line, column) = (self.line, self.column);
            let name = self.string()?;
            if members.iter().any(|(known, _)| *known == name) {
                return Err(TextError { line, column, message: format!("\"{name}\" stands here twice") });
            }
            if !self.take(":") {
                return Err(self.error("a colon should stand here"));
            }
            members.push((name, self.value(nested + 1)?));
            if self.take("}") {
                return Ok(members);
            }
            if !self.take(",") {
                return Err(self.error("a comma or a closing brace should stand here"));
            }
        }
    }

    fn number(&mut self) -> Result<String, TextError> {
        let length = self.rest.find(|c: char| !c.is_ascii_alphanumeric() && !"+-.".contains(c));
        let digits = &self.rest[..length.unwrap_or(self.rest.len())];
        if !is_number(digits) {
            return Err(self.error(format!("'{}' is no JSON number", digits.escape_debug())));
        }
        Ok(self.skip(digits.len()).to_string())
    }

    /// A string in quotes.
    fn string(&mut self) -> Result<String, TextError> {
        if !self.rest.starts_with('"') {
            return Err(self.error("a string in quotes should stand here"));
        }
        self.skip(1);
        let mut text = String::new();
        loop {
            let Some(character) = self.rest.chars().next() else {
                return Err(self.error("the string's closing quote is missing"));
            };
            match character {
                '"' => {
                    self.skip(1);
                    return Ok(text);
                }
                '\\' => text.push(self.escaped()?),
                '\0'..='\x1F' => return Err(self.error("a control character stands in a string")),
                other => {
                    self.skip(other.len_utf8());
                    text.push(other);
                }
            }
        }
    }

    /// The character that a backslash and what follows it stand for.
    fn escaped(&mut self) -> Result<char, TextError> {
        const PLAIN: [(char, char); 8] =
            [('"', '"'), ('\\', '\\'), ('/', '/'), ('b', '\x08'), ('f', '\x0C'), ('n', '\n'), ('r', '\r'), ('t', '\t')];
        let letter = self.rest[1..].chars().next();
        if let Some((_, character)) = PLAIN.iter().find(|(known, _)| Some(*known) == letter) {
            self.skip(2);
            return Ok(*character);
        }
        let first = self.unit()?;
        // Two units, of the upper and of the lower surrogates, are one character.
        let code = if (0xD800..0xDC00).contains(&first) {
            let second = self.unit()?;
            let lower = (0xDC00..0xE000).contains(&second).then(|| second - 0xDC00);
            lower.map_or(first, |lower| 0x10000 + ((first - 0xD800) << 10) + lower)
        } else {
            first
        };
        char::from_u32(code).ok_or_else(|| self.error("half of a character stands before this"))
    }

    /// The number of `\u` and four hexadecimal digits.
    fn unit(&mut self) -> Result<u32, TextError> {
        let digits = self.rest.strip_prefix("\\u").and_then(|digits| digits.get(..4));
        let digits = digits.filter(|digits| digits.bytes().all(|digit| digit.is_ascii_hexdigit()));
        let unit = digits.and_then(|digits| u32::from_str_radix(digits, 16).ok());
        let unit = unit.ok_or_else(|| self.error("no character is written so in a string"))?;
        self.skip(6);
        Ok(unit)
    }
}

/// Whether a token is a number as JSON has it: no plus sign, no leading zero, digits around a point.
fn is_number(token: &str) -> bool {
    let digits = |text: &str| !text.is_empty() && text.bytes().all(|digit| digit.is_ascii_digit());
    let unsigned = token.strip_prefix('-').unwrap_or(token);
    let (before, exponent) = match unsigned.split_once(['e', 'E']) {
        None => (unsigned, None),
        Some((before, exponent)) => (before, Some(exponent)),
    };
    let (whole, part) = match before.split_once('.') {
        None => (before, None),
        Some((whole, part)) => (whole, Some(part)),
    };
    let exponent = exponent.map(|exponent| exponent.strip_prefix(['+', '-']).unwrap_or(exponent));
    digits(whole) && (whole == "0" || !whole.starts_with('0')) && part.is_none_or(digits) && exponent.is_none_or(digits)
}

/// A string as JSON has it, in quotes.
///
/// ```
/// assert_eq!(sheet::json::quote("a \"b\"\n"), r#""a \"b\"\n""#);
/// ```
pub fn quote(text: &str) -> String {
    let mut quoted = String::from("\"");
    for character in text.chars() {
        match character {
            '"' => quoted.push_str("\\\""),
            '\\' => quoted.push_str("\\\\"),
            '\n' => quoted.push_str("\\n"),
            '\r' => quoted.push_str("\\r"),
            '\t' => quoted.push_str("\\t"),
            control if control.is_control() => quoted.push_str(&format!("\\u{:04X}", control as u32)),
            other => quoted.push(other),
        }
    }
    quoted + "\""
}
