//! What is drawn below a sheet: the inside of an SVG picture in the sheet's units, or a whole one.

use std::fmt;

/// The inside of an SVG picture whose tags close in order and which has no scripts.
#[derive(Clone, Debug, PartialEq, Eq)]
pub struct Background(String);

/// Why a text can't be drawn below a sheet.
#[derive(Clone, Debug, PartialEq, Eq)]
pub enum BackgroundError {
    /// A `<` without its end.
    Unended,
    /// An end tag, and the tag that is open there.
    Misplaced {
        closed: String,
        open: Option<String>,
    },
    /// A tag that is never closed.
    Unclosed(String),
    Script,
}

impl fmt::Display for BackgroundError {
    fn fmt(&self, out: &mut fmt::Formatter) -> fmt::Result {
        match self {
            BackgroundError::Unended => {
                out.write_str("a '<' has no '>' after it, so this is no inside of an SVG picture")
            }
            BackgroundError::Misplaced { closed, open: Some(open) } => {
                write!(out, "</{closed}> stands where <{open}> is open")
            }
            BackgroundError::Misplaced { closed, open: None } => write!(out, "</{closed}> closes nothing"),
            BackgroundError::Unclosed(open) => write!(out, "<{open}> is not closed"),
            BackgroundError::Script => out.write_str("it has a script, and pictures have none"),
        }
    }
}

impl std::error::Error for BackgroundError {}

/// Begins characters that are no tags.
const CHARACTERS: &str = "<![CDATA[";

impl Background {
    /// ```
    /// use draw::Background;
    /// assert!(Background::parse("<?xml version='1.0'?><g><path d='M0 0H8'/></g>").is_ok());
    /// let error = Background::parse("<g><path></g>").unwrap_err();
    /// assert_eq!(error.to_string(), "</g> stands where <path> is open");
    /// ```
    pub fn parse(text: &str) -> Result<Background, BackgroundError> {
        let (mut kept, mut open, mut rest) = (String::new(), Vec::new(), text.trim_start_matches('\u{FEFF}'));
        while let Some(start) = rest.find('<') {
            kept.push_str(&rest[..start]);
            rest = &rest[start..];
            let end = end_of_tag(rest).ok_or(BackgroundError::Unended)?;
            let tag = &rest[..end];
            rest = &rest[end..];
            // A prolog, a type and a comment have no place inside of a picture, or need none.
            if tag.starts_with(CHARACTERS) {
                kept.push_str(tag);
            } else if !tag.starts_with("<?") && !tag.starts_with("<!") {
                follow(tag, &mut open)?;
                kept.push_str(tag);
            }
        }
        kept.push_str(rest);
        match open.pop() {
            Some(name) => Err(BackgroundError::Unclosed(name)),
            None => Ok(Background(kept.trim().to_string())),
        }
    }

    pub fn as_str(&self) -> &str {
        &self.0
    }
}

/// Where the tag or comment at the start of a text ends. A `>` in quotes does not end a tag.
fn end_of_tag(text: &str) -> Option<usize> {
    for (start, end) in [("<!--", "-->"), (CHARACTERS, "]]>")] {
        if text.starts_with(start) {
            return text.find(end).map(|place| place + end.len());
        }
    }
    let mut quote = None;
    for (place, letter) in text.char_indices() {
        match (quote, letter) {
            (None, '>') => return Some(place + 1),
            (None, '"' | '\'') => quote = Some(letter),
            (Some(open), _) if open == letter => quote = None,
            _ => {}
        }
    }
    None
}

/// Opens or closes what a tag does.
fn follow(tag: &str, open: &mut Vec<String>) -> Result<(), BackgroundError> {
    let inside = tag.trim_start_matches('<').trim_end_matches('>');
    let name =
        |text: &str| text.split(|letter: char| letter.is_whitespace() || letter == '/').next().map(str::to_string);
    if let Some(closed) = inside.strip_prefix('/') {
        let (closed, last) = (closed.trim().to_string(), open.pop());
        return if last.as_ref() == Some(&closed) {
            Ok(())
        } else {
            Err(BackgroundError::Misplaced { closed, open: last })
        };
    }
    let name = name(inside).unwrap_or_default();
    if name.eq_ignore_ascii_case("script") {
        return Err(BackgroundError::Script);
    }
    if !inside.ends_with('/') {
        open.push(name);
    }
    Ok(())
}

#[cfg(test)]
mod tests {
    use super::{Background, BackgroundError};

    fn kept(text: &str) -> Result<String, BackgroundError> {
        Background::parse(text).map(|background| background.as_str().to_string())
    }

    #[test]
    fn a_whole_picture_loses_its_prolog() {
        let text = "\u{FEFF}<?xml version=\"1.0\"?>\n<!DOCTYPE svg>\n<!-- <g> --><svg a='>'><g/></svg>\n";
        assert_eq!(kept(text).as_deref(), Ok("<svg a='>'><g/></svg>"));
        assert_eq!(kept("<a><![CDATA[<b> > ]]></a>").as_deref(), Ok("<a><![CDATA[<b> > ]]></a>"));
    }

    #[test]
    fn what_would_break_the_picture_is_refused() {
        assert_eq!(kept("<g"), Err(BackgroundError::Unended));
        assert_eq!(kept("<g a=\"></g>"), Err(BackgroundError::Unended));
        assert_eq!(kept("<g>"), Err(BackgroundError::Unclosed("g".to_string())));
        let misplaced = |closed: &str, open: Option<&str>| {
            Err(BackgroundError::Misplaced { closed: closed.to_string(), open: open.map(str::to_string) })
        };
        assert_eq!(kept("<g></svg>"), misplaced("svg", Some("g")));
        assert_eq!(kept("</g>"), misplaced("g", None));
        assert_eq!(kept("<g><script>1</script></g>"), Err(BackgroundError::Script));
    }
}
