//! Lines of text, and the room that they take.

use crate::number;

/// The widths of the characters from blank to `~` in Helvetica and Arial, in thousandths of the size.
#[rustfmt::skip]
const WIDTHS: [u16; 95] = [
    278, 278, 355, 556, 556, 889, 667, 191, 333, 333, 389, 584, 278, 333, 278, 278, 556, 556, 556, 556, 556, 556, 556,
    556, 556, 556, 278, 278, 584, 584, 584, 556, 1015, 667, 667, 722, 722, 667, 611, 778, 722, 278, 500, 667, 556, 833,
    722, 778, 667, 778, 722, 667, 611, 722, 667, 944, 667, 667, 611, 278, 278, 278, 469, 556, 333, 556, 556, 500, 556,
    556, 278, 556, 556, 222, 222, 500, 222, 833, 556, 556, 556, 556, 333, 500, 278, 556, 500, 722, 500, 500, 500, 334,
    260, 334, 584,
];
/// The same for bold text.
#[rustfmt::skip]
const BOLD_WIDTHS: [u16; 95] = [
    278, 333, 474, 556, 556, 889, 722, 238, 333, 333, 389, 584, 278, 333, 278, 278, 556, 556, 556, 556, 556, 556, 556,
    556, 556, 556, 333, 333, 584, 584, 584, 611, 975, 722, 722, 722, 722, 667, 611, 778, 722, 278, 556, 722, 611, 833,
    722, 778, 667, 778, 722, 667, 611, 722, 667, 944, 667, 667, 611, 333, 278, 333, 584, 556, 333, 556, 611, 556, 611,
    556, 333, 611, 611, 278, 278, 556, 278, 889, 611, 611, 611, 611, 389, 556, 333, 611, 556, 778, 556, 556, 500, 389,
    280, 389, 584,
];
/// Scripts from here on have characters as wide as they are high.
const FIRST_WIDE: char = '\u{2E80}';

/// The room that a text takes across. Each text states it as its `textLength`, so that every font keeps to it.
pub fn width(words: &str, size: f64, is_bold: bool) -> f64 {
    let widths = if is_bold { &BOLD_WIDTHS } else { &WIDTHS };
    let one = |letter: char| match letter {
        ' '..='~' => f64::from(widths[letter as usize - ' ' as usize]) / 1000.0,
        FIRST_WIDE.. => 1.0,
        _ => 0.6,
    };
    words.chars().map(one).sum::<f64>() * size
}

/// A text as XML holds it. Characters that XML has no form for are replaced.
pub fn escape(words: &str) -> String {
    let one = |letter: char| match letter {
        '&' => "&amp;".to_string(),
        '<' => "&lt;".to_string(),
        '>' => "&gt;".to_string(),
        '"' => "&quot;".to_string(),
        '\'' => "&#39;".to_string(),
        _ if letter.is_control() || ('\u{FFFE}'..='\u{FFFF}').contains(&letter) => '\u{FFFD}'.to_string(),
        _ => letter.to_string(),
    };
    words.chars().map(one).collect()
}

/// The text if it has the room, else its beginning and three dots.
pub fn shortened(words: &str, size: f64, is_bold: bool, room: f64) -> String {
    if width(words, size, is_bold) <= room {
        return words.to_string();
    }
    let mut kept: String = words.to_string();
    while !kept.is_empty() && width(&kept, size, is_bold) + width("...", size, is_bold) > room {
        kept.pop();
    }
    kept.trim_end().to_string() + "..."
}

/// The text in lines that have the room.
pub fn wrapped(words: &str, size: f64, is_bold: bool, room: f64) -> Vec<String> {
    let mut lines: Vec<String> = Vec::new();
    for word in words.split_whitespace() {
        let word = shortened(word, size, is_bold, room);
        match lines.last_mut() {
            Some(line) if width(&format!("{line} {word}"), size, is_bold) <= room => {
                line.push(' ');
                line.push_str(&word);
            }
            _ => lines.push(word),
        }
    }
    lines
}

#[derive(Clone, Copy, Debug, PartialEq, Eq)]
pub enum Anchor {
    Start,
    Middle,
    End,
}

impl Anchor {
    fn name(self) -> &'static str {
        match self {
            Anchor::Start => "start",
            Anchor::Middle => "middle",
            Anchor::End => "end",
        }
    }
}

/// How a text looks.
#[derive(Clone, Copy, Debug, PartialEq)]
pub struct Style {
    pub size: f64,
    pub anchor: Anchor,
    pub is_bold: bool,
    pub fill: &'static str,
}

/// What holds outside of all groups of texts. Its size and fill are no text's.
const NO_STYLE: Style = Style { size: 0.0, anchor: Anchor::Start, is_bold: false, fill: "" };

impl Style {
    /// The attributes in which it differs from what holds around it.
    fn attributes(&self, around: &Style) -> String {
        let mut attributes = String::new();
        if self.size != around.size {
            attributes += &format!(" font-size=\"{}\"", number(self.size));
        }
        if self.anchor != around.anchor {
            attributes += &format!(" text-anchor=\"{}\"", self.anchor.name());
        }
        if self.is_bold != around.is_bold {
            attributes += &format!(" font-weight=\"{}\"", if self.is_bold { "bold" } else { "normal" });
        }
        if self.fill != around.fill {
            attributes += &format!(" fill=\"{}\"", self.fill);
        }
        attributes
    }

    /// Texts that stand in a group have this style unless they say otherwise.
    pub fn group(&self, texts: &str) -> String {
        if texts.is_empty() {
            return String::new();
        }
        format!("<g{}>\n{texts}</g>\n", self.attributes(&NO_STYLE))
    }

    /// A text in a group of another style, or of this one: its anchor is at x, on the line that the letters stand on.
    pub fn text(&self, around: &Style, words: &str, x: f64, y: f64) -> String {
        format!(
            "<text x=\"{}\" y=\"{}\" textLength=\"{}\"{}>{}</text>\n",
            number(x),
            number(y),
            number(width(words, self.size, self.is_bold)),
            self.attributes(around),
            escape(words)
        )
    }
}
