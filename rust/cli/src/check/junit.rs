//! Findings as JUnit's XML: a test case a sheet; faults are failures, what can't be read is an error.

use super::{Checked, Counts, Finding, Format};
use crate::exit::Failure;
use crate::output::Output;

/// The counts stand in front of the cases, so these wait for the end.
#[derive(Default)]
pub struct Junit {
    cases: String,
}

/// Text inside an XML attribute. Characters that XML can't hold are replaced.
pub fn escaped(text: &str) -> String {
    let mut escaped = String::new();
    for character in text.chars() {
        match character {
            '&' => escaped.push_str("&amp;"),
            '<' => escaped.push_str("&lt;"),
            '>' => escaped.push_str("&gt;"),
            '"' => escaped.push_str("&quot;"),
            '\'' => escaped.push_str("&#39;"),
            '\t' | '\n' | '\r' => escaped.push_str(&format!("&#{};", character as u32)),
            '\0'..='\x1F' | '\u{FFFE}' | '\u{FFFF}' => escaped.push('\u{FFFD}'),
            other => escaped.push(other),
        }
    }
    escaped
}

impl Format for Junit {
    fn sheet(&mut self, checked: &Checked, _: &mut Output) -> Result<(), Failure> {
        let element = match &checked.finding {
            Finding::Unreadable(_) => Some("error"),
            finding => finding.is_fault().then_some("failure"),
        };
        let name = escaped(&checked.source.to_string());
        let (heading, text) = (escaped(&checked.heading()), escaped(&checked.text()));
        self.cases.push_str(&format!("  <testcase classname=\"backbone.check\" name=\"{name}\""));
        match element {
            None => self.cases.push_str("/>\n"),
            Some(element) => self.cases.push_str(&format!(
                ">\n    <{element} type=\"{heading}\" message=\"{heading}: {text}\"/>\n  </testcase>\n"
            )),
        }
        Ok(())
    }

    fn end(&mut self, counts: &Counts, output: &mut Output) -> Result<(), Failure> {
        let (tests, failures, errors) = (counts.all(), counts.faults(), counts.unreadable());
        output.text(&format!(
            "<?xml version=\"1.0\" encoding=\"UTF-8\"?>\n<testsuite name=\"backbone check\" tests=\"{tests}\" \
             failures=\"{failures}\" errors=\"{errors}\" skipped=\"0\">\n{}</testsuite>\n",
            self.cases
        ))
    }
}
