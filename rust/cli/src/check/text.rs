//! Findings as text: a line a sheet, and a table at the end.

use super::{Checked, Counts, Format};
use crate::exit::Failure;
use crate::output::Output;

pub struct Text;

impl Format for Text {
    fn sheet(&mut self, checked: &Checked, output: &mut Output) -> Result<(), Failure> {
        let text = checked.text();
        let separator = if text.is_empty() { "" } else { ": " };
        output.text(&format!("{}: {}{separator}{text}\n", checked.source, checked.heading()))
    }

    fn end(&mut self, counts: &Counts, output: &mut Output) -> Result<(), Failure> {
        output.text(&format!("\n{}", counts.table()))
    }
}
