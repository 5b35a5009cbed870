//! Stored sheets held against the best layout: what is found of each, in which order it is told, and in which form.

mod counts;
mod finding;
mod json;
mod junit;
mod pool;
mod report;
mod text;
mod tsv;

pub use counts::Counts;
pub use finding::{Checked, Checker, Finding};
pub use pool::in_order;
pub use report::Report;
pub use tsv::NAMES as TSV_NAMES;

use crate::exit::Failure;
use crate::output::Output;

/// How findings are written: a beginning, something for each sheet in its turn, and an end.
pub trait Format {
    fn begin(&mut self, _: &mut Output) -> Result<(), Failure> {
        Ok(())
    }
    fn sheet(&mut self, checked: &Checked, output: &mut Output) -> Result<(), Failure>;
    fn end(&mut self, counts: &Counts, output: &mut Output) -> Result<(), Failure>;
}

/// What begins a format.
type Begin = fn() -> Box<dyn Format>;

/// The formats by their names, the one that is taken without an option first.
pub const FORMATS: [(&str, Begin); 4] = [
    ("text", || Box::new(text::Text)),
    ("json", || Box::new(json::Json::default())),
    ("tsv", || Box::new(tsv::Tsv)),
    ("junit", || Box::new(junit::Junit::default())),
];
