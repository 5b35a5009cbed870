//! A sheet, a layout or a stored sheet as text, as hexadecimal words, as bytes and as JSON, and back.
//!
//! ```text
//! head one-sided fewest gap 2 width 8
//! charge 3
//! slot 5
//! colour unbounded "screws"
//! site 6 4 "front weight"
//! colour bound 2
//! layout labels 1 length 6
//! tie 0
//! ```
//!
//! In text, one line is one word. Names are no part of the words; they are kept beside them. The line `refused 10`
//! after a sheet says that its writer found no layout. A line may also be words as numbers, `0x20000005`; words that
//! have no name are shown so. Blank lines and what follows a `#` are left out. Every list of words is shown as a text
//! that encodes to the same list.

mod form;
pub mod json;
mod json_form;
mod names;
mod record;
mod text;
mod tokens;

pub use form::{read, read_as, write, Form, ReadError};
pub use json_form::{parse_json, show_json};
pub use names::Names;
pub use record::{has_layout, Record};
pub use text::{encode, parse, show, show_number, show_record};
pub use tokens::TextError;
