//! Backbone labelling in plain Rust, written from the rules of the format and from nothing else.
//!
//! It shares no code with the library: the tests compare the two, and the benchmark times them side by side.
//!
//! - [`sheet`]: a sheet, its words, the reader's refusals;
//! - [`rules`]: the rules of a lawful layout, and the judge;
//! - [`search`]: the best layout by trying every layout;
//! - [`ranked`]: the best and the second best, by a search that leaves a branch early;
//! - [`maker`]: the best layout of a one-sided sheet by a table and a walk, in the caller's areas;
//! - [`twin`]: the one-sided twin of a stored sheet;
//! - [`strokes`]: what a viewer draws of a stored sheet;
//! - [`page`]: the page of a stored sheet for the print room;
//! - [`program`]: what the program prints;
//! - [`random`]: random sheets, and damage to them;
//! - [`crowded`]: random stored sheets up to the limits of the counts;
//! - [`verdicts`]: how often each verdict was met;
//! - [`nested`]: random sheets that are aimed at a depth;
//! - [`depth`]: how many cuts are nested in a layout;
//! - [`rounding`]: a rival that rounds at each cut.

mod areas;
mod budgets;
mod costs;
pub mod crowded;
pub mod depth;
pub mod maker;
pub mod nested;
mod one_sided;
pub mod page;
mod places;
pub mod program;
pub mod random;
pub mod ranked;
pub mod rounding;
pub mod rules;
pub mod search;
pub mod sheet;
pub mod strokes;
pub mod twin;
pub mod verdicts;
