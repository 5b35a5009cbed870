//! Backbone labelling of parts sheets: a safe crate over the verified static library.
//!
//! A drawing of parts has numbered sites. Each label at the right margin has one horizontal line, its backbone,
//! to which the label's sites drop. The library ties each site to one of the given slots so that backbones and
//! drops keep clear of each other, with the fewest labels or the shortest lines. Its answer is proved to be the
//! best, and the only one.
//!
//! ```
//! use backbone::{Aim, Sheet, Side};
//!
//! let mut sheet = Sheet::new(Side::One, Aim::Fewest, 2, 8)?;
//! for height in [2, 5, 8] {
//!     sheet.add_slot(height)?;
//! }
//! let (bolts, nuts) = (sheet.add_colour(None)?, sheet.add_colour(None)?);
//! sheet.add_site(bolts, 2, 4)?;
//! sheet.add_site(bolts, 6, 6)?;
//! sheet.add_site(nuts, 4, 5)?;
//! let layout = sheet.lay_out()?;
//! assert_eq!((layout.labels, layout.length), (2, 19));
//! assert_eq!(layout.slots, [0, 0, 2]);
//! # Ok::<(), Box<dyn std::error::Error>>(())
//! ```
//!
//! [`read`], [`make`], [`judge`], [`twin`], [`stroke_at`] and [`write_page`] are the library's own operations, on lists of
//! words. [`Sheet`] builds such lists, [`Layout`] takes answers apart, [`Stored`] is a sheet with a layout, [`Word`] names the
//! fields of one word. [`strokes`] are what a viewer draws of a stored sheet, [`page()`] is its text for the print room.
//! [`labels`] are a layout's used slots, [`faults`] the places at which it breaks a rule, [`causes`] the words that a
//! refusal comes from. [`WorkArea`] lays out many sheets in one area.
//!
//! Two-sided sheets, whose backbones reach from edge to edge, are read and judged, but no longer laid out. [`twin`] turns
//! a stored one into a one-sided one.
//!
//! Editors dislike many short drops: a sheet may have a charge ([`Sheet::set_charge`]), which each site off its backbone
//! adds to the length. [`Sheet::share`] is a site's part of the length.
//!
//! The left end of a one-sided backbone, its tip, is kept clear too: a site of another label that is left of it by less than
//! the gap lies at least the gap above or below ([`Rule::SitesClear`], [`Fault::NearTip`]).
//!
//! One unit of length is an eighth of a printer's point. x counts from the left edge, heights downwards from the
//! top.

mod cause;
mod fault;
mod label;
mod layout;
mod library;
mod numbered;
mod page;
mod refusal;
mod rule;
mod sheet;
mod stored;
mod stroke;
mod word;
mod work_area;

pub use cause::{causes, Cause};
pub use fault::{faults, Fault};
pub use label::{labels, true_numbers, Label};
pub use layout::Layout;
pub use library::{judge, lay_out, make, read, stroke_at, twin, twin_words, write_page, ColourSizes, Sizes};
pub use page::{page, MOST_PAGE_BYTES, PAGE_LINE_BYTES};
pub use refusal::Refusal;
pub use rule::Rule;
pub use sheet::{Sheet, Site};
pub use stored::{split_stored, Stored};
pub use stroke::{strokes, End, Stroke, Strokes};
pub use word::{Aim, FormError, Side, Word};
pub use work_area::{NotLaidOut, WorkArea};

/// The most slots that a sheet may have.
pub const MOST_SLOTS: usize = 48;
/// The most colours that a sheet may have.
pub const MOST_COLOURS: usize = 8;
/// The most sites that a sheet may have.
pub const MOST_SITES: usize = 32;
/// The greatest charge that a sheet may have.
pub const MOST_CHARGE: u32 = 16_383;
/// The most that the product of bound plus one over the bounded colours may be.
pub const MOST_BUDGETS: u64 = 64;

/// The Rust lines of the README, which are compiled and run as those of this crate's own pages are.
#[cfg(doctest)]
#[doc = include_str!("../../../README.md")]
pub struct Readme;
