//! A sheet and its layout as an SVG picture.
//!
//! ```
//! use draw::Options;
//! let words = sheet::encode("
//!     head one-sided fewest gap 2 width 8
//!     slot 2
//!     colour unbounded
//!     site 6 4
//! ").unwrap();
//! let sheet = backbone::Sheet::from_words(&words).unwrap();
//! let layout = sheet.lay_out().unwrap();
//! let picture = draw::picture(&sheet, Some(&layout), &Options::default()).unwrap();
//! assert!(picture.starts_with("<svg "));
//! ```
//!
//! A picture is true to scale: one scale holds for x and y, and its size is in millimetres. The strokes are given in
//! the sheet's own units. No two texts overlap. It has neither scripts nor styles nor ids, so that any number of
//! pictures may stand in one page.

mod area;
mod background;
mod balloons;
mod column;
pub mod examples;
mod frame;
mod heading;
mod lines;
mod marks;
mod page;
mod paint;
mod parts;
mod plan;
mod rounded;
mod scale;
mod spread;
mod strokes;
mod text;

pub use background::{Background, BackgroundError};
pub use plan::sheet_and_layout;
pub use rounded::{rounded, CannotRound};
pub use scale::millimetres;

use backbone::{Layout, Refusal, Sheet};
use page::{document, Panel};
use plan::Plan;
use sheet::Names;

/// What a picture shows besides the sheet and the layout.
#[derive(Clone, Debug, Default)]
pub struct Options {
    pub names: Names,
    /// The heading, in place of the count and the length.
    pub title: Option<String>,
    /// Sentences below the heading.
    pub remarks: Vec<String>,
    /// Sites that are marked.
    pub marked: Vec<usize>,
    /// Drawn below the sheet, in its units.
    pub background: Option<Background>,
    /// Whether heights have a scale of their own. The picture is not true to scale then, and says so.
    pub is_stretched: bool,
}

/// The picture of a sheet with a layout, or of a sheet that is known to have none. A sheet that the reader does not
/// accept is refused, and so is a layout that is not in form.
pub fn picture(sheet: &Sheet, layout: Option<&Layout>, options: &Options) -> Result<String, Refusal> {
    let plan = Plan::of(sheet, layout)?;
    let panel = Panel {
        plan: &plan,
        title: options.title.clone(),
        remarks: options.remarks.clone(),
        marked: options.marked.clone(),
    };
    Ok(document(&[panel], options))
}

/// A layout with a title, to be shown beside another one. Without a layout the title says who claims that there is none.
#[derive(Clone, Debug)]
pub struct Side<'a> {
    pub title: &'a str,
    pub layout: Option<&'a Layout>,
}

/// Two layouts of one sheet side by side. Ties that differ are marked in both.
pub fn compare(sheet: &Sheet, sides: [Side; 2], options: &Options) -> Result<String, Refusal> {
    let plans = [Plan::of(sheet, sides[0].layout)?, Plan::of(sheet, sides[1].layout)?];
    let marked = differing(sides[0].layout, sides[1].layout);
    let panels: Vec<Panel> = plans.iter().zip(&sides).map(|(plan, side)| plan.panel(side, &marked)).collect();
    Ok(document(&panels, options))
}

/// The sites that two layouts tie to different slots.
fn differing(one: Option<&Layout>, other: Option<&Layout>) -> Vec<usize> {
    match (one, other) {
        (Some(one), Some(other)) => {
            let ties = one.slots.iter().zip(&other.slots).enumerate();
            ties.filter(|(_, (one, other))| one != other).map(|(site, _)| site).collect()
        }
        _ => Vec::new(),
    }
}

/// A coordinate in pixels with one decimal place, which is all that can be seen.
fn number(coordinate: f64) -> String {
    trimmed(&format!("{coordinate:.1}"))
}

/// A number with four decimal places, for what others are measured by.
fn precise(number: f64) -> String {
    trimmed(&format!("{number:.4}"))
}

/// Digits without zeros at the end.
fn trimmed(digits: &str) -> String {
    let short = digits.trim_end_matches('0').trim_end_matches('.');
    if short == "-0" { "0" } else { short }.to_string()
}

/// `site 3`, `sites 1, 3 and 5`.
fn listed_sites(sites: &[usize]) -> String {
    let numbers: Vec<String> = sites.iter().map(usize::to_string).collect();
    match numbers.split_last() {
        Some((last, [])) => format!("site {last}"),
        Some((last, rest)) => format!("sites {} and {last}", rest.join(", ")),
        None => "no site".to_string(),
    }
}
