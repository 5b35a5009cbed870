//! What is drawn: a sheet, its layout if there is one, its labels with their lines, and the judge's verdict.

use crate::lines::{of_labels, of_strokes, LabelLines};
use crate::page::Panel;
use crate::{listed_sites, Side};
use backbone::{faults, judge, labels, read, split_stored, strokes, Fault, Label, Layout, NotLaidOut};
use backbone::{Refusal, Rule, Sheet, WorkArea};

pub struct Plan {
    pub sheet: Sheet,
    pub layout: Option<Layout>,
    pub labels: Vec<Label>,
    /// Those of each label.
    pub lines: Vec<LabelLines>,
    pub broken: Option<Rule>,
    pub faults: Vec<Fault>,
}

impl Plan {
    pub fn of(sheet: &Sheet, layout: Option<&Layout>) -> Result<Plan, Refusal> {
        let words = sheet.words();
        let Some(layout) = layout else {
            read(&words)?;
            return Ok(Plan {
                sheet: sheet.clone(),
                layout: None,
                labels: Vec::new(),
                lines: Vec::new(),
                broken: None,
                faults: Vec::new(),
            });
        };
        let stored = [words, layout.words()].concat();
        let broken = judge(&stored)?;
        let labels = labels(sheet, layout);
        let lines = match broken {
            None => of_strokes(sheet, &labels, strokes(&stored)?),
            Some(_) => of_labels(sheet, &labels),
        };
        let faults = broken.map_or_else(Vec::new, |rule| faults(sheet, layout, rule));
        Ok(Plan { sheet: sheet.clone(), layout: Some(layout.clone()), labels, lines, broken, faults })
    }

    /// One side of a comparison.
    pub fn panel(&self, side: &Side, marked: &[usize]) -> Panel<'_> {
        let remarks = match marked {
            [] => Vec::new(),
            _ => vec![format!("ties that differ: {}", listed_sites(marked))],
        };
        Panel { plan: self, title: Some(side.title.to_string()), remarks, marked: marked.to_vec() }
    }
}

/// The sheet and the layout of a stored sheet; of a sheet alone the library's layout, or none where it has none.
pub fn sheet_and_layout(words: &[u32]) -> Result<(Sheet, Option<Layout>), NotLaidOut> {
    let (sheet_words, layout_words) = split_stored(words);
    let sheet = Sheet::from_words(sheet_words)?;
    if !layout_words.is_empty() {
        return Ok((sheet, Some(Layout::from_words(layout_words).ok_or(Refusal::BadLayout)?)));
    }
    match WorkArea::new().lay_out(sheet_words) {
        Ok(layout) => Ok((sheet, Some(layout))),
        Err(NotLaidOut::Refused(Refusal::NoLayout)) => Ok((sheet, None)),
        Err(stopped) => Err(stopped),
    }
}
