//! What is found of one stored sheet.

use crate::engine::Engine;
use crate::exit::Failure;
use crate::input::Source;
use backbone::{
    causes, faults, judge, read, split_stored, Cause, Fault, Layout, NotLaidOut, Refusal, Rule, Sheet, Side, Word,
    WorkArea,
};
use sheet::Record;
use std::fmt;

/// What is found of a stored sheet.
#[derive(Clone, Debug, PartialEq, Eq)]
pub enum Finding {
    /// It is the answer.
    Best,
    /// Lawful, with the count and length of the best, but not the first in the order; where it first differs.
    Equal { site: usize, slot: u8, first: u8 },
    /// Lawful, on a two-sided sheet: these are not laid out, so that it is best is not said.
    Lawful,
    /// Lawful, and worse than the best.
    NotBest(Difference),
    /// It breaks a rule, at these places.
    Unlawful { rule: Rule, faults: Vec<Fault> },
    /// Its writer found no layout, and there is one.
    FalseNoLayout,
    /// Its writer found no layout, and there is none.
    TrueNoLayout,
    /// The engine that was asked for a layout gave no answer; why.
    NoAnswer(String),
    /// It is no stored sheet.
    Refused { refusal: Refusal, causes: Vec<Cause> },
    /// It can't be read, or there is no memory to lay it out.
    Unreadable(Failure),
}

/// By how much a layout has more than the best one; less than 0 where it has less.
#[derive(Clone, Copy, Debug, PartialEq, Eq)]
pub struct Difference {
    pub labels: i64,
    pub length: i64,
}

impl Difference {
    fn of(given: &Layout, best: &Layout) -> Difference {
        let more = |given: u32, best: u32| i64::from(given) - i64::from(best);
        Difference { labels: more(given.labels, best.labels), length: more(given.length, best.length) }
    }

    /// A unit is an eighth of a point.
    pub fn points(&self) -> f64 {
        self.length as f64 / 8.0
    }

    /// A point is 1/72 of an inch, an inch 25.4 millimetres.
    pub fn millimetres(&self) -> f64 {
        self.points() * 25.4 / 72.0
    }
}

impl fmt::Display for Difference {
    fn fmt(&self, out: &mut fmt::Formatter) -> fmt::Result {
        let mut parts = Vec::new();
        if self.labels != 0 {
            let (count, noun) = (self.labels.abs(), if self.labels.abs() == 1 { "label" } else { "labels" });
            parts.push(format!("{count} {noun} {}", if self.labels > 0 { "more" } else { "fewer" }));
        }
        if self.length != 0 {
            let (length, noun) = (self.length.abs(), if self.length.abs() == 1 { "unit" } else { "units" });
            let (points, millimetres) = (self.points().abs(), self.millimetres().abs());
            let than = if self.length > 0 { "longer" } else { "shorter" };
            parts.push(format!("{length} {noun} ({points} points, {millimetres:.3} mm) {than}"));
        }
        out.write_str(&parts.join(", "))
    }
}

impl Finding {
    /// The name, one of ten.
    pub fn name(&self) -> &'static str {
        match self {
            Finding::Best => "best",
            Finding::Equal { .. } => "equal",
            Finding::Lawful => "lawful",
            Finding::NotBest(_) => "not best",
            Finding::Unlawful { .. } => "unlawful",
            Finding::FalseNoLayout => "false no layout",
            Finding::TrueNoLayout => "true no layout",
            Finding::NoAnswer(_) => "no answer",
            Finding::Refused { .. } => "refused",
            Finding::Unreadable(_) => "unreadable",
        }
    }

    /// All names, in the order of the table.
    pub const NAMES: [&'static str; 10] = [
        "best",
        "equal",
        "lawful",
        "not best",
        "unlawful",
        "false no layout",
        "true no layout",
        "no answer",
        "refused",
        "unreadable",
    ];

    /// The names of findings with which the engine that wrote the sheet is at fault. An equal is not one: it has the
    /// best count and length. Nor is a lawful layout of a two-sided sheet: it has no best one beside it.
    pub const FAULTS: [&'static str; 5] = ["not best", "unlawful", "false no layout", "no answer", "refused"];

    /// Whether the engine that wrote the sheet is at fault.
    pub fn is_fault(&self) -> bool {
        Finding::FAULTS.contains(&self.name())
    }

    /// The slots that it names.
    pub fn slots(&self) -> Vec<usize> {
        match self {
            Finding::Unlawful { faults, .. } => united(faults.iter().flat_map(Fault::slots)),
            Finding::Refused { causes, .. } => united(causes.iter().flat_map(Cause::slots)),
            _ => Vec::new(),
        }
    }
}

fn united(numbers: impl Iterator<Item = usize>) -> Vec<usize> {
    let mut numbers: Vec<usize> = numbers.collect();
    numbers.sort_unstable();
    numbers.dedup();
    numbers
}

/// A stored sheet that was checked.
#[derive(Clone, Debug, PartialEq, Eq)]
pub struct Checked {
    pub source: Source,
    pub record: Record,
    /// The layout that it has.
    pub given: Option<Layout>,
    /// The best layout of its sheet; none where there is none, and where the sheet is refused or two-sided.
    pub best: Option<Layout>,
    /// How many cuts are nested in the best layout; none where that is none.
    pub depth: Option<u32>,
    pub finding: Finding,
}

impl Checked {
    /// The finding in words, with all that is known of it.
    pub fn text(&self) -> String {
        let best = match &self.best {
            Some(best) => format!("best: {best}"),
            None if self.is_two_sided() => NOT_LAID_OUT.to_string(),
            None => "the sheet has no layout".to_string(),
        };
        match &self.finding {
            Finding::Best | Finding::TrueNoLayout => String::new(),
            Finding::Equal { site, slot, first } => {
                format!("site {site} has slot {slot}, in the first of the equals slot {first}")
            }
            Finding::Lawful => format!("{NOT_LAID_OUT}, so that it is best is not said"),
            Finding::NotBest(difference) => format!("{difference}; {best}"),
            Finding::Unlawful { rule, faults } => format!("rule {}: {}; {best}", rule.number(), listed(faults)),
            Finding::FalseNoLayout => best,
            Finding::NoAnswer(problem) => problem.clone(),
            Finding::Refused { refusal, causes } if causes.is_empty() => refusal.to_string(),
            Finding::Refused { refusal, causes } => format!("{refusal}: {}", listed(causes)),
            Finding::Unreadable(failure) => {
                let (failure, source) = (failure.to_string(), format!("{}: ", self.source));
                failure.strip_prefix(&source).unwrap_or(&failure).to_string()
            }
        }
    }

    fn is_two_sided(&self) -> bool {
        is_two_sided(&self.record.words)
    }

    /// The sites that the finding is about. Where a fault names slots alone, these are the sites tied to them.
    pub fn sites(&self) -> Vec<usize> {
        match &self.finding {
            Finding::Equal { site, .. } => vec![*site],
            Finding::Unlawful { faults, .. } => united(faults.iter().flat_map(|fault| self.sites_of(fault))),
            Finding::Refused { causes, .. } => united(causes.iter().flat_map(Cause::sites)),
            _ => Vec::new(),
        }
    }

    fn sites_of(&self, fault: &Fault) -> Vec<usize> {
        let (sites, slots) = (fault.sites(), fault.slots());
        if !sites.is_empty() {
            return sites;
        }
        let ties = self.given.iter().flat_map(|layout| layout.slots.iter().enumerate());
        ties.filter(|(_, slot)| slots.contains(&usize::from(**slot))).map(|(site, _)| site).collect()
    }

    /// The name of the finding, with a refusal's number.
    pub fn heading(&self) -> String {
        match &self.finding {
            Finding::Refused { refusal, .. } => format!("refused {}", refusal.number()),
            finding => finding.name().to_string(),
        }
    }
}

/// Why there is no best layout beside a two-sided one.
const NOT_LAID_OUT: &str = "two-sided sheets are no longer laid out";

fn is_two_sided(words: &[u32]) -> bool {
    matches!(words.first().and_then(|head| Word::decode(*head)), Some(Word::Head { side: Side::Two, .. }))
}

/// The first few of a list, and how many more there are.
fn listed<T: fmt::Display>(items: &[T]) -> String {
    const MOST: usize = 4;
    let mut shown: Vec<String> = items.iter().take(MOST).map(T::to_string).collect();
    if items.len() > MOST {
        shown.push(format!("and {} more", items.len() - MOST));
    }
    shown.join("; ")
}

/// Checks stored sheets in one work area; with an engine, the layouts that it gives for their sheets.
#[derive(Default)]
pub struct Checker<'a> {
    area: WorkArea,
    engine: Option<&'a Engine>,
}

impl<'a> Checker<'a> {
    pub fn new(engine: Option<&'a Engine>) -> Checker<'a> {
        Checker { area: WorkArea::default(), engine }
    }

    /// What a source holds, checked.
    pub fn source(&mut self, source: &Source) -> Checked {
        match (source.record(), self.engine) {
            (Ok(record), None) => self.record(source.clone(), record),
            (Ok(record), Some(engine)) => self.answer(source.clone(), record, engine),
            (Err(failure), _) => unreadable(source.clone(), Record::default(), failure),
        }
    }

    /// What an engine says of a record's sheet, checked. A sheet that the reader refuses, or a two-sided one, is not asked
    /// about.
    pub fn answer(&mut self, source: Source, record: Record, engine: &Engine) -> Checked {
        let sheet = Record { words: split_stored(&record.words).0.to_vec(), claims_no_layout: false, ..record };
        if read(&sheet.words).is_err() {
            return self.record(source, sheet);
        }
        if is_two_sided(&sheet.words) {
            let finding = refused(&sheet.words, Refusal::TwoSided);
            return Checked { source, record: sheet, given: None, best: None, depth: None, finding };
        }
        match engine.answer(&sheet) {
            Err(failure) => unreadable(source, sheet, failure),
            Ok(Ok(answer)) => self.record(source, answer),
            Ok(Err(problem)) => {
                let mut checked = self.record(source, sheet);
                if !matches!(checked.finding, Finding::Unreadable(_)) {
                    checked.finding = Finding::NoAnswer(problem);
                }
                checked
            }
        }
    }

    /// A record, checked.
    pub fn record(&mut self, source: Source, record: Record) -> Checked {
        let (sheet_words, layout_words) = split_stored(&record.words);
        let given = Layout::from_words(layout_words);
        let (best, finding) = match self.area.lay_out(sheet_words) {
            Err(NotLaidOut::Refused(Refusal::TwoSided)) => (None, two_sided(&source, &record, given.as_ref())),
            Err(NotLaidOut::Refused(refusal)) if refusal != Refusal::NoLayout => (None, refused(sheet_words, refusal)),
            Err(stopped @ NotLaidOut::NoMemory { .. }) => {
                (None, Finding::Unreadable(Failure::about(&source, &stopped)))
            }
            laid_out => {
                let best = laid_out.ok();
                let finding = finding(&source, &record, given.as_ref(), best.as_ref());
                (best, finding)
            }
        };
        let depth = best.as_ref().and_then(|best| depth_of(sheet_words, best));
        Checked { source, record, given, best, depth, finding }
    }
}

fn unreadable(source: Source, record: Record, failure: Failure) -> Checked {
    Checked { source, record, given: None, best: None, depth: None, finding: Finding::Unreadable(failure) }
}

/// The depth of a layout.
fn depth_of(words: &[u32], layout: &Layout) -> Option<u32> {
    let sheet = model::sheet::read(words).ok()?;
    let slot_of: Vec<usize> = layout.slots.iter().map(|slot| usize::from(*slot)).collect();
    Some(model::depth::depth(&sheet, &slot_of))
}

fn refused(words: &[u32], refusal: Refusal) -> Finding {
    Finding::Refused { refusal, causes: causes(words, refusal) }
}

/// What is found of an accepted two-sided sheet: its layout is judged, and compared with no other.
fn two_sided(source: &Source, record: &Record, given: Option<&Layout>) -> Finding {
    if record.claims_no_layout {
        return refused(&record.words, Refusal::TwoSided);
    }
    match (judge(&record.words), given) {
        (Err(refusal), _) => refused(&record.words, refusal),
        (Ok(Some(rule)), Some(given)) => unlawful(&record.words, given, rule),
        (Ok(None), Some(_)) => Finding::Lawful,
        // The library judged a layout that is not there.
        (Ok(_), None) => contradicted(source),
    }
}

/// What is found of an accepted one-sided sheet whose best layout is known, none where there is none.
fn finding(source: &Source, record: &Record, given: Option<&Layout>, best: Option<&Layout>) -> Finding {
    if record.claims_no_layout {
        return if best.is_some() { Finding::FalseNoLayout } else { Finding::TrueNoLayout };
    }
    match (judge(&record.words), given, best) {
        (Err(refusal), _, _) => refused(&record.words, refusal),
        (Ok(Some(rule)), Some(given), _) => unlawful(&record.words, given, rule),
        (Ok(None), Some(given), Some(best)) => compared(&record.words, given, best),
        // The library judged a layout lawful, and found none for its sheet; or judged one that is not there.
        (Ok(_), _, _) => contradicted(source),
    }
}

fn contradicted(source: &Source) -> Finding {
    Finding::Unreadable(Failure::about(source, &"the judge and the maker contradict each other"))
}

fn unlawful(words: &[u32], given: &Layout, rule: Rule) -> Finding {
    let faults = match Sheet::from_words(split_stored(words).0) {
        Ok(sheet) => faults(&sheet, given, rule),
        Err(_) => Vec::new(),
    };
    Finding::Unlawful { rule, faults }
}

/// A lawful layout beside the best one.
fn compared(words: &[u32], given: &Layout, best: &Layout) -> Finding {
    let difference = Difference::of(given, best);
    if difference != (Difference { labels: 0, length: 0 }) {
        return Finding::NotBest(difference);
    }
    let sites = Sheet::from_words(split_stored(words).0).map_or_else(|_| Vec::new(), |sheet| sheet.sites().to_vec());
    let differing = (0..sites.len()).filter(|site| given.slots[*site] != best.slots[*site]);
    match differing.min_by_key(|site| sites[*site].x) {
        None => Finding::Best,
        Some(site) => Finding::Equal { site, slot: given.slots[site], first: best.slots[site] },
    }
}

#[cfg(test)]
mod tests {
    use super::*;

    #[test]
    fn differences_in_words() {
        let text = |labels: i64, length: i64| Difference { labels, length }.to_string();
        assert_eq!(text(1, 0), "1 label more");
        assert_eq!(text(-2, 576), "2 labels fewer, 576 units (72 points, 25.400 mm) longer");
        assert_eq!(text(0, 1), "1 unit (0.125 points, 0.044 mm) longer");
        assert_eq!(text(3, -12), "3 labels more, 12 units (1.5 points, 0.529 mm) shorter");
    }
}
