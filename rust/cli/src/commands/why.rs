//! `backbone why`: why a sheet is refused.

use crate::arguments::{Arguments, Setting};
use crate::exit::{Exit, Failure};
use crate::input::Source;
use crate::maker::Maker;
use crate::output::{write_file, Output};
use crate::refused::advice;
use crate::subcommand::Subcommand;
use crate::why::remedies::{Heights, Raised, Remedies};
use crate::why::{is_smallest, smallest_set};
use backbone::{causes, split_stored, Refusal};
use draw::Options;
use model::sheet::{Sheet, UNBOUNDED};
use sheet::Names;

pub const SUBCOMMAND: Subcommand = Subcommand {
    name: "why",
    operands: "FILE|-",
    about: "why a sheet is refused, and what would help where no layout exists",
    text: "\
For a sheet without a layout (refusal 10): a smallest set of sites for which there is still none, so that leaving out any
one of them gives a layout; and what would help: the largest gap that has a layout, bounds that are raised, heights at
which one more slot gives a layout. Each claim is a call of the proved maker, not a guess. A charge plays no part: it
alters lengths alone.

For the other refusals of a sheet, that of a two-sided sheet (18) among them: the words, slots, colours or sites that they
come from. The layout of a stored sheet is left aside; `backbone check` judges it.",
    settings: &[Setting { name: "-o", value: "OUT.svg", about: "draw the sheet with the set of sites marked" }],
    exits: &[(Exit::Done, "the sheet has a layout"), (Exit::Found, "the sheet is refused")],
    run,
};

fn run(arguments: &Arguments, output: &mut Output) -> Result<Exit, Failure> {
    let source = Source::of(arguments.operand()?);
    let record = source.record()?;
    let words = split_stored(&record.words).0;
    let mut maker = Maker::default();
    let sheet = match backbone::read(words) {
        Ok(_) => model::sheet::read(words).map_err(|number| Failure::about(&source, &format!("refused {number}")))?,
        Err(refusal) => return refused(words, refusal, output),
    };
    match maker.lay_out(&sheet)? {
        Ok(layout) => {
            output.text(&format!("the sheet has a layout: {layout}\n"))?;
            Ok(Exit::Done)
        }
        Err(Refusal::NoLayout) => {
            let found = Explanation::of(&sheet, &mut maker)?;
            output.text(&found.text(&sheet, &record.names))?;
            if let Some(path) = arguments.path("-o") {
                write_file(&path, found.picture(words, &sheet, &record.names)?.as_bytes())?;
            }
            Ok(Exit::Found)
        }
        Err(refusal) => refused(words, refusal, output),
    }
}

/// A refusal other than 10, with what it comes from and what can be done.
fn refused(words: &[u32], refusal: Refusal, output: &mut Output) -> Result<Exit, Failure> {
    output.text(&format!("refused {}: {refusal}\n", refusal.number()))?;
    for cause in causes(words, refusal) {
        output.text(&format!("  {cause}\n"))?;
    }
    if let Some(advice) = advice(refusal) {
        output.text(&format!("{advice}\n"))?;
    }
    Ok(Exit::Found)
}

/// Why a sheet has no layout.
struct Explanation {
    set: Vec<usize>,
    gap: Option<u32>,
    bounds: Vec<Raised>,
    slots: Vec<Heights>,
}

impl Explanation {
    fn of(sheet: &Sheet, maker: &mut Maker) -> Result<Explanation, Failure> {
        let set = smallest_set(sheet, maker)?;
        if !is_smallest(sheet, &set, maker)? {
            return Err(Failure::Unable("the set of sites that was found is not smallest".to_string()));
        }
        let mut remedies = Remedies::new(sheet, &set, maker);
        let (gap, bounds) = (remedies.largest_gap()?, remedies.raised_bounds()?);
        let slots = remedies.helping_slots()?;
        Ok(Explanation { set, gap, bounds, slots })
    }

    fn heading(&self, sheet: &Sheet) -> String {
        let all = sheet.sites.len();
        match self.set.len() {
            1 => format!("1 of {all} sites has no layout by itself"),
            set => format!("{set} of {all} sites have no layout together; leaving out any one of them gives one"),
        }
    }

    fn text(&self, sheet: &Sheet, names: &Names) -> String {
        let mut text = format!("refused 10: {}\n{}:\n", Refusal::NoLayout, self.heading(sheet));
        for site in &self.set {
            text.push_str(&format!("  {}\n", site_line(*site, sheet, names)));
        }
        text.push_str("what would help, each tried:\n");
        for line in self.remedies(sheet, names) {
            text.push_str(&format!("  {line}\n"));
        }
        text
    }

    fn remedies(&self, sheet: &Sheet, names: &Names) -> Vec<String> {
        let mut lines = vec![match self.gap {
            Some(gap) => format!("a gap of {gap} helps, and {} does not; it is {}", gap + 1, sheet.gap),
            None => "no smaller gap helps".to_string(),
        }];
        lines.extend(self.bounds.iter().map(|raised| bound_line(raised, names)));
        if self.bounds.is_empty() {
            let is_bounded = sheet.bounds.iter().any(|bound| *bound != UNBOUNDED);
            lines.push(
                if is_bounded { "no bound helps when it alone is raised" } else { "there is no bound to raise" }
                    .to_string(),
            );
        }
        lines.push(slots_line(&self.slots, sheet));
        lines
    }

    /// The sheet with the set of sites marked, and what would help below its heading.
    fn picture(&self, words: &[u32], sheet: &Sheet, names: &Names) -> Result<String, Failure> {
        let drawn = backbone::Sheet::from_words(words).map_err(|refusal| Failure::Unable(refusal.to_string()))?;
        let options = Options {
            names: names.clone(),
            title: Some(self.heading(sheet)),
            remarks: self.remedies(sheet, names),
            marked: self.set.clone(),
            ..Options::default()
        };
        draw::picture(&drawn, None, &options).map_err(|refusal| Failure::Unable(refusal.to_string()))
    }
}

/// A name after a number, where there is one.
fn named(name: Option<&str>) -> String {
    name.map_or_else(String::new, |name| format!(" \"{name}\""))
}

fn site_line(number: usize, sheet: &Sheet, names: &Names) -> String {
    let site = sheet.sites[number];
    let (own, colour) = (named(names.site(number)), named(names.colour(site.colour)));
    format!("site {number}{own} at x {} y {}, colour {}{colour}", site.x, site.y, site.colour)
}

fn bound_line(raised: &Raised, names: &Names) -> String {
    let Raised { colour, from, to } = *raised;
    let name = named(names.colour(colour));
    if to == UNBOUNDED {
        format!("colour {colour}{name} without a bound helps; its bound is {from}")
    } else {
        format!("a bound of {to} for colour {colour}{name} helps; it is {from}")
    }
}

fn slots_line(ranges: &[Heights], sheet: &Sheet) -> String {
    if sheet.slots.len() >= backbone::MOST_SLOTS {
        return format!("no slot can be added: the sheet has {} slots", sheet.slots.len());
    }
    let range = |(from, to): &Heights| if from == to { format!("{from}") } else { format!("{from} to {to}") };
    match ranges {
        [] => "no one slot more helps".to_string(),
        ranges => {
            format!("one more slot helps at height {}", ranges.iter().map(range).collect::<Vec<_>>().join(", or "))
        }
    }
}
