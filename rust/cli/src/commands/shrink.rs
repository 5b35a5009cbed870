//! `backbone shrink`: the smallest sheet on which an engine still errs.

use crate::arguments::{Arguments, Setting};
use crate::check::{Checked, Checker, Finding};
use crate::engine::{self, Engine};
use crate::exit::{Exit, Failure};
use crate::input::Source;
use crate::output::{message, write_file, Output};
use crate::shrink::smallest;
use crate::subcommand::Subcommand;
use backbone::split_stored;
use model::sheet::Sheet;
use sheet::Record;

pub const SUBCOMMAND: Subcommand = Subcommand {
    name: "shrink",
    operands: "FILE|- --with COMMAND",
    about: "the smallest sheet on which an engine still errs",
    text: "\
Lays FILE's sheet out with an engine and checks the answer, as `backbone check --engine` does. Where the engine is at
fault, the sheet is made smaller as long as the engine has the same finding, by the same rule if a rule is broken: fewest
sites, then slots, then colours, then no charge, then the smallest numbers. What comes out is smallest in this sense: no
site, slot or colour and not the charge can be left out, no two colours can be made one, no number can be lowered and
nothing moved closer, each by itself, without the finding going.

The sheet is written as the engine answered it, a stored sheet, with the finding in a comment: `backbone check` tells the
finding of it, and `backbone draw` shows it.

COMMAND is run by the shell for each sheet. It reads the sheet on its standard input and writes on its standard output a
stored sheet, the layout alone, or the line 'refused 10'; any form is read. For an engine that may hang, COMMAND can begin
with `timeout 10`. An engine is not asked about a two-sided sheet, which is refused with 18.",
    settings: &[
        Setting { name: "--with", value: "COMMAND", about: "the engine" },
        engine::FORM,
        Setting { name: "-o", value: "OUT.txt", about: "write the sheet to this file, not to standard output" },
    ],
    exits: &[
        (Exit::Done, "the engine is not at fault on FILE's sheet, so there is nothing to make smaller"),
        (Exit::Found, "the engine is at fault, and the smallest sheet is written; or FILE's sheet is refused"),
    ],
    run,
};

fn run(arguments: &Arguments, output: &mut Output) -> Result<Exit, Failure> {
    let engine = Engine::of(arguments, "--with")?;
    let engine = engine.ok_or_else(|| Failure::WrongUse("option --with is missing".to_string()))?;
    let source = Source::of(arguments.operand()?);
    let record = source.record()?;
    let mut asked = Asked { checker: Checker::default(), engine, source, sheets: 0 };
    let first = asked.checked(Record { names: Default::default(), ..record })?;
    message(&format!("{}: {}", first.source, told(&first)));
    let words = split_stored(&first.record.words).0;
    match model::sheet::read(words) {
        Ok(sheet) if first.finding.is_fault() && !sheet.two_sided => {
            let found = asked.shrunk(sheet, kind(&first.finding))?;
            message(&format!("{} sheets were tried; of the smallest: {}", asked.sheets, told(&found)));
            write(arguments, output, &found)?;
            Ok(Exit::Found)
        }
        Ok(sheet) if !sheet.two_sided => Ok(Exit::Done),
        // Refused, and the engine was not asked.
        _ => Ok(Exit::Found),
    }
}

/// The engine, what checks its answers, and how often it was asked.
struct Asked {
    checker: Checker<'static>,
    engine: Engine,
    source: Source,
    sheets: u64,
}

impl Asked {
    /// What the engine says of a sheet. What can't be checked ends the run.
    fn checked(&mut self, sheet: Record) -> Result<Checked, Failure> {
        self.sheets += 1;
        let checked = self.checker.answer(self.source.clone(), sheet, &self.engine);
        match checked.finding {
            Finding::Unreadable(failure) => Err(failure),
            _ => Ok(checked),
        }
    }

    /// The smallest sheet with a finding of this kind, as the engine answers it. The engine is asked once more at the
    /// end: one that answers differently now and then can't be shrunk.
    fn shrunk(&mut self, sheet: Sheet, wanted: Kind) -> Result<Checked, Failure> {
        let record = |sheet: &Sheet| Record::of_words(sheet.words());
        let found = smallest(sheet, |sheet| Ok(kind(&self.checked(record(sheet))?.finding) == wanted))?;
        let checked = self.checked(record(&found))?;
        if kind(&checked.finding) != wanted {
            let (before, now) = (wanted.0, checked.finding.name());
            return Err(Failure::Unable(format!("the engine answered '{before}' and then '{now}' to one sheet")));
        }
        Ok(checked)
    }
}

/// A finding's name, with the rule that is broken or the refusal's number.
type Kind = (&'static str, u8);

fn kind(finding: &Finding) -> Kind {
    let number = match finding {
        Finding::Unlawful { rule, .. } => rule.number(),
        Finding::Refused { refusal, .. } => refusal.number(),
        _ => 0,
    };
    (finding.name(), number)
}

/// A finding in one line.
fn told(checked: &Checked) -> String {
    let text = checked.text();
    let separator = if text.is_empty() { "" } else { ": " };
    format!("{}{separator}{text}", checked.heading())
}

fn write(arguments: &Arguments, output: &mut Output, checked: &Checked) -> Result<(), Failure> {
    let text = format!("# {}\n{}", told(checked).replace('\n', " "), sheet::show_record(&checked.record));
    match arguments.path("-o") {
        Some(path) => write_file(&path, text.as_bytes()),
        None => output.text(&text),
    }
}
