//! `backbone lay-out`: the best layout of a sheet.

use crate::arguments::{Arguments, Setting};
use crate::exit::{Exit, Failure};
use crate::input::Source;
use crate::output::Output;
use crate::refused::tell;
use crate::subcommand::Subcommand;
use backbone::{page, split_stored, Layout, NotLaidOut, Refusal, Sheet, WorkArea};
use sheet::{Form, Record};

pub const SUBCOMMAND: Subcommand = Subcommand {
    name: "lay-out",
    operands: "FILE|-",
    about: "the best layout of a sheet, or why it is refused",
    text: "\
Lays out the sheet in FILE, or on standard input for -, with the proved maker. Of a stored sheet the sheet is laid out
anew. The form of the input, text, hexadecimal words, words in bytes or JSON, is told by what it holds. Prints the
number of labels and the length, to which each site off its backbone adds the sheet's charge if it has one, then each
site's number, colour and slot:

    labels 2 length 19
    site 0 colour 0 slot 0
    site 1 colour 0 slot 0
    site 2 colour 1 slot 2

A sheet that is refused gives the line 'refused N' on standard output and its meaning, with the words, slots or sites
that it comes from, on standard error. Two-sided sheets are refused with 18: they are no longer laid out. The work area
is as large as the sheet needs: at most 428 million words.",
    settings: &[Setting {
        name: "--format",
        value: "FORM",
        about: "text (as above), page (as `backbone page` prints it), or the stored sheet: stored (as text), words \
                (hexadecimal), bin or json",
    }],
    exits: &[(Exit::Done, "a layout"), (Exit::Found, "refused")],
    run,
};

/// What is written.
#[derive(Clone, Copy, PartialEq, Eq)]
enum Answer {
    Lines,
    Page,
    Stored(Form),
}

const FORMATS: [(&str, Answer); 6] = [
    ("text", Answer::Lines),
    ("page", Answer::Page),
    ("stored", Answer::Stored(Form::Text)),
    ("words", Answer::Stored(Form::Words)),
    ("bin", Answer::Stored(Form::Binary)),
    ("json", Answer::Stored(Form::Json)),
];

fn run(arguments: &Arguments, output: &mut Output) -> Result<Exit, Failure> {
    let answer = arguments.choice("--format", &FORMATS)?;
    let source = Source::of(arguments.operand()?);
    let record = source.record()?;
    let (sheet, _) = split_stored(&record.words);
    match WorkArea::new().lay_out(sheet) {
        Ok(layout) => {
            output.bytes(&laid_out(&record, &layout, answer).map_err(|refusal| Failure::about(&source, &refusal))?)?;
            Ok(Exit::Done)
        }
        Err(NotLaidOut::Refused(refusal)) => {
            tell(&source, sheet, refusal, answer == Answer::Stored(Form::Json), output)
        }
        Err(stopped) => Err(Failure::about(&source, &stopped)),
    }
}

/// What is printed of a layout.
fn laid_out(record: &Record, layout: &Layout, answer: Answer) -> Result<Vec<u8>, Refusal> {
    let (sheet, _) = split_stored(&record.words);
    let words = [sheet, &layout.words()].concat();
    match answer {
        Answer::Lines => Ok(lines(&Sheet::from_words(sheet)?, layout).into_bytes()),
        Answer::Page => Ok(page(&words)?.into_bytes()),
        Answer::Stored(form) => {
            let stored = Record { words, names: record.names.clone(), claims_no_layout: false };
            Ok(sheet::write(&stored, form).unwrap_or_default())
        }
    }
}

/// The lines of a layout, as the program prints them.
fn lines(sheet: &Sheet, layout: &Layout) -> String {
    let mut text = format!("{layout}\n");
    for (number, (site, slot)) in sheet.sites().iter().zip(&layout.slots).enumerate() {
        text.push_str(&format!("site {number} colour {} slot {slot}\n", site.colour));
    }
    text
}
