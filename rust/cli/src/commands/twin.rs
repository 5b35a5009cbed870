//! `backbone twin`: a stored sheet made one-sided, with its layout.

use crate::arguments::{Arguments, Setting};
use crate::commands::convert::FORMS;
use crate::exit::{Exit, Failure};
use crate::input::Source;
use crate::output::Output;
use crate::refused::tell_stored;
use crate::subcommand::Subcommand;
use backbone::twin_words;
use sheet::{Form, Record};

pub const SUBCOMMAND: Subcommand = Subcommand {
    name: "twin",
    operands: "FILE|-",
    about: "a stored two-sided sheet made one-sided, with its layout",
    text: "\
Two-sided sheets, whose backbones reach from edge to edge, are read, judged, drawn and converted, but no longer laid
out. Reads a stored sheet in any form and writes its one-sided twin: the side is another, the length is the true one of
the same ties on the one-sided sheet, and all else is as it was, charge and names too. The twin is lawful, has as many
labels, and its length is not greater. A lawful one-sided sheet comes back as it is.

Whether the twin is the best layout of its sheet is not said here: `backbone check` says it, and `backbone lay-out` lays
the sheet out anew. Its best layout is never worse than the best two-sided one was.

A stored sheet that is refused gives the line 'refused N' on standard output, in JSON an object, and its meaning, with
what it comes from, on standard error: 1 to 7 and 11 as the judge refuses it, or 13, the layout breaks a rule.",
    settings: &[Setting { name: "--to", value: "FORM", about: "text (where it is not given), words, bin or json" }],
    exits: &[(Exit::Done, "the twin"), (Exit::Found, "refused")],
    run,
};

fn run(arguments: &Arguments, output: &mut Output) -> Result<Exit, Failure> {
    let form = arguments.choice("--to", &FORMS)?;
    let source = Source::of(arguments.operand()?);
    let record = source.record()?;
    match twin_words(&record.words) {
        Ok(words) => {
            let twin = Record { words, claims_no_layout: false, ..record };
            output.bytes(&sheet::write(&twin, form).unwrap_or_default())?;
            Ok(Exit::Done)
        }
        Err(refusal) => tell_stored(&source, &record.words, refusal, form == Form::Json, output),
    }
}
