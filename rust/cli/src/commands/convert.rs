//! `backbone convert`: a sheet from one form to another.

use crate::arguments::{Arguments, Setting};
use crate::exit::{Exit, Failure};
use crate::input::Source;
use crate::output::Output;
use crate::subcommand::Subcommand;
use sheet::Form;

pub const SUBCOMMAND: Subcommand = Subcommand {
    name: "convert",
    operands: "--to FORM FILE|-",
    about: "a sheet or a stored sheet from one form to another",
    text: "\
Reads a sheet or a stored sheet in any form, told by what it holds, and writes it in the form that --to names. Any list
of words can be converted, whether it is refused or not.

Text (--to text) is UTF-8, one line a word; blank lines and what follows a # are left out. A name may stand after a
colour or a site, in quotes; \\\", \\\\, \\n, \\r, \\t and \\u{..} stand for characters. Names are no part of the words.

    head one-sided fewest gap 2 width 8
    charge 3
    slot 2
    colour bound 3 \"screws\"
    site 2 4 \"front weight\"
    colour unbounded
    layout labels 1 length 11
    tie 0

The charge may be left out, which is a charge of 0; a line 'charge 0' is kept. In place of the layout may stand the line
'refused 10': the sheet's writer found no layout. Words without a line of their own are numbers, 0x60000000.

Hexadecimal words (--to words) are numbers as 0x20000002, one a line; they may also share a line, with blanks or commas
between them. 'refused 10' is a line of its own here too.

Words in bytes (--to bin) are four bytes each, the lowest first, as the program reads them. They have no place for
'refused 10', so a sheet with it can't be converted (exit 3), and none for names.

JSON (--to json) is an object. A bound of null is unbounded; charge, names, layout and refused may be left out, and refused
stands in the layout's place. A list of words that is not in a stored sheet's order is {\"words\": [\"0x60000000\"]}.

    {\"side\": \"one-sided\", \"aim\": \"fewest\", \"gap\": 2, \"width\": 8, \"charge\": 3, \"slots\": [2],
     \"colours\": [{\"bound\": 3, \"name\": \"screws\", \"sites\": [{\"x\": 2, \"y\": 4, \"name\": \"front weight\"}]}],
     \"layout\": {\"labels\": 1, \"length\": 11, \"slots\": [0]}}",
    settings: &[Setting { name: "--to", value: "FORM", about: "text, words, bin or json" }],
    exits: &[(Exit::Done, "converted")],
    run,
};

/// The forms by their names.
pub const FORMS: [(&str, Form); 4] =
    [("text", Form::Text), ("words", Form::Words), ("bin", Form::Binary), ("json", Form::Json)];

fn run(arguments: &Arguments, output: &mut Output) -> Result<Exit, Failure> {
    if !arguments.has("--to") {
        return Err(Failure::WrongUse("option --to is missing".to_string()));
    }
    let form = arguments.choice("--to", &FORMS)?;
    let source = Source::of(arguments.operand()?);
    let bytes = sheet::write(&source.record()?, form);
    output.bytes(&bytes.ok_or_else(|| Failure::about(&source, &"words in bytes have no place for 'refused 10'"))?)?;
    Ok(Exit::Done)
}
