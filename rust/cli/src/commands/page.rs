//! `backbone page`: the text that the print room pins up for a stored sheet.

use crate::arguments::Arguments;
use crate::exit::{Exit, Failure};
use crate::input::Source;
use crate::output::Output;
use crate::refused::tell_stored;
use crate::subcommand::Subcommand;
use backbone::page;

pub const SUBCOMMAND: Subcommand = Subcommand {
    name: "page",
    operands: "FILE|-",
    about: "the page of a stored sheet, a text for the print room",
    text: "\
Reads a stored sheet in any form and prints its page: a line for each used slot, by rising slot, then a line for each site,
in sheet order, then the total. Each line is filled with blanks to 40 columns and ends with a line feed.

      0  0  2        2       12
      2  1  1        8        7
      drop   0   0       -2
      drop   1   0       -4
      drop   2   2       +3
    total    2               19

Columns count from 1. Numbers stand at the right of their columns, and all else is blank:

    a used slot   slot 1 to 3, colour 5 to 6, its number of sites 8 to 9, height 11 to 18, length 20 to 27
    a site        '  drop' 1 to 6, site 8 to 10, slot 12 to 14, drop 16 to 23
    the total     'total' 1 to 5, number of labels 8 to 10, length 20 to 27

A slot's length is that of its own label: its backbone, and its sites' drops without their signs, with the sheet's charge
for each that is not 0. These lengths add up to the total. A drop is the slot's height less the site's y: + where the
slot lies below the site, - where it lies above, and 0 where the site is on its backbone.

A stored sheet that is refused gives the line 'refused N' on standard output and its meaning, with what it comes from, on
standard error: 1 to 7 and 11 as the judge refuses it, or 13, the layout breaks a rule. `backbone lay-out --format page`
prints the page of a sheet's best layout.",
    settings: &[],
    exits: &[(Exit::Done, "the page"), (Exit::Found, "refused")],
    run,
};

fn run(arguments: &Arguments, output: &mut Output) -> Result<Exit, Failure> {
    let source = Source::of(arguments.operand()?);
    let stored = source.record()?.words;
    match page(&stored) {
        Ok(text) => {
            output.text(&text)?;
            Ok(Exit::Done)
        }
        Err(refusal) => tell_stored(&source, &stored, refusal, false, output),
    }
}
