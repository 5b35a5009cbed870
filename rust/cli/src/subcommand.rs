//! What a subcommand is: one table for the command line, help and the man page.

use crate::arguments::{Arguments, Setting};
use crate::commands::{check, convert, corpus, draw, lay_out, merge, page, shrink, strokes, twin, why};
use crate::exit::{Exit, Failure};
use crate::output::Output;

/// A subcommand: its texts, its options, and what it does.
pub struct Subcommand {
    pub name: &'static str,
    /// The operands, as help shows them: `FILE|-`.
    pub operands: &'static str,
    /// One line, without a full stop.
    pub about: &'static str,
    /// What it does, in paragraphs with a blank line between them. A paragraph whose lines begin with four blanks
    /// is shown as it is.
    pub text: &'static str,
    pub settings: &'static [Setting],
    /// What exit codes 0 and 1 say here.
    pub exits: &'static [(Exit, &'static str)],
    pub run: fn(&Arguments, &mut Output) -> Result<Exit, Failure>,
}

/// Every subcommand, in the order of help.
pub const ALL: [&Subcommand; 11] = [
    &lay_out::SUBCOMMAND,
    &check::SUBCOMMAND,
    &draw::SUBCOMMAND,
    &convert::SUBCOMMAND,
    &twin::SUBCOMMAND,
    &strokes::SUBCOMMAND,
    &page::SUBCOMMAND,
    &corpus::SUBCOMMAND,
    &merge::SUBCOMMAND,
    &shrink::SUBCOMMAND,
    &why::SUBCOMMAND,
];

/// The subcommand of this name.
pub fn find(name: &std::ffi::OsStr) -> Option<&'static Subcommand> {
    ALL.into_iter().find(|subcommand| name == subcommand.name)
}
