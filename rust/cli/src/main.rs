//! The command `backbone`: lays out, checks, draws and converts parts sheets.

mod arguments;
mod check;
mod commands;
mod corpus;
mod engine;
mod exit;
mod help;
mod input;
mod maker;
mod output;
mod progress;
mod refused;
mod shard;
mod shrink;
mod streams;
mod subcommand;
mod why;

use arguments::Arguments;
use exit::{Exit, Failure};
use output::{message, Output};
use std::ffi::OsString;
use std::process::ExitCode;

fn main() -> ExitCode {
    let mut output = Output::standard();
    let arguments = std::env::args_os().skip(1).collect();
    let done = run(arguments, &mut output);
    // What was written before a failure is kept.
    let written = output.finish();
    match done.and_then(|exit| written.map(|()| exit)) {
        Ok(exit) => exit.into(),
        Err(failure) => {
            message(&failure.to_string());
            failure.exit().into()
        }
    }
}

fn run(mut arguments: Vec<OsString>, output: &mut Output) -> Result<Exit, Failure> {
    const TRY: &str = "`backbone --help` lists the subcommands";
    if arguments.is_empty() {
        return Err(Failure::WrongUse(format!("a subcommand is missing; {TRY}")));
    }
    let name = arguments.remove(0);
    match name.to_str() {
        Some("--help" | "-h" | "help") => {
            let of_one = arguments.first().and_then(|name| subcommand::find(name)).map(help::of);
            output.text(&of_one.unwrap_or_else(help::overview))?;
        }
        Some("--version" | "-V") => output.text(&help::version())?,
        Some("--man") => output.text(&help::man_page())?,
        _ => {
            let unknown = || Failure::WrongUse(format!("no subcommand '{}'; {TRY}", name.to_string_lossy()));
            return run_subcommand(subcommand::find(&name).ok_or_else(unknown)?, arguments, output);
        }
    }
    Ok(Exit::Done)
}

fn run_subcommand(
    subcommand: &subcommand::Subcommand,
    arguments: Vec<OsString>,
    output: &mut Output,
) -> Result<Exit, Failure> {
    let operands_follow = arguments.iter().position(|argument| argument == "--").unwrap_or(arguments.len());
    if arguments[..operands_follow].iter().any(|argument| argument == "--help" || argument == "-h") {
        output.text(&help::of(subcommand))?;
        return Ok(Exit::Done);
    }
    let done = Arguments::parse(subcommand.settings, arguments).and_then(|parsed| (subcommand.run)(&parsed, output));
    done.map_err(|failure| match failure {
        Failure::WrongUse(problem) => {
            Failure::WrongUse(format!("{problem}\n`backbone {} --help` says how it is used", subcommand.name))
        }
        other => other,
    })
}
