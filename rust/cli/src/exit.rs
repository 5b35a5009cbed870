//! How a run ends. Each code has one meaning in every subcommand.

use std::fmt;
use std::process::ExitCode;

/// The exit codes.
#[derive(Clone, Copy, Debug, PartialEq, Eq)]
pub enum Exit {
    /// 0: done, and nothing is amiss.
    Done = 0,
    /// 1: done, and there is something to tell: a refusal, or findings.
    Found = 1,
    /// 2: wrong use; nothing was done.
    WrongUse = 2,
    /// 3: input that can't be read, output that can't be written, or no memory.
    Unable = 3,
}

impl Exit {
    /// Every code with its meaning, for help and the man page.
    pub const MEANINGS: [(Exit, &'static str); 4] = [
        (Exit::Done, "done, and nothing is amiss"),
        (Exit::Found, "done; a sheet is refused, or there are findings"),
        (Exit::WrongUse, "wrong use: an unknown option or a missing operand; nothing was done"),
        (Exit::Unable, "input that can't be read, output that can't be written, or no memory"),
    ];
}

impl From<Exit> for ExitCode {
    fn from(exit: Exit) -> ExitCode {
        ExitCode::from(exit as u8)
    }
}

/// Why a subcommand ended before its work was done.
#[derive(Clone, Debug, PartialEq, Eq)]
pub enum Failure {
    /// The command line is not one that the subcommand takes.
    WrongUse(String),
    /// Input can't be read, output can't be written, or there is no memory.
    Unable(String),
}

impl Failure {
    pub fn exit(&self) -> Exit {
        match self {
            Failure::WrongUse(_) => Exit::WrongUse,
            Failure::Unable(_) => Exit::Unable,
        }
    }

    /// What could not be done with this file, and why.
    pub fn about(place: &dyn fmt::Display, problem: &dyn fmt::Display) -> Failure {
        Failure::Unable(format!("{place}: {problem}"))
    }
}

impl fmt::Display for Failure {
    fn fmt(&self, out: &mut fmt::Formatter) -> fmt::Result {
        let (Failure::WrongUse(message) | Failure::Unable(message)) = self;
        out.write_str(message)
    }
}
