//! A layout engine of the user's: a command that reads a sheet and writes a stored sheet, or `refused 10`.

use crate::arguments::{Arguments, Setting};
use crate::exit::Failure;
use backbone::split_stored;
use sheet::{Form, Record};
use std::ffi::OsString;
use std::io::Write;
use std::process::{Child, Command, Output, Stdio};

/// The option for the form in which an engine reads sheets.
pub const FORM: Setting = Setting {
    name: "--engine-form",
    value: "FORM",
    about: "how the engine reads sheets: text (where it is not given), words, bin or json",
};

/// A command with the form that it reads.
pub struct Engine {
    command: OsString,
    form: Form,
}

impl Engine {
    /// The engine that an option names.
    pub fn of(arguments: &Arguments, option: &str) -> Result<Option<Engine>, Failure> {
        const FORMS: [(&str, Form); 4] =
            [("text", Form::Text), ("words", Form::Words), ("bin", Form::Binary), ("json", Form::Json)];
        let form = arguments.choice(FORM.name, &FORMS)?;
        Ok(arguments.value(option).map(|command| Engine { command: command.to_owned(), form }))
    }

    /// What the engine says of a sheet, as a stored sheet; or, in words, why that is no answer.
    pub fn answer(&self, sheet: &Record) -> Result<Result<Record, String>, Failure> {
        let words = split_stored(&sheet.words).0;
        let asked = Record { words: words.to_vec(), claims_no_layout: false, ..sheet.clone() };
        let input = sheet::write(&asked, self.form).unwrap_or_default();
        let output = self.run(input).map_err(|error| Failure::Unable(format!("the engine can't be run: {error}")))?;
        Ok(stored(&asked, &output))
    }

    fn run(&self, input: Vec<u8>) -> std::io::Result<Output> {
        let mut shell = Command::new("sh");
        shell.arg("-c").arg(&self.command);
        shell.stdin(Stdio::piped()).stdout(Stdio::piped()).stderr(Stdio::piped());
        let mut child = shell.spawn()?;
        let writer = write_beside(&mut child, input);
        let output = child.wait_with_output();
        let _ = writer.join();
        output
    }
}

/// Writes to the engine while its output is read, so that neither waits for the other. An engine that reads no further
/// has read enough.
fn write_beside(child: &mut Child, input: Vec<u8>) -> std::thread::JoinHandle<()> {
    let to = child.stdin.take();
    std::thread::spawn(move || {
        if let Some(mut to) = to {
            let _ = to.write_all(&input);
        }
    })
}

/// The stored sheet that an engine's output makes of the sheet.
fn stored(asked: &Record, output: &Output) -> Result<Record, String> {
    if output.stdout.is_empty() {
        return Err(format!("the engine wrote nothing ({}){}", output.status, last_words(&output.stderr)));
    }
    let answer = sheet::read(&output.stdout).map_err(|error| format!("the engine's output: {error}"))?;
    let (sheet_words, layout_words) = split_stored(&answer.words);
    if !sheet_words.is_empty() && sheet_words != asked.words {
        return Err("the engine wrote another sheet than it read".to_string());
    }
    if answer.claims_no_layout {
        return Ok(Record { claims_no_layout: true, ..asked.clone() });
    }
    if layout_words.is_empty() {
        return Err("the engine wrote neither a layout nor `refused 10`".to_string());
    }
    Ok(Record { words: [&asked.words, layout_words].concat(), ..asked.clone() })
}

/// The last line that an engine wrote on standard error.
fn last_words(bytes: &[u8]) -> String {
    let text = String::from_utf8_lossy(bytes);
    let last = text.lines().rev().find(|line| !line.trim().is_empty());
    last.map_or_else(String::new, |line| format!(": {}", line.trim()))
}

#[cfg(test)]
mod tests {
    use super::*;

    fn answered(command: &str) -> Result<Record, String> {
        let sheet = sheet::parse("head one-sided fewest gap 2 width 8\nslot 2\ncolour unbounded\nsite 2 4\n");
        let engine = Engine { command: command.into(), form: Form::Text };
        engine.answer(&sheet.expect("a sheet")).expect("a shell")
    }

    #[test]
    fn answers_are_taken_in_any_form() {
        let layout = [0x8020_0008, 0x9000_0000];
        let layout_of = |record: Record| split_stored(&record.words).1.to_vec();
        for command in [
            "cat; echo layout labels 1 length 8; echo tie 0",
            "echo layout labels 1 length 8; echo tie 0",
            "echo 0x80200008 0x90000000; exit 7",
        ] {
            assert_eq!(answered(command).map(layout_of), Ok(layout.to_vec()), "{command}");
        }
        for command in ["cat; echo refused 10", "echo refused 10"] {
            assert!(answered(command).is_ok_and(|record| record.claims_no_layout), "{command}");
        }
    }

    #[test]
    fn other_output_is_no_answer() {
        for (command, wanted) in [
            ("true", "the engine wrote nothing (exit status: 0)"),
            ("echo no memory >&2; exit 4", "the engine wrote nothing (exit status: 4): no memory"),
            ("cat", "the engine wrote neither a layout nor `refused 10`"),
            ("echo slot 5; echo refused 10", "the engine wrote another sheet than it read"),
        ] {
            assert_eq!(answered(command), Err(wanted.to_string()), "{command}");
        }
        let wrong = answered("echo labels 1 length 8").expect_err("it is no sheet");
        assert!(wrong.starts_with("the engine's output: line 1, column 1: "), "{wrong}");
    }
}
