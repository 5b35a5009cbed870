//! The arguments of a subcommand: options with and without a value, and operands.

use crate::exit::Failure;
use std::ffi::{OsStr, OsString};
use std::path::PathBuf;

/// An option of a subcommand, as the command line and help show it.
pub struct Setting {
    /// With its dashes: `--format`, `-o`.
    pub name: &'static str,
    /// What its value is called in help; empty for an option without a value.
    pub value: &'static str,
    pub about: &'static str,
}

/// The arguments as they were given.
#[derive(Debug, Default, PartialEq, Eq)]
pub struct Arguments {
    given: Vec<(&'static str, OsString)>,
    pub operands: Vec<OsString>,
}

impl Arguments {
    /// Takes the arguments apart: `--name VALUE`, `--name=VALUE`, `--name`; after `--` all are operands, and so
    /// is `-` alone.
    pub fn parse(settings: &[Setting], arguments: Vec<OsString>) -> Result<Arguments, Failure> {
        let mut parsed = Arguments::default();
        let mut rest = arguments.into_iter();
        while let Some(argument) = rest.next() {
            if argument == "--" {
                parsed.operands.extend(rest);
                break;
            }
            if is_option(&argument) {
                parsed.take_option(settings, &argument, &mut rest)?;
            } else {
                parsed.operands.push(argument);
            }
        }
        Ok(parsed)
    }

    fn take_option(
        &mut self,
        settings: &[Setting],
        argument: &OsStr,
        rest: &mut impl Iterator<Item = OsString>,
    ) -> Result<(), Failure> {
        let wrong = |problem: &str| Failure::WrongUse(format!("option {}: {problem}", argument.to_string_lossy()));
        let text = argument.to_str().ok_or_else(|| wrong("it is not UTF-8"))?;
        let (name, inside) = match text.split_once('=') {
            Some((name, value)) if name.starts_with("--") => (name, Some(OsString::from(value))),
            _ => (text, None),
        };
        let setting = settings.iter().find(|setting| setting.name == name);
        let setting = setting.ok_or_else(|| wrong("there is no such option here"))?;
        if self.given.iter().any(|(given, _)| *given == setting.name) {
            return Err(wrong("it is given twice"));
        }
        let value = match (setting.value.is_empty(), inside) {
            (true, None) => OsString::new(),
            (true, Some(_)) => return Err(wrong("it takes no value")),
            (false, Some(value)) => value,
            (false, None) => rest.next().ok_or_else(|| wrong(&format!("its value {} is missing", setting.value)))?,
        };
        self.given.push((setting.name, value));
        Ok(())
    }

    /// Whether the option was given.
    pub fn has(&self, name: &str) -> bool {
        self.value(name).is_some()
    }

    /// The option's value, where it was given.
    pub fn value(&self, name: &str) -> Option<&OsStr> {
        self.given.iter().find(|(given, _)| *given == name).map(|(_, value)| value.as_os_str())
    }

    /// The option's value as the name of a file.
    pub fn path(&self, name: &str) -> Option<PathBuf> {
        self.value(name).map(PathBuf::from)
    }

    /// The option's value, one of these; the first where the option was not given.
    pub fn choice<T: Copy>(&self, name: &str, choices: &[(&str, T)]) -> Result<T, Failure> {
        let found = match self.value(name) {
            None => choices.first(),
            Some(value) => choices.iter().find(|(word, _)| value == OsStr::new(word)),
        };
        let words = || choices.iter().map(|(word, _)| *word).collect::<Vec<_>>().join(", ");
        found.map(|(_, choice)| *choice).ok_or_else(|| self.wrong_value(name, &format!("one of {}", words())))
    }

    /// The option's value as a whole number in a range.
    pub fn number(&self, name: &str, least: u64, most: u64) -> Result<Option<u64>, Failure> {
        let Some(value) = self.value(name) else { return Ok(None) };
        let digits = value.to_str().filter(|text| text.bytes().all(|digit| digit.is_ascii_digit()));
        let number = digits.and_then(|digits| digits.parse().ok()).filter(|number| (least..=most).contains(number));
        number.map(Some).ok_or_else(|| self.wrong_value(name, &format!("a whole number from {least} to {most}")))
    }

    fn wrong_value(&self, name: &str, wanted: &str) -> Failure {
        let value = self.value(name).unwrap_or_default().to_string_lossy();
        Failure::WrongUse(format!("option {name}: it takes {wanted}, not '{value}'"))
    }

    /// The one operand of a subcommand that takes one.
    pub fn operand(&self) -> Result<&OsStr, Failure> {
        match &self.operands[..] {
            [operand] => Ok(operand),
            [] => Err(Failure::WrongUse("a file is missing; - is standard input".to_string())),
            [_, other, ..] => {
                Err(Failure::WrongUse(format!("one file is enough: '{}' is one more", other.to_string_lossy())))
            }
        }
    }
}

/// Whether an argument begins as options do; `-` alone is standard input.
fn is_option(argument: &OsStr) -> bool {
    argument.len() > 1 && argument.as_encoded_bytes().starts_with(b"-")
}
