//! `backbone merge`: one report of the reports of shares.

use crate::arguments::{Arguments, Setting};
use crate::check::{Counts, Finding, TSV_NAMES};
use crate::corpus::manifest;
use crate::exit::{Exit, Failure};
use crate::input::Source;
use crate::output::{message, Output};
use crate::subcommand::Subcommand;
use std::collections::BTreeMap;
use std::path::PathBuf;

pub const SUBCOMMAND: Subcommand = Subcommand {
    name: "merge",
    operands: "REPORT...",
    about: "one report of the reports of shares",
    text: "\
Reads reports of `backbone check --format tsv`, or manifests of `backbone corpus`, that were made in shares (--shard),
and writes one of them all, its lines by file name: what one run without shares writes. The table of a check goes to
standard error, as that of `backbone check --format tsv` does.",
    settings: &[
        Setting { name: "--by-depth", value: "", about: "count the findings by the depth of the best layout too" },
        Setting { name: "--strict", value: "", about: "an equal is a finding too: exit code 1" },
    ],
    exits: &[(Exit::Done, "no report has findings"), (Exit::Found, "findings, as of `backbone check`")],
    run,
};

fn run(arguments: &Arguments, output: &mut Output) -> Result<Exit, Failure> {
    if arguments.operands.is_empty() {
        return Err(Failure::WrongUse("a report is missing".to_string()));
    }
    let mut merged = Merged::default();
    for operand in &arguments.operands {
        merged.add(&Source::of(operand))?;
    }
    output.text(&format!("{}\n", merged.header))?;
    for line in merged.lines.values() {
        output.text(&format!("{line}\n"))?;
    }
    if merged.header != TSV_NAMES.join("\t") {
        return Ok(Exit::Done);
    }
    let counts = merged.counts(arguments.has("--by-depth"))?;
    message(&format!("findings\n{}", counts.table().trim_end()));
    Ok(counts.exit(arguments.has("--strict")))
}

/// The lines of all reports by their files, in the order in which a folder's files are read.
#[derive(Default)]
struct Merged {
    header: String,
    lines: BTreeMap<PathBuf, String>,
}

impl Merged {
    fn add(&mut self, source: &Source) -> Result<(), Failure> {
        let wrong = |problem: &str| Failure::about(source, &problem);
        let text = String::from_utf8(source.bytes()?).map_err(|_| wrong("it is not UTF-8"))?;
        let mut lines = text.lines();
        let header = lines.next().unwrap_or_default();
        if ![TSV_NAMES.join("\t"), manifest::HEADER.trim_end().to_string()].iter().any(|known| known == header) {
            return Err(wrong("it is neither a tsv report of check nor a manifest of a corpus"));
        }
        if !self.header.is_empty() && self.header != header {
            return Err(wrong("it is of another kind than the reports before it"));
        }
        self.header = header.to_string();
        let fields = header.split('\t').count();
        for line in lines {
            if line.split('\t').count() != fields {
                return Err(wrong("a line has more or fewer fields than the first one: is the report whole?"));
            }
            let file = line.split('\t').next().unwrap_or_default();
            if self.lines.insert(PathBuf::from(file), line.to_string()).is_some() {
                return Err(wrong(&format!("{file} is in an earlier report too")));
            }
        }
        Ok(())
    }

    /// The counts of reports of check.
    fn counts(&self, by_depth: bool) -> Result<Counts, Failure> {
        let place = |name: &str| TSV_NAMES.iter().position(|known| *known == name).unwrap_or_default();
        let (finding, depth) = (place("finding"), place("depth"));
        let mut counts = Counts::new(by_depth);
        for line in self.lines.values() {
            let fields: Vec<&str> = line.split('\t').collect();
            if !Finding::NAMES.contains(&fields[finding]) {
                return Err(Failure::Unable(format!("{}: '{}' is no finding", fields[0], fields[finding])));
            }
            counts.add_named(fields[finding], fields[depth].parse().ok());
        }
        Ok(counts)
    }
}
