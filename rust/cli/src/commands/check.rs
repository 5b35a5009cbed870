//! `backbone check`: whether stored sheets have the best layout.

use crate::arguments::{Arguments, Setting};
use crate::check::{in_order, Counts, Finding, Report, FORMATS};
use crate::engine::{self, Engine};
use crate::exit::{Exit, Failure};
use crate::input::sources;
use crate::output::{message, Output};
use crate::progress::Progress;
use crate::shard::{self, Shard};
use crate::subcommand::Subcommand;

pub const SUBCOMMAND: Subcommand = Subcommand {
    name: "check",
    operands: "FILE|FOLDER|-...",
    about: "whether stored sheets have the best layout",
    text: "\
Judges each stored sheet, lays its sheet out anew with the proved maker, and compares. A file holds one stored sheet: a
sheet followed by a layout, or by the line 'refused 10' where its writer found no layout. Of a folder, and of the
folders in it, every file is taken whose name ends in .txt, .words, .bin or .json. Each sheet has one finding:

    best             the layout is the answer
    equal            lawful, with the best count and length, but not the first in the order of equals
    lawful           lawful; two-sided sheets are no longer laid out, so that it is best is not said
    not best         lawful; by how many labels and how much length it is worse
    unlawful         it breaks a rule; at which sites and slots
    false no layout  'refused 10', and there is a layout
    true no layout   'refused 10', and there is none
    refused N        it is no stored sheet; which words, slots or sites it comes from; or, with 18, it is a two-sided
                     sheet with 'refused 10', or one that an engine was to lay out
    no answer        with --engine: the engine wrote something else, or nothing
    unreadable       the file can't be read, or there is no memory to lay it out

Findings are told in the order of the files, however many threads there are. A table of counts ends them.

    text   a line a sheet: the file, the finding, and what it comes from
    json   an object: sheets, a list of objects with file, finding, refusal or rule, more (labels, length, points,
           millimetres), sites, slots, text, depth, given and best as far as they are there; and counts by finding
    tsv    a line of names and a line a sheet with the same; a tab, a line feed and a backslash in a value are
           written \\t, \\n and \\\\; the table goes to standard error
    junit  a test case a sheet; findings are failures, what can't be read is an error

With --engine COMMAND the layouts in the files are left aside, and the engine lays out each sheet. COMMAND is run by the
shell for each sheet. It reads the sheet on its standard input and writes on its standard output a stored sheet (the
sheet and a layout), the layout alone, or the line 'refused 10' if it finds no layout; any form is read. Its exit code is
left aside.

With --by-depth the table also counts by depth: how many cuts are nested in the best layout. With --shard K/N every N-th
file is taken; `backbone merge` makes one report of the shares' tsv reports.",
    settings: &[
        Setting { name: "--format", value: "FORM", about: "text (where it is not given), json, tsv or junit" },
        Setting {
            name: "--report",
            value: "FOLDER",
            about: "write FOLDER/index.html: the table, sortable, and each fault's layout beside the best one",
        },
        Setting { name: "--engine", value: "COMMAND", about: "check the layouts that this engine gives for the sheets" },
        engine::FORM,
        Setting { name: "--strict", value: "", about: "an equal is a finding too: exit code 1" },
        Setting { name: "--by-depth", value: "", about: "count the findings by the depth of the best layout too" },
        shard::SETTING,
        Setting { name: "--jobs", value: "N", about: "threads, each with a work area of its own; 1 where not given" },
    ],
    exits: &[
        (Exit::Done, "every sheet is best, equal (unless --strict), lawful and two-sided, or truly without a layout"),
        (Exit::Found, "findings: some sheet is not best, unlawful, refused, unanswered, or falsely said to have no layout"),
    ],
    run,
};

const MOST_JOBS: u64 = 1024;

fn run(arguments: &Arguments, output: &mut Output) -> Result<Exit, Failure> {
    let mut format = arguments.choice("--format", &FORMATS)?();
    let jobs = arguments.number("--jobs", 1, MOST_JOBS)?.unwrap_or(1) as usize;
    if arguments.operands.is_empty() {
        return Err(Failure::WrongUse("a file or a folder is missing; - is standard input".to_string()));
    }
    let engine = Engine::of(arguments, "--engine")?;
    let shard = Shard::of(arguments)?;
    let sources = shard.part(sources(&arguments.operands)?);
    let mut report = arguments.path("--report").map(|folder| Report::new(&folder)).transpose()?;
    let progress = Progress::new("check", sources.len() as u64);
    let mut counts = Counts::new(arguments.has("--by-depth"));
    format.begin(output)?;
    let told = in_order(&sources, engine.as_ref(), jobs, &mut |checked| {
        counts.add(&checked);
        progress.step();
        if let Finding::Unreadable(failure) = &checked.finding {
            message(&failure.to_string());
        }
        if let Some(report) = &mut report {
            report.add(&checked);
        }
        format.sheet(&checked, output)
    });
    progress.finish();
    told?;
    format.end(&counts, output)?;
    report.map_or(Ok(()), |report| report.finish(&counts))?;
    Ok(counts.exit(arguments.has("--strict")))
}
