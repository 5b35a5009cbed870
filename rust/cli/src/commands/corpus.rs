//! `backbone corpus`: sheets by the depth of their best layout, with proved answers.

use crate::arguments::{Arguments, Setting};
use crate::corpus::{find, manifest, Entry, Wanted, MOST_TRIES};
use crate::exit::{Exit, Failure};
use crate::maker::Maker;
use crate::output::{message, write_file, Output};
use crate::progress::Progress;
use crate::shard::{self, Shard};
use crate::subcommand::Subcommand;
use backbone::{Layout, MOST_CHARGE};
use model::nested::MOST_DEPTH;
use model::rounding::Rounding;
use model::sheet::Sheet;
use sheet::Record;
use std::ops::RangeInclusive;
use std::path::{Path, PathBuf};

pub const SUBCOMMAND: Subcommand = Subcommand {
    name: "corpus",
    operands: "--depth A..B --out FOLDER",
    about: "sheets by the depth of their best layout, with proved answers",
    text: "\
Writes random sheets whose best layout has the wanted depth: how many cuts are nested in it. Each is written with its
best layout, which the proved library made, as a stored sheet in FOLDER/best. FOLDER/manifest.tsv has a line for each:
depth, aim, labels, length, each site's slot, and, where a search over layouts ends, how many layouts are equals of the
best and the labels and length of the second best.

With --round 0.1mm or 0.1pt only sheets are kept on which an engine that rounds the length at each cut takes a worse
layout; that layout stands in FOLDER/rounded under the same name. Where the manifest's sum_of_rounded is below
sum_of_best, every such engine errs; where they are equal, one that takes the lowest slots of its equals.

With --charge every sheet has that charge, and its best layout and all lengths are those with it.

One seed gives one corpus, and each of its sheets depends on the seed, the depth, the aim, the step, the charge and its
number alone: shares made with --shard are together the corpus made without.",
    settings: &[
        Setting { name: "--depth", value: "A..B", about: "the depths, from 1 to 12; one number for one depth" },
        Setting { name: "--count", value: "N", about: "sheets of each depth; 100 where it is not given" },
        Setting { name: "--seed", value: "S", about: "a whole number; 1 where it is not given" },
        Setting { name: "--round", value: "STEP", about: "none (where it is not given), 0.1mm or 0.1pt" },
        Setting { name: "--aim", value: "AIM", about: "fewest or shortest; by turns where it is not given" },
        Setting { name: "--charge", value: "N", about: "from 0 to 16383; no charge word where it is not given" },
        Setting { name: "--out", value: "FOLDER", about: "where to write; it is made where it is missing" },
        shard::SETTING,
    ],
    exits: &[(Exit::Done, "the corpus is written"), (Exit::Found, "fewer sheets were found than asked for")],
    run,
};

/// What is asked for.
struct Plan {
    depths: RangeInclusive<u32>,
    count: u64,
    seed: u64,
    rounding: Rounding,
    /// By turns where it is none.
    shortest: Option<bool>,
    charge: Option<u32>,
    folder: PathBuf,
    shard: Shard,
}

fn run(arguments: &Arguments, _: &mut Output) -> Result<Exit, Failure> {
    let plan = Plan::of(arguments)?;
    let manifest = plan.manifest();
    if manifest.exists() {
        let problem = "it is there already, and nothing was written; give another folder";
        return Err(Failure::about(&manifest.display(), &problem));
    }
    plan.make_folders()?;
    let depths = u64::from(plan.depths.end() - plan.depths.start() + 1);
    let progress = Progress::new("corpus", plan.shard.part_of(depths * plan.count));
    let mut lines = String::from(manifest::HEADER);
    let mut exit = Exit::Done;
    for (index, depth) in plan.depths.clone().enumerate() {
        let found = plan.write_depth(depth, index as u64 * plan.count, &mut lines, &progress)?;
        if !found {
            exit = Exit::Found;
        }
    }
    progress.finish();
    write_file(&manifest, lines.as_bytes())?;
    Ok(exit)
}

impl Plan {
    fn of(arguments: &Arguments) -> Result<Plan, Failure> {
        if let Some(operand) = arguments.operands.first() {
            let operand = operand.to_string_lossy();
            return Err(Failure::WrongUse(format!("corpus takes options alone, not '{operand}'")));
        }
        let missing = |name: &str| Failure::WrongUse(format!("option {name} is missing"));
        let roundings = [Rounding::None, Rounding::TenthMillimetre, Rounding::TenthPoint];
        Ok(Plan {
            depths: depths(arguments)?.ok_or_else(|| missing("--depth"))?,
            count: arguments.number("--count", 1, 1_000_000_000)?.unwrap_or(100),
            seed: arguments.number("--seed", 0, u64::MAX)?.unwrap_or(1),
            rounding: arguments.choice("--round", &roundings.map(|rounding| (rounding.name(), rounding)))?,
            shortest: match arguments.has("--aim") {
                true => Some(arguments.choice("--aim", &[("fewest", false), ("shortest", true)])?),
                false => None,
            },
            // It fits: the greatest charge has 14 bits.
            charge: arguments.number("--charge", 0, u64::from(MOST_CHARGE))?.map(|charge| charge as u32),
            folder: arguments.path("--out").ok_or_else(|| missing("--out"))?,
            shard: Shard::of(arguments)?,
        })
    }

    /// Each share of a corpus has a manifest of its own.
    fn manifest(&self) -> PathBuf {
        let Shard { this, of } = self.shard;
        self.folder.join(if of == 1 { "manifest.tsv".to_string() } else { format!("manifest-{this}-of-{of}.tsv") })
    }

    fn make_folders(&self) -> Result<(), Failure> {
        let kinds: &[&str] = if self.rounding == Rounding::None { &["best"] } else { &["best", "rounded"] };
        for kind in kinds {
            for depth in self.depths.clone() {
                let folder = self.folder.join(kind).join(depth_name(depth));
                std::fs::create_dir_all(&folder).map_err(|error| Failure::about(&folder.display(), &error))?;
            }
        }
        Ok(())
    }

    /// Writes the sheets of one depth, whose first has this place in the corpus; false where some were not found.
    fn write_depth(&self, depth: u32, first: u64, lines: &mut String, progress: &Progress) -> Result<bool, Failure> {
        let mut maker = Maker::default();
        for number in (0..self.count).filter(|number| self.shard.has(first + number)) {
            // The aims take turns, and each counts its own sheets.
            let shortest = self.shortest.unwrap_or(number % 2 == 0);
            let wanted = Wanted { depth, shortest, charge: self.charge, rounding: self.rounding };
            let Some(entry) = find(wanted, self.seed, number, &mut maker)? else {
                message(&self.not_found(wanted, number));
                return Ok(false);
            };
            lines.push_str(&manifest::line(&self.write_entry(&entry, number)?, &entry));
            progress.step();
        }
        Ok(true)
    }

    fn not_found(&self, wanted: Wanted, number: u64) -> String {
        let aim = if wanted.shortest { "shortest" } else { "fewest" };
        let mut kind = wanted.charge.map_or_else(String::new, |charge| format!(" with charge {charge}"));
        if wanted.rounding != Rounding::None {
            kind += &format!(" on which rounding to {} errs", wanted.rounding.name());
        }
        format!(
            "depth {}: {number} of {} sheets; no {aim} sheet of this depth{kind} was found in {MOST_TRIES} tries",
            wanted.depth, self.count
        )
    }

    /// Writes a sheet with its best layout, and with that of the rival; gives its name in the folder.
    fn write_entry(&self, entry: &Entry, number: u64) -> Result<String, Failure> {
        let digits = self.count.to_string().len();
        let name = format!("{}/{:0digits$}.txt", depth_name(entry.depth), number + 1);
        write_stored(&self.folder.join("best").join(&name), &entry.sheet, &entry.best)?;
        if let Some(rival) = &entry.rival {
            write_stored(&self.folder.join("rounded").join(&name), &entry.sheet, &rival.layout)?;
        }
        Ok(name)
    }
}

fn depth_name(depth: u32) -> String {
    format!("depth-{depth:02}")
}

fn write_stored(path: &Path, sheet: &Sheet, layout: &Layout) -> Result<(), Failure> {
    let record = Record::of_words([sheet.words(), layout.words()].concat());
    write_file(path, sheet::show_record(&record).as_bytes())
}

/// One depth or a range of them, both ends included.
fn depths(arguments: &Arguments) -> Result<Option<RangeInclusive<u32>>, Failure> {
    let Some(value) = arguments.value("--depth") else { return Ok(None) };
    let text = value.to_string_lossy();
    let (from, to) = text.split_once("..").unwrap_or((&text, &text));
    let number = |text: &str| text.bytes().all(|digit| digit.is_ascii_digit()).then(|| text.parse().ok()).flatten();
    match (number(from), number(to)) {
        (Some(from), Some(to)) if 1 <= from && from <= to && to <= MOST_DEPTH => Ok(Some(from..=to)),
        _ => {
            let wanted = format!("one depth or A..B, with A at most B, from 1 to {MOST_DEPTH}");
            Err(Failure::WrongUse(format!("option --depth: it takes {wanted}, not '{text}'")))
        }
    }
}
