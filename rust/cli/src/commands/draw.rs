//! `backbone draw`: a sheet and its layout as an SVG picture.

use crate::arguments::{Arguments, Setting};
use crate::exit::{Exit, Failure};
use crate::input::Source;
use crate::output::{message, write_file, Output};
use crate::refused::advice;
use crate::subcommand::Subcommand;
use backbone::{Layout, NotLaidOut, Refusal, Sheet};
use draw::{sheet_and_layout, Background, Options, Side};
use model::rounding::Rounding;
use sheet::Names;
use std::ffi::{OsStr, OsString};
use std::fmt::Display;
use std::path::Path;

pub const SUBCOMMAND: Subcommand = Subcommand {
    name: "draw",
    operands: "FILE|-",
    about: "a sheet and its layout as an SVG picture",
    text:
        "Draws a stored sheet as it is, with the broken rule if there is one, and a sheet alone with its best layout. \
           A two-sided sheet is drawn with a layout that is stored; alone it is refused with 18. \
           The picture is true to scale: its size is in millimetres, and it says how many times as large as on paper \
           the sheet is drawn.",
    settings: &[
        Setting {
            name: "-o",
            value: "OUT.svg",
            about: "write the picture to this file, not to standard output; - is standard output",
        },
        Setting { name: "--background", value: "SVG", about: "draw this SVG picture below it, in the sheet's units" },
        Setting { name: "--compare", value: "FILE", about: "beside it another layout of the same sheet" },
        Setting { name: "--rounded", value: "", about: "beside it the layout that lengths rounded at each cut give" },
        Setting { name: "--step", value: "STEP", about: "what --rounded rounds to: 0.1mm (if not given) or 0.1pt" },
        Setting { name: "--stretch", value: "", about: "give heights a scale of their own; not true to scale then" },
        Setting { name: "--all", value: "FOLDER", about: "write words and picture beside each .txt file of a folder" },
    ],
    exits: &[(Exit::Done, "a picture"), (Exit::Found, "refused, so there is no picture")],
    run,
};

/// What is drawn of one file.
struct Drawn {
    source: Source,
    sheet: Sheet,
    /// The one that is stored, else the best; none if there is none.
    layout: Option<Layout>,
    names: Names,
    is_stored: bool,
    claims_no_layout: bool,
}

/// Why there is no picture: a failure of its own, or a sheet that is refused.
enum NoPicture {
    Failed(Failure),
    Found(String),
}

impl From<Failure> for NoPicture {
    fn from(failure: Failure) -> NoPicture {
        NoPicture::Failed(failure)
    }
}

fn run(arguments: &Arguments, output: &mut Output) -> Result<Exit, Failure> {
    if let Some(problem) = wrong_use(arguments) {
        return Err(Failure::WrongUse(problem.to_string()));
    }
    if let Some(folder) = arguments.path("--all") {
        return draw_all(&folder);
    }
    match (picture(arguments), arguments.path("-o")) {
        (Ok(svg), Some(path)) if path != Path::new("-") => write_file(&path, svg.as_bytes())?,
        (Ok(svg), _) => output.text(&svg)?,
        (Err(NoPicture::Failed(failure)), _) => return Err(failure),
        (Err(NoPicture::Found(problem)), _) => {
            message(&problem);
            return Ok(Exit::Found);
        }
    }
    Ok(Exit::Done)
}

/// Options that don't go together.
fn wrong_use(arguments: &Arguments) -> Option<&'static str> {
    let has = |name: &str| arguments.has(name);
    let is_standard = |operand: Option<&OsStr>| operand.is_some_and(|operand| operand == "-");
    let others = ["-o", "--background", "--compare", "--rounded", "--step", "--stretch"];
    if has("--all") && (!arguments.operands.is_empty() || others.iter().any(|name| has(name))) {
        Some("--all takes the files of its folder, and neither another file nor another option")
    } else if has("--compare") && has("--rounded") {
        Some("--compare and --rounded both want the place beside it")
    } else if has("--step") && !has("--rounded") {
        Some("--step goes with --rounded")
    } else if is_standard(arguments.value("--compare"))
        && is_standard(arguments.operands.first().map(OsString::as_os_str))
    {
        Some("standard input can't be both files")
    } else {
        None
    }
}

fn draw_all(folder: &Path) -> Result<Exit, Failure> {
    for (path, content) in draw::examples::files(folder).map_err(Failure::Unable)? {
        write_file(&path, content.as_bytes())?;
    }
    Ok(Exit::Done)
}

fn picture(arguments: &Arguments) -> Result<String, NoPicture> {
    let step = arguments.choice("--step", &[("0.1mm", Rounding::TenthMillimetre), ("0.1pt", Rounding::TenthPoint)])?;
    let drawn = Drawn::of(Source::of(arguments.operand()?))?;
    let options = options(arguments, &drawn)?;
    if let Some(other) = arguments.value("--compare") {
        return compare(&drawn, &Drawn::of(Source::of(other))?, &options);
    }
    if arguments.has("--rounded") {
        return rounded(&drawn, step, &options);
    }
    let made = draw::picture(&drawn.sheet, drawn.layout.as_ref(), &options);
    made.map_err(|refusal| refused(&drawn.source, refusal))
}

fn options(arguments: &Arguments, drawn: &Drawn) -> Result<Options, Failure> {
    let file = arguments.path("--background").map(Source::File);
    let mut options = Options { names: drawn.names.clone(), ..Options::default() };
    options.background = file.as_ref().map(background).transpose()?;
    options.is_stretched = arguments.has("--stretch");
    if drawn.claims_no_layout {
        let verdict = if drawn.layout.is_some() { "false: this is one" } else { "true" };
        options.remarks.push(format!("the file says that there is no layout, which is {verdict}"));
    }
    Ok(options)
}

fn rounded(drawn: &Drawn, step: Rounding, options: &Options) -> Result<String, NoPicture> {
    if drawn.is_stored {
        let problem = "--rounded lays the sheet out anew: take the layout out of the file, or use --compare";
        return Err(Failure::WrongUse(format!("{}: {problem}", drawn.source)).into());
    }
    let made = draw::rounded(&drawn.sheet, drawn.layout.as_ref(), step, options);
    made.map_err(|problem| NoPicture::Found(format!("{}: {problem}", drawn.source)))
}

fn compare(one: &Drawn, other: &Drawn, options: &Options) -> Result<String, NoPicture> {
    if one.sheet != other.sheet {
        let problem = format!("{} and {} are not of the same sheet", one.source, other.source);
        return Err(Failure::WrongUse(problem).into());
    }
    let titles = [one.title(), other.title()];
    let sides = [Side { title: &titles[0], layout: one.shown() }, Side { title: &titles[1], layout: other.shown() }];
    draw::compare(&one.sheet, sides, options).map_err(|refusal| refused(&one.source, refusal))
}

fn refused(source: &dyn Display, refusal: Refusal) -> NoPicture {
    let advice = advice(refusal).map_or_else(String::new, |advice| format!("; {advice}"));
    NoPicture::Found(format!("{source}: refused {}: {refusal}{advice}", refusal.number()))
}

impl Drawn {
    fn of(source: Source) -> Result<Drawn, NoPicture> {
        let record = source.record()?;
        let (sheet, layout) = sheet_and_layout(&record.words).map_err(|stopped| match stopped {
            NotLaidOut::Refused(refusal) => refused(&source, refusal),
            NotLaidOut::NoMemory { .. } => Failure::about(&source, &stopped).into(),
        })?;
        let is_stored = !backbone::split_stored(&record.words).1.is_empty();
        let claims_no_layout = record.claims_no_layout;
        Ok(Drawn { source, sheet, layout, names: record.names, is_stored, claims_no_layout })
    }

    /// What stands beside another layout: what the file says.
    fn shown(&self) -> Option<&Layout> {
        self.layout.as_ref().filter(|_| !self.claims_no_layout)
    }

    /// The file's name, without its folder, and what it says.
    fn title(&self) -> String {
        let name = match &self.source {
            Source::File(path) => path.file_name().unwrap_or_default().to_string_lossy().into_owned(),
            Source::Standard => self.source.to_string(),
        };
        match self.shown() {
            None => format!("{name}: no layout"),
            Some(layout) if self.is_stored => format!("{name}: labels {}, length {}", layout.labels, layout.length),
            Some(layout) => format!("{name}, best: labels {}, length {}", layout.labels, layout.length),
        }
    }
}

fn background(file: &Source) -> Result<Background, Failure> {
    let text = String::from_utf8(file.bytes()?).map_err(|error| Failure::about(file, &error))?;
    Background::parse(&text).map_err(|error| Failure::about(file, &error))
}
