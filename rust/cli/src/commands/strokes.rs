//! `backbone strokes`: what a viewer draws of a stored sheet.

use crate::arguments::{Arguments, Setting};
use crate::exit::{Exit, Failure};
use crate::input::Source;
use crate::output::Output;
use crate::refused::tell_stored;
use crate::subcommand::Subcommand;
use backbone::{stroke_at, strokes, End, Refusal, Stroke};

pub const SUBCOMMAND: Subcommand = Subcommand {
    name: "strokes",
    operands: "FILE|-",
    about: "the lines of a stored sheet, for a viewer to draw",
    text: "\
Reads a stored sheet in any form and prints its strokes, one a line: 'bone', which is a backbone, or 'drop', then x and y
of its first end and x and y of its second, one blank between each two. x counts from the left edge, y downwards from the
top, both in printer's points. A point is eight units, so every number is exact and has at most three decimals.

    bone 0.25 0.25 1 0.25
    bone 0.5 1 1 1
    drop 0.25 0.5 0.25 0.25
    drop 0.75 0.75 0.75 0.25
    drop 0.5 0.625 0.5 1

Backbones come first, by rising slot, each from its left end to the right edge; then drops in sheet order, each from its
site to its backbone. A site on its backbone has no drop; a backbone of no length is a stroke. The lengths of all strokes,
and the sheet's charge for each drop, add up to the length that the layout states.

JSON (--format json) is an object:

    {\"strokes\": [
      {\"kind\": \"bone\", \"from\": {\"x\": 0.25, \"y\": 0.25}, \"to\": {\"x\": 1, \"y\": 0.25}}
    ]}

A stored sheet that is refused gives the line 'refused N' on standard output, in JSON an object, and its meaning, with
what it comes from, on standard error: 1 to 7 and 11 as the judge refuses it, then 13, the layout breaks a rule, then 14,
the place that --place names is past the last stroke.",
    settings: &[
        Setting { name: "--format", value: "FORM", about: "text (where it is not given) or json" },
        Setting { name: "--place", value: "PLACE", about: "only the stroke at this place; places count from 0" },
    ],
    exits: &[(Exit::Done, "the strokes, none if there are none"), (Exit::Found, "refused")],
    run,
};

fn run(arguments: &Arguments, output: &mut Output) -> Result<Exit, Failure> {
    let is_json = arguments.choice("--format", &[("text", false), ("json", true)])?;
    let place = arguments.number("--place", 0, u64::MAX)?;
    let source = Source::of(arguments.operand()?);
    let stored = source.record()?.words;
    match asked_for(&stored, place) {
        Ok(found) => {
            output.text(&if is_json { json(&found) } else { lines(&found) })?;
            Ok(Exit::Done)
        }
        Err(refusal) => tell_stored(&source, &stored, refusal, is_json, output),
    }
}

/// The stroke at a place, or all.
fn asked_for(stored: &[u32], place: Option<u64>) -> Result<Vec<Stroke>, Refusal> {
    match place {
        None => Ok(strokes(stored)?.collect()),
        Some(place) => Ok(vec![stroke_at(stored, usize::try_from(place).unwrap_or(usize::MAX))?]),
    }
}

fn lines(strokes: &[Stroke]) -> String {
    strokes.iter().map(|stroke| format!("{stroke}\n")).collect()
}

fn json(strokes: &[Stroke]) -> String {
    let end = |End { x, y }: End| format!("{{\"x\": {x}, \"y\": {y}}}");
    let object = |stroke: &Stroke| {
        let [from, to] = stroke.ends().map(end);
        format!("\n  {{\"kind\": \"{}\", \"from\": {from}, \"to\": {to}}}", stroke.name())
    };
    format!("{{\"strokes\": [{}\n]}}\n", strokes.iter().map(object).collect::<Vec<_>>().join(","))
}
