//! What is told of a refusal: its number on standard output; on standard error its meaning, the words, slots or sites
//! that it comes from, and what can be done.

use crate::exit::{Exit, Failure};
use crate::input::Source;
use crate::output::{message, Output};
use backbone::{causes, read, split_stored, Refusal};
use sheet::json::quote;

/// Tells a refusal of these words: the line `refused N`, or an object where JSON is asked for.
pub fn tell(
    source: &Source,
    words: &[u32],
    refusal: Refusal,
    is_json: bool,
    output: &mut Output,
) -> Result<Exit, Failure> {
    let (number, causes) = (refusal.number(), causes(words, refusal));
    if is_json {
        let causes: Vec<String> = causes.iter().map(|cause| quote(&cause.to_string())).collect();
        let (meaning, causes) = (quote(&refusal.to_string()), causes.join(", "));
        output.text(&format!("{{\"refused\": {number}, \"meaning\": {meaning}, \"causes\": [{causes}]}}\n"))?;
    } else {
        output.text(&format!("refused {number}\n"))?;
    }
    message(&format!("{source}: refused {number}: {refusal}"));
    causes.iter().for_each(|cause| message(&format!("{source}: {cause}")));
    if let Some(advice) = advice(refusal) {
        message(advice);
    }
    Ok(Exit::Found)
}

/// Tells a refusal of a stored sheet. What the reader refuses is refused for the words of the sheet alone.
pub fn tell_stored(
    source: &Source,
    stored: &[u32],
    refusal: Refusal,
    is_json: bool,
    output: &mut Output,
) -> Result<Exit, Failure> {
    let (sheet, _) = split_stored(stored);
    tell(source, if read(sheet).is_err() { sheet } else { stored }, refusal, is_json, output)
}

/// What can be done, where it is not plain from what the refusal comes from.
pub fn advice(refusal: Refusal) -> Option<&'static str> {
    match refusal {
        Refusal::NoLayout => Some("`backbone why` says for which sites there is none, and what would help"),
        Refusal::TwoSided => {
            Some("a sheet with a one-sided head is laid out; `backbone twin` makes a stored sheet one-sided")
        }
        _ => None,
    }
}
