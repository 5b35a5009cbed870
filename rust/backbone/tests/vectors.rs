//! Every line of vectors.txt through the library, in areas that hold something before, and through the plain model, which
//! the random tests hold the library to. The lines of the program run beside the program: see `program`.

mod common;

use backbone::{judge, read, stroke_at, Refusal, Rule};
use common::vectors::{cases, shown, Case};
use common::{make_in_dirt, page_in_dirt, twin_in_dirt};
use model::random::Random;
use model::{maker, page, program, rules, strokes, twin};
use std::collections::BTreeMap;

/// A result in the words of the file.
fn told<T>(result: Result<T, Refusal>, show: impl Fn(T) -> String) -> String {
    result.map_or_else(|refusal| format!("refused {}", refusal.number()), show)
}

fn sizes(words: &[u32]) -> String {
    told(read(words), |sizes| {
        let mut numbers = vec![sizes.sites, sizes.slots, sizes.colours, sizes.budgets, sizes.work_words];
        numbers.extend(sizes.each_colour.iter().flat_map(|colour| [colour.bound, colour.sites].map(usize::from)));
        numbers.iter().map(usize::to_string).collect::<Vec<_>>().join(" ")
    })
}

/// A text as an answer has it: / stands for each line feed.
fn in_one_line(text: &str) -> String {
    text.replace('\n', "/")
}

/// A stroke with the bits of its floats.
fn stroke(words: &[u32], place: usize) -> String {
    told(stroke_at(words, place), |stroke| {
        let [from, to] = stroke.ends();
        format!("{} {}", stroke.name(), shown(&[from.x, from.y, to.x, to.y].map(f32::to_bits)))
    })
}

/// What the library answers to a line; none for the program's.
fn answer(case: &Case, random: &mut Random) -> Option<String> {
    let show = |words: Vec<u32>| shown(&words);
    Some(match (case.operation, &case.numbers[..]) {
        ("read", []) => sizes(&case.words),
        ("make", [work, answer]) => told(make_in_dirt(&case.words, *work, *answer, random), show),
        ("judge", []) => told(judge(&case.words), |rule| rule.map_or(0, Rule::number).to_string()),
        ("twin", [area]) => told(twin_in_dirt(&case.words, *area, random), show),
        ("stroke", [place]) => stroke(&case.words, *place),
        ("page", [area]) => told(page_in_dirt(&case.words, *area, random), |text| in_one_line(&text)),
        ("program", []) => return None,
        (operation, numbers) => panic!("line {}: no operation '{operation}' with numbers {numbers:?}", case.line),
    })
}

/// Holds each line to an answer, where there is one; so many operations have some.
fn hold(operations: usize, mut answer: impl FnMut(&Case) -> Option<String>) {
    let mut met = BTreeMap::new();
    for case in cases() {
        if let Some(answer) = answer(&case) {
            assert_eq!(answer, case.answer, "line {}", case.line);
            *met.entry(case.operation).or_insert(0) += 1;
        }
    }
    assert!(met.len() == operations && met.values().all(|lines| *lines > 100), "{met:?}");
}

#[test]
fn every_line_is_answered() {
    let mut random = Random::new(310);
    hold(6, |case| answer(case, &mut random));
}

fn plain_sizes(words: &[u32]) -> String {
    let sizes = model::sheet::sizes(words);
    if sizes.refusal != 0 {
        return format!("refused {}", sizes.refusal);
    }
    let mut numbers: Vec<u32> = [sizes.sites, sizes.slots, sizes.colours, sizes.budgets].map(u32::from).to_vec();
    numbers.push(sizes.work);
    numbers.extend(sizes.each_colour.iter().flat_map(|(bound, sites)| [*bound, *sites].map(u32::from)));
    numbers.iter().map(u32::to_string).collect::<Vec<_>>().join(" ")
}

/// What an area holds from its start, or the refusal.
fn written(refusal: u32, words: &[u32]) -> String {
    if refusal == 0 {
        shown(words)
    } else {
        format!("refused {refusal}")
    }
}

/// What the program prints for these words, as a line of the file has it.
fn printed(words: &[u32]) -> String {
    let bytes: Vec<u8> = words.iter().flat_map(|word| word.to_le_bytes()).collect();
    in_one_line(program::prints(&bytes).trim_end_matches('\n'))
}

/// What the plain model answers to a line.
fn plain_answer(case: &Case) -> Option<String> {
    let words = &case.words[..];
    Some(match (case.operation, &case.numbers[..]) {
        ("read", []) => plain_sizes(words),
        ("make", [work, answer]) => {
            let mut area = vec![0; *answer];
            let refusal = maker::make(words, &mut vec![0; *work], &mut area);
            area.truncate(usize::from(model::sheet::sizes(words).sites) + 1);
            written(refusal, &area)
        }
        ("judge", []) => match rules::judge(words) {
            (0, rule) => rule.to_string(),
            (refusal, _) => written(u32::from(refusal), &[]),
        },
        ("twin", [area]) => {
            let mut area = vec![0; *area];
            let (refusal, count) = twin::twin(words, &mut area);
            written(u32::from(refusal), &area[..count])
        }
        ("stroke", [place]) => match strokes::stroke_at(words, *place) {
            Ok(stroke) => {
                let kind = if stroke.is_drop { "drop" } else { "bone" };
                format!("{kind} {}", shown(&stroke.ends.map(f32::to_bits)))
            }
            Err(refusal) => written(u32::from(refusal), &[]),
        },
        ("page", [area]) => {
            let mut area = vec![0; *area];
            match page::page(words, &mut area) {
                (0, count) => in_one_line(&String::from_utf8_lossy(&area[..count])),
                (refusal, _) => written(u32::from(refusal), &[]),
            }
        }
        ("program", []) => printed(words),
        _ => return None,
    })
}

#[test]
fn the_plain_model_answers_every_line() {
    hold(7, plain_answer);
}
