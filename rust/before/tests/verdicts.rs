//! The library and the one before a change give the same verdict or refusal on stored sheets of any sort. Outside the gate,
//! since the library of before is not kept. `rust/before/src/lib.rs` says how it is made; then
//!
//! ```text
//! cd rust && BACKBONE_BEFORE=FOLDER/libbackbone.so.0 cargo test --release -p before -- --ignored --nocapture
//! ```
//!
//! `BACKBONE_SHEETS` is the number of stored sheets, a million if it is not set, and `BACKBONE_SEED` another draw of them.

#[path = "../../backbone/tests/common/mod.rs"]
mod common;

use before::{Library, Verdict};
use common::any_sort;
use model::crowded::crowded_stored;
use model::random::Random;
use model::verdicts::Verdicts;

/// The number in an environment variable, or this one if it is not set.
fn number(variable: &str, otherwise: u64) -> u64 {
    std::env::var(variable).map_or(otherwise, |text| {
        text.parse().unwrap_or_else(|_| panic!("{variable} should be a number, and is '{text}'"))
    })
}

/// The verdict that both libraries give; neither changes a word. The words are lent as if they might change, so that the
/// compiler takes none of them for known when they are compared.
fn same_verdict(library: &Library, before: &Library, stored: &mut [u32]) -> Verdict {
    let words = stored.to_vec();
    let verdict = library.judge(stored);
    assert_eq!(stored, words, "the library changed its input");
    assert_eq!(before.judge(stored), verdict, "the library of before, then this one: {stored:x?}");
    assert_eq!(stored, words, "the library of before changed its input");
    verdict
}

#[test]
#[ignore = "it needs the library of before a change, which BACKBONE_BEFORE names"]
fn verdicts_are_those_of_before() {
    let before = Library::before().unwrap_or_else(|why| panic!("{why}"));
    let library = Library::linked();
    let (sheets, seed) = (number("BACKBONE_SHEETS", 1_000_000), number("BACKBONE_SEED", 350));
    let mut random = Random::new(seed);
    let mut met = Verdicts::default();
    for sheet in 0..sheets {
        let mut stored = if sheet % 2 == 0 { crowded_stored(&mut random) } else { any_sort(&mut random) };
        let Verdict { refusal, rule } = same_verdict(&library, &before, &mut stored);
        met.count((refusal, rule));
    }
    println!("{sheets} stored sheets, seed {seed}: {met}");
    assert!(met.rarest() > 0, "a verdict was not met");
}
