//! The library's judge and a plain one, on stored sheets that are right, invented or damaged.

use backbone::{judge, Rule};
use model::crowded::crowded_stored;
use model::random::{hold_judge, Random};
use model::rules;
use model::verdicts::Verdicts;

const CROWDED: usize = 200_000;

fn library_verdict(stored: &[u32]) -> (u8, u8) {
    match judge(stored) {
        Ok(rule) => (0, rule.map_or(0, Rule::number)),
        Err(refusal) => (refusal.number(), 0),
    }
}

#[test]
fn stored_sheets_are_judged_alike() {
    hold_judge(library_verdict, 400_000, 31);
}

/// Sheets up to the limits of the counts and one past them.
#[test]
fn crowded_sheets_are_judged_alike() {
    let mut random = Random::new(32);
    let mut met = Verdicts::default();
    for _ in 0..CROWDED {
        let stored = crowded_stored(&mut random);
        let verdict = rules::judge(&stored);
        assert_eq!(library_verdict(&stored), verdict, "{stored:x?}");
        met.count(verdict);
    }
    assert!(met.rarest() > CROWDED / 200, "{met}");
}
