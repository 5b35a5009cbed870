//! What the random sheets up to the limits of the counts are drawn for.

use model::crowded::{crowded, slots_of_colours, Tied};
use model::random::Random;
use model::rules::{judge, layout_words};
use model::sheet::{MOST_COLOURS, MOST_SITES, MOST_SLOTS, UNBOUNDED};

const SHEETS: usize = 20_000;

/// Rule 2 alone decides, and bounds lie on both sides of what it asks for, at large numbers of slots too.
#[test]
fn bounds_are_near_the_slots_of_their_colours() {
    let mut random = Random::new(340);
    let (mut below, mut at, mut above, mut refused, mut of_many) = (0, 0, 0, 0, 0);
    for _ in 0..SHEETS {
        let tied = crowded(&mut random);
        let own = slots_of_colours(&tied);
        let bounded = || own.iter().zip(&tied.sheet.bounds).filter(|(_, bound)| **bound != UNBOUNDED);
        let is_short = bounded().any(|(own, bound)| *bound + 1 == *own);
        let stored = [tied.sheet.words(), layout_words(&tied.sheet, &tied.slot_of)].concat();
        match judge(&stored) {
            (0, rule) => assert_eq!(rule, if is_short { 2 } else { 0 }, "{stored:x?}"),
            (refusal, _) => {
                assert_eq!(refusal, 3, "{stored:x?}");
                refused += 1;
            }
        }
        below += usize::from(is_short);
        at += usize::from(bounded().any(|(own, bound)| bound == own));
        above += usize::from(bounded().any(|(own, bound)| *bound == *own + 1));
        of_many += usize::from(bounded().any(|(own, _)| *own >= 16));
    }
    let met = [below, at, above, refused, of_many];
    assert!(met.iter().all(|times| *times > SHEETS / 100), "{met:?}");
}

/// Sheets at all three limits, on which two sites and more have one slot.
#[test]
fn the_limits_are_reached() {
    let mut random = Random::new(341);
    let is_full = |tied: &Tied| {
        let counts = [tied.sheet.slots.len(), tied.sheet.bounds.len(), tied.sheet.sites.len()];
        counts == [MOST_SLOTS, MOST_COLOURS, MOST_SITES]
    };
    let is_shared = |tied: &Tied| (1..tied.slot_of.len()).any(|i| tied.slot_of[..i].contains(&tied.slot_of[i]));
    let drawn: Vec<_> = (0..SHEETS).map(|_| crowded(&mut random)).filter(is_full).collect();
    assert!(drawn.len() > SHEETS / 100, "{}", drawn.len());
    assert!(drawn.iter().filter(|tied| is_shared(tied)).count() > SHEETS / 100);
}
