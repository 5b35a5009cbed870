//! Every refusal of words has its causes, and each cause is there in the words.

use backbone::{causes, judge, read, split_stored, stroke_at, Cause, Refusal, Rule};
use model::random::{any_list, any_stored, damage, invented_layout, small_sheet, Random};

/// The words of a kind, as they come.
fn of_kind(words: &[u32], kind: u32) -> Vec<u32> {
    words.iter().copied().filter(|word| word >> 28 == kind).collect()
}

/// Whether a cause is there, looked up in the words by their bits.
fn holds(cause: &Cause, words: &[u32]) -> bool {
    let (slots, colours, sites) = (of_kind(words, 2), of_kind(words, 3), of_kind(words, 4));
    let x = |site: usize| sites[site] >> 14 & 0x3FFF;
    match cause {
        Cause::NoWord => words.is_empty(),
        Cause::NoHead { word } => words[0] == *word && word >> 28 != 1,
        Cause::Zero { name: "width" } => words[0] & 0x3FFF == 0,
        Cause::Zero { .. } => words[0] >> 14 & 0xFFF == 0,
        Cause::Word { place, word, .. } => words[*place] == *word,
        Cause::TooMany { name: "slots", count, most: 48 } => slots.len() == *count && *count > 48,
        Cause::TooMany { name: "colours", count, most: 8 } => colours.len() == *count && *count > 8,
        Cause::TooMany { count, most, .. } => sites.len() == *count && *count > 32 && *most == 32,
        Cause::NotRising { slots: [one, other], heights } => {
            one + 1 == *other && heights.map(|height| 2 << 28 | height) == [slots[*one], slots[*other]]
        }
        Cause::BeyondWidth { site, x: above, width } => x(*site) == *above && words[0] & 0x3FFF == *width,
        Cause::EqualX { sites: [one, other], x: both } => one < other && x(*one) == *both && x(*other) == *both,
        Cause::Budgets { colours: bounded, product } => {
            let bounds = bounded.iter().map(|(colour, bound)| (colours[*colour], 3 << 28 | u32::from(*bound)));
            bounds.clone().all(|(word, bound)| word == bound && bound != 0x300000FF) && *product > 64
        }
        Cause::NoLayoutWord => of_kind(words, 8).is_empty(),
        Cause::Ties { ties, .. } => split_stored(words).1.len() == ties + 1,
        Cause::NoSlot { site, slot, slots } => {
            split_stored(words).1[site + 1] == 9 << 28 | u32::from(*slot) && usize::from(*slot) >= *slots
        }
        Cause::Broken { rule, .. } => model::rules::judge(words) == (0, rule.number()),
        Cause::Strokes { count } => model::strokes::strokes(words).is_ok_and(|all| all.len() == *count),
        Cause::TwoSided { head } => words[0] == *head && head >> 27 & 1 == 1,
    }
}

#[test]
fn refusals_have_their_causes() {
    let mut random = Random::new(91);
    let mut met = [0; 13];
    for _ in 0..100_000 {
        let words = any_list(&mut random);
        let Err(refusal) = read(&words) else { continue };
        let causes = causes(&words, refusal);
        assert!(
            !causes.is_empty() && causes.iter().all(|cause| holds(cause, &words)),
            "{refusal:?} {causes:?} {words:x?}"
        );
        met[usize::from(refusal.number())] += 1;
    }
    assert!(met[1..=7].iter().all(|times| *times > 300), "{met:?}");
}

/// The first word that is wrong is the one up to which the list is refused so, and before which it is not.
#[test]
fn the_first_wrong_word_is_the_cause() {
    let mut random = Random::new(92);
    let mut met = 0;
    for _ in 0..50_000 {
        let words = any_list(&mut random);
        if read(&words) != Err(Refusal::BadWord) {
            continue;
        }
        let Cause::Word { place, .. } = causes(&words, Refusal::BadWord)[0] else { panic!("{words:x?}") };
        assert_eq!(model::sheet::read(&words[..=place]), Err(2), "{words:x?}");
        assert_ne!(model::sheet::read(&words[..place]), Err(2), "{words:x?}");
        met += 1;
    }
    assert!(met > 5_000, "{met}");
}

#[test]
fn layouts_out_of_form_have_their_causes() {
    let mut random = Random::new(93);
    let mut met = 0;
    for _ in 0..50_000 {
        let sheet = small_sheet(&mut random);
        let mut layout = invented_layout(&sheet, &mut random);
        damage(&mut layout, &mut random);
        let stored = [sheet.words(), layout].concat();
        if judge(&stored) != Err(Refusal::BadLayout) {
            continue;
        }
        let causes = causes(&stored, Refusal::BadLayout);
        assert!(!causes.is_empty() && causes.iter().all(|cause| holds(cause, &stored)), "{causes:?} {stored:x?}");
        met += 1;
    }
    assert!(met > 5_000, "{met}");
}

/// The places themselves are held to the layout in `faults`.
#[test]
fn unlawful_layouts_have_their_causes() {
    let mut random = Random::new(94);
    let mut met = [0; 7];
    for _ in 0..20_000 {
        let sheet = small_sheet(&mut random);
        let stored = [sheet.words(), invented_layout(&sheet, &mut random)].concat();
        let Ok(rule) = judge(&stored) else { continue };
        let causes = causes(&stored, Refusal::Unlawful);
        assert_eq!(causes.is_empty(), rule.is_none(), "{stored:x?}");
        assert!(causes.iter().all(|cause| holds(cause, &stored)), "{causes:?} {stored:x?}");
        met[usize::from(rule.map_or(0, Rule::number))] += 1;
    }
    assert!(met[..6].iter().all(|times| *times > 100), "{met:?}");
}

#[test]
fn places_past_the_last_stroke_have_their_cause() {
    let mut random = Random::new(95);
    let mut met = 0;
    for _ in 0..2_000 {
        let stored = any_stored(&mut random);
        let causes = causes(&stored, Refusal::PastLastStroke);
        let is_refused = stroke_at(&stored, usize::MAX) == Err(Refusal::PastLastStroke);
        assert_eq!(causes.len(), usize::from(is_refused), "{stored:x?}");
        assert!(causes.iter().all(|cause| holds(cause, &stored)), "{causes:?} {stored:x?}");
        met += causes.len();
    }
    assert!(met > 200, "{met}");
}

fn first(words: &[u32], refusal: Refusal) -> String {
    causes(words, refusal)[0].to_string()
}

#[test]
fn causes_of_charges_in_words() {
    let after_colour = [0x10008008, 0x300000FF, 0x50000003];
    let text = "word 2 is 0x50000003: a charge stands elsewhere than right after the head";
    assert_eq!(first(&after_colour, Refusal::BadWord), text);
    let charges = [0x10008008, 0x50004003, 0x50000003];
    assert_eq!(first(&charges, Refusal::BadWord), "word 1 is 0x50004003: a spare bit is set");
    let twice = [0x10008008, 0x50000003, 0x50000003];
    assert_eq!(first(&twice, Refusal::BadWord), "word 2 is 0x50000003: it is a second charge");
    assert_eq!(causes(&charges, Refusal::BadWord)[1..], causes(&twice, Refusal::BadWord)[..]);
    assert_eq!(first(&charges[1..], Refusal::NoHead), "word 0 is 0x50004003, no head");
    let uncharged = [0x10008008, 0x50000003, 0x20000002, 0x300000FF, 0x40008004, 0x80200008, 0x90000000];
    let text = "rule 6: the layout states 1 label and length 8, but has 1 label and length 11";
    assert_eq!(first(&uncharged, Refusal::Unlawful), text);
}

#[test]
fn causes_in_words() {
    assert_eq!(first(&[], Refusal::NoHead), "there is no word");
    assert_eq!(first(&[0x20000002], Refusal::NoHead), "word 0 is 0x20000002, no head");
    assert_eq!(first(&[0x10008000], Refusal::NoHead), "the head's width is 0");
    assert_eq!(first(&[0x10000008], Refusal::NoHead), "the head's gap is 0");
    let after = |word: u32| first(&[0x10008008, 0x300000FF, word], Refusal::BadWord);
    assert_eq!(after(0x20000002), "word 2 is 0x20000002: a slot stands after a colour");
    assert_eq!(after(0x30000100), "word 2 is 0x30000100: a spare bit is set");
    assert_eq!(after(0x10008008), "word 2 is 0x10008008: a head stands after the first word");
    assert_eq!(after(0x60000000), "word 2 is 0x60000000: it is of no kind that a sheet has");
    let site = [0x10008008, 0x40008004];
    assert_eq!(first(&site, Refusal::BadWord), "word 1 is 0x40008004: a site stands before the first colour");
    let sites = [0x10008008, 0x300000FF, 0x40024004, 0x40024005];
    assert_eq!(first(&sites, Refusal::SiteBeyondWidth), "site 0 has x 9, and the width is 8");
    assert_eq!(first(&sites, Refusal::EqualX), "sites 0 and 1 both have x 9");
    let bounds = [0x10008008, 0x30000007, 0x300000FF, 0x30000008];
    let text = "the bounds 7 of colour 0, 8 of colour 2 give 72, above 64";
    assert_eq!(first(&bounds, Refusal::TooManyBudgets), text);
    let stored = [0x10008008, 0x20000002, 0x300000FF, 0x40008004, 0x80200008, 0x90000001];
    assert_eq!(first(&stored, Refusal::BadLayout), "site 0 is tied to slot 1, and the sheet has 1 slots");
    assert_eq!(first(&stored[..5], Refusal::BadLayout), "words after the layout's first: 0; sites: 1");
    assert_eq!(first(&stored[..4], Refusal::BadLayout), "there is no word of a layout");
    assert_eq!(causes(&stored, Refusal::NoLayout), []);
    let two_sided = [0x18008008, 0x20000002, 0x300000FF, 0x40008004, 0x80200008, 0x90000000];
    assert_eq!(first(&two_sided[..4], Refusal::TwoSided), "word 0 is 0x18008008, a two-sided head");
    let text = "rule 6: the layout states 1 label and length 8, but has 1 label and length 10";
    assert_eq!(first(&two_sided, Refusal::Unlawful), text);
    assert_eq!(causes(&two_sided[..4], Refusal::Unlawful), []);
    assert_eq!(causes(&stored, Refusal::TwoSided), []);
    let lawful = [&stored[..5], &[0x90000000]].concat();
    assert_eq!(first(&lawful, Refusal::PastLastStroke), "strokes: 2; places count from 0");
    assert_eq!(causes(&stored, Refusal::PastLastStroke), []);
}
