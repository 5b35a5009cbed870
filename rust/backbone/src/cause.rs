//! Where a refusal comes from. The library says which refusal applies; this says by which words, slots, colours or
//! sites, in words.

use crate::{faults, judge, split_stored, strokes, Fault, Refusal, Rule, Stored, Word};
use crate::{MOST_BUDGETS, MOST_COLOURS, MOST_SITES, MOST_SLOTS};
use std::fmt;

/// One thing that a refusal comes from. Words, slots, colours and sites are numbered from 0.
#[derive(Clone, Debug, PartialEq, Eq)]
pub enum Cause {
    /// Refusal 1: the list is empty.
    NoWord,
    /// Refusal 1: the first word.
    NoHead { word: u32 },
    /// Refusal 1: the head's width or gap.
    Zero { name: &'static str },
    /// Refusals 2 and 11: a word, and what is wrong with it.
    Word { place: usize, word: u32, wrong: &'static str },
    /// Refusal 3: of what there are too many.
    TooMany { name: &'static str, count: usize, most: usize },
    /// Refusal 4: two neighbouring slots.
    NotRising { slots: [usize; 2], heights: [u32; 2] },
    /// Refusal 5: a site.
    BeyondWidth { site: usize, x: u32, width: u32 },
    /// Refusal 6: two sites.
    EqualX { sites: [usize; 2], x: u32 },
    /// Refusal 7: the bounded colours, their bounds and the product.
    Budgets { colours: Vec<(usize, u8)>, product: u64 },
    /// Refusal 11: there is no layout.
    NoLayoutWord,
    /// Refusal 11: more or fewer ties than sites.
    Ties { ties: usize, sites: usize },
    /// Refusal 11: a tie to a slot that the sheet doesn't have.
    NoSlot { site: usize, slot: u8, slots: usize },
    /// Refusal 13: the judge's rule, and a place at which it is broken.
    Broken { rule: Rule, fault: Fault },
    /// Refusal 14: how many strokes there are.
    Strokes { count: usize },
    /// Refusal 18: the head.
    TwoSided { head: u32 },
}

/// What a refusal comes from: of a sheet for refusals 1 to 7 and 18, of a stored sheet for 11, 13 and 14; nothing for
/// the others, which come from areas, from bytes or from the sheet as a whole.
///
/// ```
/// use backbone::{causes, read, Word};
/// let words = [0x10008008, 0x20000005, 0x20000005, 0x300000FF];
/// let causes = causes(&words, read(&words).unwrap_err());
/// assert_eq!(causes[0].to_string(), "slot 0 has height 5, and slot 1 after it height 5");
/// ```
pub fn causes(words: &[u32], refusal: Refusal) -> Vec<Cause> {
    match refusal {
        Refusal::NoHead => no_head(words),
        Refusal::BadWord => bad_words(words),
        Refusal::TooMany => too_many(&Parts::of(words)),
        Refusal::SlotsNotRising => not_rising(&Parts::of(words)),
        Refusal::SiteBeyondWidth => beyond_width(&Parts::of(words)),
        Refusal::EqualX => equal_x(&Parts::of(words)),
        Refusal::TooManyBudgets => budgets(&Parts::of(words)),
        Refusal::BadLayout => bad_layout(words),
        Refusal::Unlawful => broken(words),
        Refusal::PastLastStroke => past_last_stroke(words),
        Refusal::TwoSided => two_sided(words),
        Refusal::WorkTooShort | Refusal::AnswerTooShort | Refusal::NoLayout | Refusal::BadInput => Vec::new(),
    }
}

/// The numbers of a list of words, whether it is accepted or not.
#[derive(Default)]
struct Parts {
    width: u32,
    heights: Vec<u32>,
    bounds: Vec<u8>,
    xs: Vec<u32>,
}

impl Parts {
    fn of(words: &[u32]) -> Parts {
        let mut parts = Parts::default();
        for word in words {
            match Word::decode(*word) {
                Some(Word::Head { width, .. }) => parts.width = width,
                Some(Word::Slot { height }) => parts.heights.push(height),
                Some(Word::Colour { bound }) => parts.bounds.push(bound),
                Some(Word::Site { x, .. }) => parts.xs.push(x),
                _ => {}
            }
        }
        parts
    }
}

fn no_head(words: &[u32]) -> Vec<Cause> {
    let Some(head) = words.first().copied() else { return vec![Cause::NoWord] };
    if head >> 28 != 1 {
        return vec![Cause::NoHead { word: head }];
    }
    let fields = [("width", head & 0x3FFF), ("gap", head >> 14 & 0xFFF)];
    fields.iter().filter(|(_, number)| *number == 0).map(|(name, _)| Cause::Zero { name }).collect()
}

fn bad_words(words: &[u32]) -> Vec<Cause> {
    let mut causes = Vec::new();
    let mut before = Before::default();
    for (place, word) in words.iter().copied().enumerate().skip(1) {
        before.is_head = place == 1;
        if let Some(wrong) = wrong_with(word, before) {
            causes.push(Cause::Word { place, word, wrong });
        }
        before.has_charge |= word >> 28 == 5;
        before.has_colour |= word >> 28 == 3;
    }
    causes
}

/// What stands before a word: the head alone or not, a charge, a colour.
#[derive(Clone, Copy, Default)]
struct Before {
    is_head: bool,
    has_charge: bool,
    has_colour: bool,
}

/// What is wrong with a word after the head.
fn wrong_with(word: u32, before: Before) -> Option<&'static str> {
    match (word >> 28, Word::decode(word)) {
        (1, _) => Some("a head stands after the first word"),
        (2..=5, None) => Some("a spare bit is set"),
        (2, _) if before.has_colour => Some("a slot stands after a colour"),
        (4, _) if !before.has_colour => Some("a site stands before the first colour"),
        (5, _) if before.has_charge => Some("it is a second charge"),
        (5, _) if !before.is_head => Some("a charge stands elsewhere than right after the head"),
        (2..=5, _) => None,
        (8, _) => Some("a layout stands in the sheet"),
        (9, _) => Some("a tie stands in the sheet"),
        _ => Some("it is of no kind that a sheet has"),
    }
}

fn too_many(parts: &Parts) -> Vec<Cause> {
    let counts = [
        ("slots", parts.heights.len(), MOST_SLOTS),
        ("colours", parts.bounds.len(), MOST_COLOURS),
        ("sites", parts.xs.len(), MOST_SITES),
    ];
    let above = counts.into_iter().filter(|(_, count, most)| count > most);
    above.map(|(name, count, most)| Cause::TooMany { name, count, most }).collect()
}

fn not_rising(parts: &Parts) -> Vec<Cause> {
    let pairs = parts.heights.windows(2).enumerate().filter(|(_, pair)| pair[0] >= pair[1]);
    pairs.map(|(slot, pair)| Cause::NotRising { slots: [slot, slot + 1], heights: [pair[0], pair[1]] }).collect()
}

fn beyond_width(parts: &Parts) -> Vec<Cause> {
    let width = parts.width;
    let beyond = parts.xs.iter().enumerate().filter(|(_, x)| **x > width);
    beyond.map(|(site, x)| Cause::BeyondWidth { site, x: *x, width }).collect()
}

/// Each site with the first one of its x.
fn equal_x(parts: &Parts) -> Vec<Cause> {
    let first = |x: u32| parts.xs.iter().position(|other| *other == x);
    let sites = parts.xs.iter().enumerate().filter_map(|(site, x)| Some((first(*x)?, site, *x)));
    let pairs = sites.filter(|(first, site, _)| first < site);
    pairs.map(|(first, site, x)| Cause::EqualX { sites: [first, site], x }).collect()
}

fn budgets(parts: &Parts) -> Vec<Cause> {
    let bounded = parts.bounds.iter().copied().enumerate().filter(|(_, bound)| *bound != u8::MAX);
    let colours: Vec<(usize, u8)> = bounded.collect();
    let product = colours.iter().fold(1u64, |product, (_, bound)| product.saturating_mul(u64::from(*bound) + 1));
    vec![Cause::Budgets { colours, product }]
}

fn bad_layout(stored: &[u32]) -> Vec<Cause> {
    let (sheet, layout) = split_stored(stored);
    let parts = Parts::of(sheet);
    let Some((_, ties)) = layout.split_first() else { return vec![Cause::NoLayoutWord] };
    let mut causes = Vec::new();
    for (site, word) in ties.iter().copied().enumerate() {
        let place = sheet.len() + 1 + site;
        match (word >> 28, Word::decode(word)) {
            (9, None) => causes.push(Cause::Word { place, word, wrong: "a spare bit is set" }),
            (_, Some(Word::Tie { slot })) if usize::from(slot) < parts.heights.len() => {}
            (_, Some(Word::Tie { slot })) => {
                causes.push(Cause::NoSlot { site, slot, slots: parts.heights.len() });
            }
            _ => causes.push(Cause::Word { place, word, wrong: "it is no tie" }),
        }
    }
    if ties.len() != parts.xs.len() {
        causes.insert(0, Cause::Ties { ties: ties.len(), sites: parts.xs.len() });
    }
    causes
}

fn broken(stored: &[u32]) -> Vec<Cause> {
    let (Ok(Some(rule)), Ok(Stored { sheet, layout })) = (judge(stored), Stored::from_words(stored)) else {
        return Vec::new();
    };
    faults(&sheet, &layout, rule).into_iter().map(|fault| Cause::Broken { rule, fault }).collect()
}

/// Nothing where there are no strokes to ask for.
fn past_last_stroke(stored: &[u32]) -> Vec<Cause> {
    strokes(stored).map(|all| Cause::Strokes { count: all.count() }).into_iter().collect()
}

fn two_sided(words: &[u32]) -> Vec<Cause> {
    let two_sided = words.first().filter(|head| **head >> 27 & 1 == 1);
    two_sided.map(|head| Cause::TwoSided { head: *head }).into_iter().collect()
}

impl Cause {
    /// The sites that it is about.
    pub fn sites(&self) -> Vec<usize> {
        match self {
            Cause::BeyondWidth { site, .. } | Cause::NoSlot { site, .. } => vec![*site],
            Cause::EqualX { sites, .. } => sites.to_vec(),
            Cause::Broken { fault, .. } => fault.sites(),
            _ => Vec::new(),
        }
    }

    /// The slots that it is about.
    pub fn slots(&self) -> Vec<usize> {
        match self {
            Cause::NotRising { slots, .. } => slots.to_vec(),
            Cause::NoSlot { slot, .. } => vec![usize::from(*slot)],
            Cause::Broken { fault, .. } => fault.slots(),
            _ => Vec::new(),
        }
    }
}

/// What is there.
impl fmt::Display for Cause {
    fn fmt(&self, out: &mut fmt::Formatter) -> fmt::Result {
        match self {
            Cause::NoWord => write!(out, "there is no word"),
            Cause::NoHead { word } => write!(out, "word 0 is 0x{word:08X}, no head"),
            Cause::Zero { name } => write!(out, "the head's {name} is 0"),
            Cause::Word { place, word, wrong } => write!(out, "word {place} is 0x{word:08X}: {wrong}"),
            Cause::TooMany { name, count, most } => write!(out, "there are {count} {name}, at most {most} are allowed"),
            Cause::NotRising { slots: [one, other], heights: [first, second] } => {
                write!(out, "slot {one} has height {first}, and slot {other} after it height {second}")
            }
            Cause::BeyondWidth { site, x, width } => write!(out, "site {site} has x {x}, and the width is {width}"),
            Cause::EqualX { sites: [one, other], x } => write!(out, "sites {one} and {other} both have x {x}"),
            Cause::Budgets { colours, product } => {
                let bound = |(colour, bound): &(usize, u8)| format!("{bound} of colour {colour}");
                let bounds: Vec<String> = colours.iter().map(bound).collect();
                write!(out, "the bounds {} give {product}, above {MOST_BUDGETS}", bounds.join(", "))
            }
            Cause::NoLayoutWord => write!(out, "there is no word of a layout"),
            Cause::Ties { ties, sites } => write!(out, "words after the layout's first: {ties}; sites: {sites}"),
            Cause::NoSlot { site, slot, slots } => {
                write!(out, "site {site} is tied to slot {slot}, and the sheet has {slots} slots")
            }
            Cause::Broken { rule, fault } => write!(out, "rule {}: {fault}", rule.number()),
            Cause::Strokes { count } => write!(out, "strokes: {count}; places count from 0"),
            Cause::TwoSided { head } => write!(out, "word 0 is 0x{head:08X}, a two-sided head"),
        }
    }
}
