//! What is said to break a rule, held to the sites and slots by plain counting.

use backbone::{faults, judge, labels, split_stored, true_numbers, Fault, Layout, Rule, Sheet};
use model::random::{small_sheet, Random};
use model::rules::{layout_words, Ties};
use std::collections::BTreeSet;

/// A stored sheet whose ties are any, its rule by the plain judge, and its true numbers.
fn any_stored(random: &mut Random) -> Option<(Vec<u32>, u8, (u32, u32))> {
    let sheet = small_sheet(random);
    let slots = sheet.slots.len() as u32;
    if slots == 0 {
        return None;
    }
    let spread = random.between(1, slots);
    let slot_of: Vec<usize> = sheet.sites.iter().map(|_| random.below(spread) as usize).collect();
    let mut words = layout_words(&sheet, &slot_of);
    let is_false = random.one_in(3);
    words[0] ^= u32::from(is_false);
    let ties = Ties::new(&sheet, &slot_of);
    let rule = if ties.broken() == 0 && is_false { 6 } else { ties.broken() };
    Some(([sheet.words(), words].concat(), rule, ties.numbers()))
}

fn parts(stored: &[u32]) -> (Sheet, Layout) {
    let (sheet, layout) = split_stored(stored);
    (Sheet::from_words(sheet).unwrap(), Layout::from_words(layout).unwrap())
}

#[test]
fn labels_have_the_true_numbers() {
    let mut random = Random::new(91);
    let mut charged = 0;
    for _ in 0..20_000 {
        let Some((stored, _, numbers)) = any_stored(&mut random) else { continue };
        let (sheet, layout) = parts(&stored);
        assert_eq!(true_numbers(&labels(&sheet, &layout)), numbers);
        charged += usize::from(sheet.charge().is_some_and(|charge| charge > 0));
    }
    assert!(charged > 5_000, "{charged}");
}

#[test]
fn every_broken_rule_has_its_places() {
    let mut random = Random::new(92);
    let (mut met, mut tips) = ([0; 7], 0);
    for _ in 0..50_000 {
        let Some((stored, rule, numbers)) = any_stored(&mut random) else { continue };
        let (sheet, layout) = parts(&stored);
        let found = judge(&stored).unwrap();
        assert_eq!(found.map_or(0, Rule::number), rule);
        met[usize::from(rule)] += 1;
        if let Some(found) = found {
            let faults = faults(&sheet, &layout, found);
            assert!(!faults.is_empty(), "{stored:x?}");
            faults.iter().for_each(|fault| assert!(holds(fault, &sheet, &layout, numbers), "{fault}: {stored:x?}"));
            assert_eq!(faults.len(), count(found, &sheet, &layout), "{faults:?}: {stored:x?}");
            tips += usize::from(faults.iter().all(|fault| matches!(fault, Fault::NearTip { .. })));
        }
    }
    assert!(met.iter().chain([&tips]).all(|times| *times > 100), "{met:?} {tips}");
}

fn left_end(sheet: &Sheet, layout: &Layout, slot: usize) -> u32 {
    let own = sheet.sites().iter().zip(&layout.slots).filter(|(_, own)| usize::from(**own) == slot);
    let least = own.map(|(site, _)| site.x).min().unwrap();
    if sheet.side == backbone::Side::Two {
        0
    } else {
        least
    }
}

/// Whether a foreign site lies so far below the backbone of a slot, less than the gap.
fn is_near(sheet: &Sheet, layout: &Layout, (site, slot): (usize, usize), below: i32, gap: u32) -> bool {
    i64::from(sheet.sites()[site].y) == i64::from(sheet.slots()[slot]) + i64::from(below)
        && usize::from(layout.slots[site]) != slot
        && below.unsigned_abs() < gap
        && gap == sheet.gap()
}

/// Whether what a fault says is so; the numbers are the layout's true ones.
fn holds(fault: &Fault, sheet: &Sheet, layout: &Layout, numbers: (u32, u32)) -> bool {
    let (sites, slot_of) = (sheet.sites(), |site: usize| usize::from(layout.slots[site]));
    match fault {
        Fault::MixedColours { slot, sites: [one, other], colours } => {
            slot_of(*one) == *slot
                && slot_of(*other) == *slot
                && colours[0] != colours[1]
                && *colours == [sites[*one].colour, sites[*other].colour]
        }
        Fault::TooManyLabels { colour, bound, slots } => {
            let own = (0..sites.len()).filter(|site| sites[*site].colour == *colour).map(slot_of);
            own.collect::<BTreeSet<usize>>() == slots.iter().copied().collect()
                && sheet.bounds()[*colour] == Some(*bound)
                && slots.len() > usize::from(*bound)
        }
        Fault::CloseBackbones { upper, lower, apart, gap } => {
            sheet.slots()[*lower] - sheet.slots()[*upper] == *apart && *apart < sheet.gap() && *gap == sheet.gap()
        }
        Fault::Crossing { site, x, slot } => {
            let (from, to, height) = (sites[*site].y, sheet.slots()[slot_of(*site)], sheet.slots()[*slot]);
            *x == sites[*site].x
                && left_end(sheet, layout, *slot) <= *x
                && slot_of(*site) != *slot
                && (from <= height && height <= to || to <= height && height <= from)
        }
        Fault::NearSite { site, slot, below, gap } => {
            left_end(sheet, layout, *slot) <= sites[*site].x && is_near(sheet, layout, (*site, *slot), *below, *gap)
        }
        Fault::NearTip { site, slot, left, below, gap } => {
            left_end(sheet, layout, *slot) == sites[*site].x + left
                && (1..*gap).contains(left)
                && is_near(sheet, layout, (*site, *slot), *below, *gap)
        }
        Fault::FalseNumbers { stated, found } => *stated == (layout.labels, layout.length) && *found == numbers,
    }
}

/// How many pairs of a site or slot and another slot break the rule.
fn count(rule: Rule, sheet: &Sheet, layout: &Layout) -> usize {
    let used: BTreeSet<usize> = layout.slots.iter().map(|slot| usize::from(*slot)).collect();
    let used: Vec<usize> = used.into_iter().collect();
    let gap = sheet.gap();
    let site_and_slot = |fault: &dyn Fn(usize, usize) -> Fault| {
        let pairs = (0..sheet.sites().len()).flat_map(|site| used.iter().map(move |slot| (site, *slot)));
        pairs.filter(|(site, slot)| holds(&fault(*site, *slot), sheet, layout, (0, 0))).count()
    };
    match rule {
        Rule::SharedSlotSharedColour => (0..sheet.sites().len())
            .filter(|site| {
                let first = layout.slots.iter().position(|slot| *slot == layout.slots[*site]).unwrap();
                sheet.sites()[first].colour != sheet.sites()[*site].colour
            })
            .count(),
        Rule::LabelBound => (0..sheet.bounds().len())
            .filter(|colour| {
                let own = (0..sheet.sites().len()).filter(|site| sheet.sites()[*site].colour == *colour);
                let slots: BTreeSet<u8> = own.map(|site| layout.slots[site]).collect();
                sheet.bounds()[*colour].is_some_and(|bound| slots.len() > usize::from(bound))
            })
            .count(),
        Rule::BackbonesApart => {
            used.windows(2).filter(|pair| sheet.slots()[pair[1]] - sheet.slots()[pair[0]] < gap).count()
        }
        Rule::NoCrossing => site_and_slot(&|site, slot| Fault::Crossing { site, x: sheet.sites()[site].x, slot }),
        Rule::SitesClear => {
            let below = |site: usize, slot: usize| sheet.sites()[site].y as i32 - sheet.slots()[slot] as i32;
            let left = |site: usize, slot| left_end(sheet, layout, slot).saturating_sub(sheet.sites()[site].x);
            site_and_slot(&|site, slot| Fault::NearSite { site, slot, below: below(site, slot), gap })
                + site_and_slot(&|site, slot| {
                    let (left, below) = (left(site, slot), below(site, slot));
                    Fault::NearTip { site, slot, left, below, gap }
                })
        }
        Rule::TrueNumbers => 1,
    }
}

#[test]
fn faults_say_what_is_wrong() {
    let says = |fault: Fault| fault.to_string();
    assert_eq!(
        says(Fault::MixedColours { slot: 2, sites: [0, 3], colours: [0, 1] }),
        "sites 0 and 3 share slot 2, but their colours are 0 and 1"
    );
    assert_eq!(
        says(Fault::TooManyLabels { colour: 0, bound: 2, slots: vec![1, 3, 5] }),
        "colour 0 has 3 labels, at slots 1, 3 and 5, more than its bound 2"
    );
    assert_eq!(
        says(Fault::TooManyLabels { colour: 1, bound: 0, slots: vec![2] }),
        "colour 1 has 1 label, at slot 2, more than its bound 0"
    );
    assert_eq!(
        says(Fault::CloseBackbones { upper: 1, lower: 2, apart: 3, gap: 5 }),
        "the backbones at slots 1 and 2 lie 3 apart, less than the gap 5"
    );
    assert_eq!(
        says(Fault::Crossing { site: 1, x: 6, slot: 1 }),
        "the vertical of site 1 meets the backbone at slot 1, at x 6"
    );
    assert_eq!(
        says(Fault::NearSite { site: 2, slot: 3, below: 1, gap: 2 }),
        "site 2 lies 1 below the backbone at slot 3, less than the gap 2"
    );
    assert_eq!(
        says(Fault::NearSite { site: 2, slot: 3, below: -1, gap: 2 }),
        "site 2 lies 1 above the backbone at slot 3, less than the gap 2"
    );
    assert_eq!(
        says(Fault::NearSite { site: 2, slot: 3, below: 0, gap: 2 }),
        "site 2 lies on the backbone at slot 3, which is not its own"
    );
    assert_eq!(
        says(Fault::FalseNumbers { stated: (2, 18), found: (2, 19) }),
        "the layout states 2 labels and length 18, but has 2 labels and length 19"
    );
}

#[test]
fn faults_at_a_tip_say_both_distances() {
    let says = |fault: Fault| fault.to_string();
    assert_eq!(
        says(Fault::NearTip { site: 2, slot: 3, left: 4, below: 1, gap: 5 }),
        "site 2 lies 4 left of the tip of the backbone at slot 3 and 1 below it, both less than the gap 5"
    );
    assert_eq!(
        says(Fault::NearTip { site: 2, slot: 3, left: 1, below: -4, gap: 5 }),
        "site 2 lies 1 left of the tip of the backbone at slot 3 and 4 above it, both less than the gap 5"
    );
    assert_eq!(
        says(Fault::NearTip { site: 2, slot: 3, left: 1, below: 0, gap: 2 }),
        "site 2 lies on the row of the backbone at slot 3, 1 left of its tip, less than the gap 2"
    );
}
