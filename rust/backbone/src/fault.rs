//! Where a layout breaks a rule. The judge says which rule is broken; this says at which sites and slots, in words.

use crate::{labels, true_numbers, Label, Layout, Rule, Sheet, Site};
use std::fmt;

/// One place at which a rule is broken, with what is there.
#[derive(Clone, Debug, PartialEq, Eq)]
pub enum Fault {
    /// Rule 1: two sites of a slot, with their colours.
    MixedColours { slot: usize, sites: [usize; 2], colours: [usize; 2] },
    /// Rule 2: a colour with all slots that it uses.
    TooManyLabels { colour: usize, bound: u8, slots: Vec<usize> },
    /// Rule 3: two used slots, and how far apart they are.
    CloseBackbones { upper: usize, lower: usize, apart: u32, gap: u32 },
    /// Rule 4: a site whose vertical meets the backbone at a slot that is not its own.
    Crossing { site: usize, x: u32, slot: usize },
    /// Rule 5: a site, and by how much it lies below the backbone at a slot that is not its own (less than 0: above).
    NearSite { site: usize, slot: usize, below: i32, gap: u32 },
    /// Rule 5: a site, how far it lies left of the tip of the backbone at a slot that is not its own, and by how much below
    /// it (less than 0: above). Both are less than the gap.
    NearTip { site: usize, slot: usize, left: u32, below: i32, gap: u32 },
    /// Rule 6: a count and a length as stated, and as they are.
    FalseNumbers { stated: (u32, u32), found: (u32, u32) },
}

/// The places at which a layout breaks a rule, which is the judge's.
///
/// ```
/// use backbone::{faults, judge, Layout, Sheet};
/// let sheet = Sheet::from_words(&[0x10008008, 0x20000002, 0x300000FF, 0x40008004])?;
/// let layout = Layout { labels: 1, length: 7, slots: vec![0] };
/// let rule = judge(&[sheet.words(), layout.words()].concat())?.unwrap();
/// let faults = faults(&sheet, &layout, rule);
/// assert_eq!(faults[0].to_string(), "the layout states 1 label and length 7, but has 1 label and length 8");
/// # Ok::<(), backbone::Refusal>(())
/// ```
pub fn faults(sheet: &Sheet, layout: &Layout, rule: Rule) -> Vec<Fault> {
    let labels = labels(sheet, layout);
    match rule {
        Rule::SharedSlotSharedColour => mixed_colours(sheet, &labels),
        Rule::LabelBound => labels_above_bounds(sheet, &labels),
        Rule::BackbonesApart => close_backbones(sheet, &labels),
        Rule::NoCrossing => crossings(sheet, &labels),
        Rule::SitesClear => near_sites(sheet, &labels),
        Rule::TrueNumbers => {
            vec![Fault::FalseNumbers { stated: (layout.labels, layout.length), found: true_numbers(&labels) }]
        }
    }
}

fn mixed_colours(sheet: &Sheet, labels: &[Label]) -> Vec<Fault> {
    let colour = |site: usize| sheet.sites()[site].colour;
    let pairs = labels.iter().flat_map(|label| label.sites.iter().map(move |site| (label, label.sites[0], *site)));
    let mixed = pairs.filter(|(_, first, site)| colour(*first) != colour(*site));
    let fault = |(label, first, site): (&Label, usize, usize)| Fault::MixedColours {
        slot: label.slot,
        sites: [first, site],
        colours: [colour(first), colour(site)],
    };
    mixed.map(fault).collect()
}

fn labels_above_bounds(sheet: &Sheet, labels: &[Label]) -> Vec<Fault> {
    let slots_of = |colour: usize| {
        let own = labels.iter().filter(|label| label.colour == colour);
        own.map(|label| label.slot).collect::<Vec<usize>>()
    };
    let bounds = sheet.bounds().iter().enumerate();
    let bounded = bounds.filter_map(|(colour, bound)| bound.map(|bound| (colour, bound, slots_of(colour))));
    let above = bounded.filter(|(_, bound, slots)| slots.len() > usize::from(*bound));
    above.map(|(colour, bound, slots)| Fault::TooManyLabels { colour, bound, slots }).collect()
}

/// Heights rise, so neighbours are the closest.
fn close_backbones(sheet: &Sheet, labels: &[Label]) -> Vec<Fault> {
    let gap = sheet.gap();
    let pairs = labels.windows(2).map(|pair| (pair[0].slot, pair[1].slot, pair[1].height.abs_diff(pair[0].height)));
    let close = pairs.filter(|(_, _, apart)| *apart < gap);
    close.map(|(upper, lower, apart)| Fault::CloseBackbones { upper, lower, apart, gap }).collect()
}

/// Each site with its own label and each other label.
fn foreign(labels: &[Label]) -> impl Iterator<Item = (usize, &Label, &Label)> {
    let tied = labels.iter().flat_map(|own| own.sites.iter().map(move |site| (*site, own)));
    let mut tied: Vec<(usize, &Label)> = tied.collect();
    tied.sort_by_key(|(site, _)| *site);
    tied.into_iter().flat_map(move |(site, own)| {
        labels.iter().filter(|other| other.slot != own.slot).map(move |other| (site, own, other))
    })
}

fn crossings(sheet: &Sheet, labels: &[Label]) -> Vec<Fault> {
    let meets = |(site, own, other): &(usize, &Label, &Label)| {
        let Site { x, y, .. } = sheet.sites()[*site];
        other.left_end <= x && (y.min(own.height)..=y.max(own.height)).contains(&other.height)
    };
    let fault = |(site, _, other): (usize, &Label, &Label)| Fault::Crossing {
        site,
        x: sheet.sites()[site].x,
        slot: other.slot,
    };
    foreign(labels).filter(meets).map(fault).collect()
}

fn near_sites(sheet: &Sheet, labels: &[Label]) -> Vec<Fault> {
    foreign(labels).filter_map(|(site, _, other)| near_site(sheet, site, other)).collect()
}

/// A site that is too near the backbone of another label, or its tip.
fn near_site(sheet: &Sheet, site: usize, label: &Label) -> Option<Fault> {
    let (gap, slot, Site { x, y, .. }) = (sheet.gap(), label.slot, sheet.sites()[site]);
    // Heights have 14 bits, so their difference fits.
    let below = y as i32 - label.height as i32;
    if below.unsigned_abs() >= gap {
        return None;
    }
    match label.left_end.saturating_sub(x) {
        0 => Some(Fault::NearSite { site, slot, below, gap }),
        left if left < gap => Some(Fault::NearTip { site, slot, left, below, gap }),
        _ => None,
    }
}

impl Fault {
    /// The sites that it is about.
    pub fn sites(&self) -> Vec<usize> {
        match self {
            Fault::MixedColours { sites, .. } => sites.to_vec(),
            Fault::Crossing { site, .. } | Fault::NearSite { site, .. } | Fault::NearTip { site, .. } => vec![*site],
            Fault::TooManyLabels { .. } | Fault::CloseBackbones { .. } | Fault::FalseNumbers { .. } => Vec::new(),
        }
    }

    /// The slots that it is about.
    pub fn slots(&self) -> Vec<usize> {
        match self {
            Fault::MixedColours { slot, .. }
            | Fault::Crossing { slot, .. }
            | Fault::NearSite { slot, .. }
            | Fault::NearTip { slot, .. } => vec![*slot],
            Fault::TooManyLabels { slots, .. } => slots.clone(),
            Fault::CloseBackbones { upper, lower, .. } => vec![*upper, *lower],
            Fault::FalseNumbers { .. } => Vec::new(),
        }
    }
}

/// `1 label`, `2 labels`.
fn counted(count: u32) -> String {
    format!("{count} label{}", if count == 1 { "" } else { "s" })
}

/// `slot 3`, `slots 1, 3 and 5`.
fn listed(slots: &[usize]) -> String {
    let numbers: Vec<String> = slots.iter().map(usize::to_string).collect();
    match numbers.split_last() {
        Some((last, [])) => format!("slot {last}"),
        Some((last, rest)) => format!("slots {} and {last}", rest.join(", ")),
        None => "no slot".to_string(),
    }
}

/// How far from a backbone, and on which side of it.
fn height_from(below: i32) -> (u32, &'static str) {
    (below.unsigned_abs(), if below > 0 { "below" } else { "above" })
}

/// What is wrong.
impl fmt::Display for Fault {
    fn fmt(&self, out: &mut fmt::Formatter) -> fmt::Result {
        match self {
            Fault::MixedColours { slot, sites: [one, other], colours: [first, second] } => {
                write!(out, "sites {one} and {other} share slot {slot}, but their colours are {first} and {second}")
            }
            Fault::TooManyLabels { colour, bound, slots } => {
                let count = counted(slots.len() as u32);
                write!(out, "colour {colour} has {count}, at {}, more than its bound {bound}", listed(slots))
            }
            Fault::CloseBackbones { upper, lower, apart, gap } => {
                write!(out, "the backbones at slots {upper} and {lower} lie {apart} apart, less than the gap {gap}")
            }
            Fault::Crossing { site, x, slot } => {
                write!(out, "the vertical of site {site} meets the backbone at slot {slot}, at x {x}")
            }
            Fault::NearSite { site, slot, below: 0, .. } => {
                write!(out, "site {site} lies on the backbone at slot {slot}, which is not its own")
            }
            Fault::NearSite { site, slot, below, gap } => {
                let (distance, side) = height_from(*below);
                write!(out, "site {site} lies {distance} {side} the backbone at slot {slot}, less than the gap {gap}")
            }
            Fault::NearTip { site, slot, left, below: 0, gap } => {
                write!(out, "site {site} lies on the row of the backbone at slot {slot}, {left} left of its tip, ")?;
                write!(out, "less than the gap {gap}")
            }
            Fault::NearTip { site, slot, left, below, gap } => {
                let (distance, side) = height_from(*below);
                write!(out, "site {site} lies {left} left of the tip of the backbone at slot {slot} and {distance} ")?;
                write!(out, "{side} it, both less than the gap {gap}")
            }
            Fault::FalseNumbers { stated, found } => {
                let (stated_count, found_count) = (counted(stated.0), counted(found.0));
                write!(out, "the layout states {stated_count} and length {}, but ", stated.1)?;
                write!(out, "has {found_count} and length {}", found.1)
            }
        }
    }
}
