use crate::{Layout, Sheet, Side};

/// A used slot of a layout, with its backbone.
#[derive(Clone, Debug, PartialEq, Eq)]
pub struct Label {
    pub slot: usize,
    pub height: u32,
    pub left_end: u32,
    /// The colour of its first site.
    pub colour: usize,
    /// Its sites, in sheet order.
    pub sites: Vec<usize>,
    /// Its part of the layout's length: the backbone, and its sites' shares.
    pub length: u32,
}

impl Label {
    fn of_slot(sheet: &Sheet, slot: usize, sites: Vec<usize>) -> Option<Label> {
        let (height, first) = (*sheet.slots().get(slot)?, *sites.first()?);
        let least_x = sites.iter().map(|site| sheet.sites()[*site].x).min()?;
        let left_end = if sheet.side == Side::Two { 0 } else { least_x };
        let shares: u32 = sites.iter().map(|site| sheet.share(sheet.sites()[*site].y.abs_diff(height))).sum();
        let colour = sheet.sites()[first].colour;
        // A site's x is at most the width in every sheet that the reader accepts.
        let backbone = sheet.width().saturating_sub(left_end);
        Some(Label { slot, height, left_end, colour, sites, length: backbone + shares })
    }
}

/// The labels of a layout, from the top downwards.
///
/// ```
/// use backbone::{labels, Layout, Sheet};
/// let sheet = Sheet::from_words(&[0x10008008, 0x20000002, 0x300000FF, 0x40008004])?;
/// let labels = labels(&sheet, &Layout { labels: 1, length: 8, slots: vec![0] });
/// assert_eq!((labels[0].height, labels[0].left_end, labels[0].length), (2, 2, 8));
/// # Ok::<(), backbone::Refusal>(())
/// ```
pub fn labels(sheet: &Sheet, layout: &Layout) -> Vec<Label> {
    let sites_of = |slot: usize| {
        let tied = layout.slots.iter().take(sheet.sites().len()).enumerate();
        tied.filter(|(_, own)| usize::from(**own) == slot).map(|(site, _)| site).collect()
    };
    (0..sheet.slots().len()).filter_map(|slot| Label::of_slot(sheet, slot, sites_of(slot))).collect()
}

/// The count and the length that rule 6 asks for.
pub fn true_numbers(labels: &[Label]) -> (u32, u32) {
    (labels.len() as u32, labels.iter().map(|label| label.length).sum())
}
