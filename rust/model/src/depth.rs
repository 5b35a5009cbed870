//! The depth of a layout: how many cuts are nested in it.
//!
//! Take the sites of a one-sided sheet by rising x. The first site of a label opens it; the label lies in the strip
//! between the nearest open labels above and below it, and cuts that strip into an upper and a lower part. A strip is
//! a part that the later of its two labels left, since before that label was opened the strip reached further. So a
//! label's depth is one more than that of the later of its two neighbours; with edges alone beside it, it is 1.
//!
//! Cuts are those of a one-sided sheet. On a two-sided sheet every backbone reaches from edge to edge, whichever site
//! comes first, and nothing is cut: the same count is made there, but it says nothing about the layout.

use crate::sheet::Sheet;

/// A label that is opened.
#[derive(Clone, Copy, Debug, PartialEq, Eq)]
pub struct Cut {
    pub slot: usize,
    /// The site that opens it, in sheet order.
    pub site: usize,
    /// The slot of the label whose cut left the part that this one lies in; none where no label was open.
    pub within: Option<usize>,
    pub depth: u32,
}

/// The cuts of a layout, in the order in which its labels are opened.
pub fn cuts(sheet: &Sheet, slot_of: &[usize]) -> Vec<Cut> {
    let mut cuts: Vec<Cut> = Vec::new();
    for site in sheet.by_x() {
        let slot = slot_of[site];
        if cuts.iter().all(|cut| cut.slot != slot) {
            let parent = last_neighbour(&cuts, slot);
            let depth = parent.map_or(1, |cut| cut.depth + 1);
            cuts.push(Cut { slot, site, within: parent.map(|cut| cut.slot), depth });
        }
    }
    cuts
}

/// Of the open labels next above and next below a slot, the one that was opened later.
fn last_neighbour(open: &[Cut], slot: usize) -> Option<Cut> {
    let above = open.iter().filter(|cut| cut.slot < slot).map(|cut| cut.slot).max();
    let below = open.iter().filter(|cut| cut.slot > slot).map(|cut| cut.slot).min();
    open.iter().rev().find(|cut| Some(cut.slot) == above || Some(cut.slot) == below).copied()
}

/// The greatest depth of a layout's cuts; 0 where there are no labels.
pub fn depth(sheet: &Sheet, slot_of: &[usize]) -> u32 {
    cuts(sheet, slot_of).iter().map(|cut| cut.depth).max().unwrap_or(0)
}
