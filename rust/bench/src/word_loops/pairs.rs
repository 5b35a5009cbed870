//! Tests of a tied site beside another.

/// What the head and the charge say, and the places of the first slot and of the first word after the slots.
#[derive(Clone, Copy)]
pub struct Head {
    pub two_sided: bool,
    pub gap: u32,
    pub width: u32,
    pub charge: u32,
    pub slots: usize,
    pub body: usize,
}

/// A site with the place of its tie in the layout, its colour, its slot and the slot's height.
#[derive(Clone, Copy)]
pub struct TiedSite {
    pub number: usize,
    pub x: u32,
    pub y: u32,
    pub colour: usize,
    pub slot: u32,
    pub height: u32,
}

/// Rule 1: sites that share a slot share a colour.
pub fn colours_pass(_: &Head, site: TiedSite, other: TiedSite) -> bool {
    site.slot != other.slot || site.colour == other.colour
}

/// Rule 3: labels lie at least the gap apart.
pub fn gaps_pass(head: &Head, site: TiedSite, other: TiedSite) -> bool {
    site.slot == other.slot || site.height.abs_diff(other.height) >= head.gap
}

/// Rule 4: the site's vertical misses the backbone of the other's label.
pub fn misses_pass(head: &Head, site: TiedSite, other: TiedSite) -> bool {
    let vertical = site.y.min(site.height)..=site.y.max(site.height);
    let meets = start(head, other) <= site.x && vertical.contains(&other.height);
    site.slot == other.slot || !meets
}

/// Rule 5: the backbone of the other's label lies at least the gap from the site, unless that is left of its left end by the
/// gap or more.
pub fn clears_pass(head: &Head, site: TiedSite, other: TiedSite) -> bool {
    let counted = start(head, other) < site.x + head.gap;
    site.slot == other.slot || !counted || other.height.abs_diff(site.y) >= head.gap
}

/// The other site does not come before the site on the same slot.
pub fn first_pass(_: &Head, site: TiedSite, other: TiedSite) -> bool {
    !(other.number < site.number && site.slot == other.slot)
}

/// The site is of a colour, and the other not one of that colour that comes before it on the same slot.
pub fn first_in_pass(colour: usize, head: &Head, site: TiedSite, other: TiedSite) -> bool {
    site.colour == colour && (other.colour != colour || first_pass(head, site, other))
}

/// The left end of a site's label if it alone is on it. Some site of a label has its left end, so pairs are enough.
fn start(head: &Head, site: TiedSite) -> u32 {
    if head.two_sided {
        0
    } else {
        site.x
    }
}
