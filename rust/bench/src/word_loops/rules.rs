//! Rules 1 to 6 by loops over the sheet's words after the slots, a loop within a loop for every two sites.

use super::fields::{byte, gap, high, is_two_sided, kind, low, CHARGE, COLOUR, SITE, SLOT};
use super::pairs::{first_in_pass, first_pass, Head, TiedSite};

/// A sheet that is not refused and a layout of its sites.
pub struct Stored<'a> {
    head: Head,
    sheet: &'a [u32],
    layout: &'a [u32],
}

/// A test of a tied site beside another.
pub trait Test: Fn(&Head, TiedSite, TiedSite) -> bool + Copy {}

impl<T: Fn(&Head, TiedSite, TiedSite) -> bool + Copy> Test for T {}

/// How far a loop has come: the colours passed, and the place in the layout of the next site's tie.
#[derive(Clone, Copy)]
struct Place {
    colours: usize,
    tie: usize,
}

impl Place {
    const START: Place = Place { colours: 0, tie: 1 };

    fn after(self, word: u32) -> Place {
        let colours = self.colours + usize::from(kind(word) == COLOUR);
        let tie = self.tie + usize::from(kind(word) == SITE);
        Place { colours, tie }
    }
}

impl<'a> Stored<'a> {
    pub fn new(sheet: &'a [u32], layout: &'a [u32]) -> Stored<'a> {
        let (two_sided, gap, width) = (is_two_sided(sheet[0]), gap(sheet[0]), low(sheet[0]));
        let charge = sheet.get(1).filter(|word| kind(**word) == CHARGE).map(|word| low(*word));
        let slots = 1 + usize::from(charge.is_some());
        let body = slots + sheet[slots..].iter().take_while(|word| kind(**word) == SLOT).count();
        let charge = charge.unwrap_or(0);
        Stored { head: Head { two_sided, gap, width, charge, slots, body }, sheet, layout }
    }

    fn slot_at(&self, place: Place) -> u32 {
        byte(self.layout[place.tie])
    }

    fn tied_at(&self, place: Place, word: u32) -> TiedSite {
        let slot = self.slot_at(place);
        let height = low(self.sheet[slot as usize + self.head.slots]);
        TiedSite { number: place.tie, x: high(word), y: low(word), colour: place.colours - 1, slot, height }
    }

    /// Whether a tied site passes a test beside every tied site.
    fn all_pass(&self, test: impl Test, site: TiedSite) -> bool {
        let mut place = Place::START;
        for word in &self.sheet[self.head.body..] {
            if kind(*word) == SITE && !test(&self.head, site, self.tied_at(place, *word)) {
                return false;
            }
            place = place.after(*word);
        }
        true
    }

    /// Whether every two tied sites pass a test.
    pub fn pairs_pass(&self, test: impl Test) -> bool {
        let mut place = Place::START;
        for word in &self.sheet[self.head.body..] {
            if kind(*word) == SITE && !self.all_pass(test, self.tied_at(place, *word)) {
                return false;
            }
            place = place.after(*word);
        }
        true
    }

    /// How many tied sites pass a test beside every tied site.
    fn passing_sites(&self, test: impl Test) -> usize {
        let mut count = 0;
        let mut place = Place::START;
        for word in &self.sheet[self.head.body..] {
            if kind(*word) == SITE && self.all_pass(test, self.tied_at(place, *word)) {
                count += 1;
            }
            place = place.after(*word);
        }
        count
    }

    /// Rule 2: no colour has more labels than its bound.
    pub fn bounds_pass(&self) -> bool {
        let mut place = Place::START;
        for word in &self.sheet[self.head.body..] {
            if kind(*word) == COLOUR && !self.bound_passes(place, byte(*word)) {
                return false;
            }
            place = place.after(*word);
        }
        true
    }

    fn bound_passes(&self, place: Place, bound: u32) -> bool {
        bound == 255 || self.labels_of(place.colours) <= bound as usize
    }

    /// How many labels a colour has.
    fn labels_of(&self, colour: usize) -> usize {
        self.passing_sites(|head: &Head, site, other| first_in_pass(colour, head, site, other))
    }

    /// Rule 6: the stated count and length are those of the ties.
    pub fn totals_stated(&self) -> bool {
        let stated = self.layout[0];
        let counted = (stated >> 21 & 0x7F) as usize == self.passing_sites(first_pass);
        counted && stated & 0x1F_FFFF == self.total_length()
    }

    fn total_length(&self) -> u32 {
        let mut length = 0;
        let mut place = Place::START;
        for word in &self.sheet[self.head.body..] {
            if kind(*word) == SITE {
                length += self.site_length(self.tied_at(place, *word));
            }
            place = place.after(*word);
        }
        length
    }

    /// A site's share, and its backbone if it is the first of its label.
    fn site_length(&self, site: TiedSite) -> u32 {
        let share = self.share(site);
        if !self.all_pass(first_pass, site) {
            return share;
        }
        share + self.head.width - self.left_end(site.slot)
    }

    /// A site's drop, and the charge if that is not 0.
    fn share(&self, site: TiedSite) -> u32 {
        match site.height.abs_diff(site.y) {
            0 => 0,
            drop => drop + self.head.charge,
        }
    }

    fn left_end(&self, slot: u32) -> u32 {
        if self.head.two_sided {
            return 0;
        }
        let mut left = self.head.width;
        let mut place = Place::START;
        for word in &self.sheet[self.head.body..] {
            if kind(*word) == SITE && self.slot_at(place) == slot {
                left = left.min(high(*word));
            }
            place = place.after(*word);
        }
        left
    }
}
