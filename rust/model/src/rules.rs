//! The rules of a lawful layout, one function a rule, and the judge over them.

use crate::sheet::{read, Sheet, Site, UNBOUNDED};

/// The slot of each site, in sheet order, with the slots in use and their left ends.
pub struct Ties<'a> {
    sheet: &'a Sheet,
    slot_of: &'a [usize],
    left_end: Vec<Option<u32>>,
}

impl<'a> Ties<'a> {
    pub fn new(sheet: &'a Sheet, slot_of: &'a [usize]) -> Ties<'a> {
        let mut left_end: Vec<Option<u32>> = vec![None; sheet.slots.len()];
        for (site, slot) in sheet.sites.iter().zip(slot_of) {
            let end = if sheet.two_sided { 0 } else { site.x };
            left_end[*slot] = Some(left_end[*slot].map_or(end, |old| old.min(end)));
        }
        Ties { sheet, slot_of, left_end }
    }

    /// The slots in use with their left ends, by rising slot.
    pub fn used(&self) -> impl Iterator<Item = (usize, u32)> + '_ {
        let ends = self.left_end.iter().enumerate();
        ends.filter_map(|(slot, end)| end.map(|end| (slot, end)))
    }

    /// Sites that share a slot share a colour.
    fn obeys_1(&self) -> bool {
        let sites = &self.sheet.sites;
        (0..sites.len())
            .all(|i| (0..i).all(|j| self.slot_of[i] != self.slot_of[j] || sites[i].colour == sites[j].colour))
    }

    /// No colour uses more slots than its bound.
    fn obeys_2(&self) -> bool {
        self.sheet.bounds.iter().enumerate().all(|(colour, bound)| {
            let mut own = 0u64;
            for (site, slot) in self.sheet.sites.iter().zip(self.slot_of) {
                own |= u64::from(site.colour == colour) << slot;
            }
            *bound == UNBOUNDED || own.count_ones() <= *bound
        })
    }

    /// Any two used slots are at least the gap apart.
    fn obeys_3(&self) -> bool {
        let height = |slot: usize| self.sheet.slots[slot];
        self.used().all(|(a, _)| self.used().all(|(b, _)| a == b || height(a).abs_diff(height(b)) >= self.sheet.gap))
    }

    /// No vertical shares a point with the backbone of another label.
    fn obeys_4(&self) -> bool {
        self.sheet.sites.iter().zip(self.slot_of).all(|(site, own)| {
            let end = self.sheet.slots[*own];
            let vertical = site.y.min(end)..=site.y.max(end);
            self.used().all(|(slot, left)| {
                let reaches = left <= site.x && site.x <= self.sheet.width;
                slot == *own || !reaches || !vertical.contains(&self.sheet.slots[slot])
            })
        })
    }

    /// A backbone lies at least the gap from every site of another label that counts: one at or right of its left end, and on
    /// a one-sided sheet one left of it by less than the gap.
    fn obeys_5(&self) -> bool {
        self.clears_backbones() && self.clears_tips()
    }

    /// Rule 5 for the sites at or right of a left end.
    fn clears_backbones(&self) -> bool {
        self.clears(|site, left| site.x >= left)
    }

    /// Rule 5 for the sites left of a left end: a two-sided sheet has none.
    fn clears_tips(&self) -> bool {
        self.clears(|site, left| site.x < left && left - site.x < self.sheet.gap)
    }

    /// Does each backbone lie at least the gap from the sites of other labels that count against its left end?
    fn clears(&self, counts: impl Fn(&Site, u32) -> bool) -> bool {
        self.sheet.sites.iter().zip(self.slot_of).all(|(site, own)| {
            self.used().all(|(slot, left)| {
                let distance = site.y.abs_diff(self.sheet.slots[slot]);
                slot == *own || !counts(site, left) || distance >= self.sheet.gap
            })
        })
    }

    /// The count and the length that rule 6 asks for.
    pub fn numbers(&self) -> (u32, u32) {
        let backbones: u32 = self.used().map(|(_, left)| self.sheet.width - left).sum();
        let tied = self.sheet.sites.iter().zip(self.slot_of);
        let share = |(site, slot): (&Site, &usize)| self.sheet.share(site.y.abs_diff(self.sheet.slots[*slot]));
        (self.used().count() as u32, backbones + tied.map(share).sum::<u32>())
    }

    /// The least broken rule among 1 to 5, or 0.
    pub fn broken(&self) -> u8 {
        self.first_broken(&[Self::obeys_1, Self::obeys_2, Self::obeys_3, Self::obeys_4, Self::obeys_5])
    }

    /// The least broken rule among 1 to 5, or 0, where foreign sites may be near a tip: for counts of what the clearance at
    /// the tip alters.
    pub fn broken_but_for_tips(&self) -> u8 {
        self.first_broken(&[Self::obeys_1, Self::obeys_2, Self::obeys_3, Self::obeys_4, Self::clears_backbones])
    }

    fn first_broken(&self, rules: &[fn(&Self) -> bool]) -> u8 {
        let first = rules.iter().position(|obeys| !obeys(self));
        first.map_or(0, |rule| rule as u8 + 1)
    }
}

/// The judge's refusal, 0 if it has none, and the least broken rule, 0 if there is none.
pub fn judge(stored: &[u32]) -> (u8, u8) {
    match split(stored) {
        Err(refusal) => (refusal, 0),
        Ok((sheet, slot_of, stated)) => (0, verdict(&sheet, &slot_of, stated)),
    }
}

/// Are foreign sites at tips all that breaks one of rules 1 to 5 in this stored sheet?
pub fn breaks_at_tips_alone(stored: &[u32]) -> bool {
    split(stored).is_ok_and(|(sheet, slot_of, _)| {
        let ties = Ties::new(&sheet, &slot_of);
        ties.broken() == 5 && ties.broken_but_for_tips() == 0
    })
}

/// The least broken rule of a layout with these ties that states these numbers, 0 if there is none.
pub fn verdict(sheet: &Sheet, slot_of: &[usize], stated: (u32, u32)) -> u8 {
    let ties = Ties::new(sheet, slot_of);
    match ties.broken() {
        0 if ties.numbers() != stated => 6,
        rule => rule,
    }
}

/// The sheet of a stored sheet and its ties, where the layout is lawful; refusals 1 to 7 and 11, then 13.
pub fn lawful(stored: &[u32]) -> Result<(Sheet, Vec<usize>), u8> {
    let (sheet, slot_of, stated) = split(stored)?;
    match verdict(&sheet, &slot_of, stated) {
        0 => Ok((sheet, slot_of)),
        _ => Err(13),
    }
}

/// The sheet of a stored sheet, its ties, and the count and the length that it states.
#[allow(clippy::type_complexity)]
pub fn split(stored: &[u32]) -> Result<(Sheet, Vec<usize>, (u32, u32)), u8> {
    let start = stored.iter().position(|word| word >> 28 == 8).unwrap_or(stored.len());
    let sheet = read(&stored[..start])?;
    let layout = &stored[start..];
    if layout.len() != sheet.sites.len() + 1 {
        return Err(11);
    }
    let slots = 9 << 28..(9 << 28) + sheet.slots.len() as u32;
    if !layout[1..].iter().all(|word| slots.contains(word)) {
        return Err(11);
    }
    let slot_of = layout[1..].iter().map(|word| (word - slots.start) as usize).collect();
    Ok((sheet, slot_of, (layout[0] >> 21 & 0x7F, layout[0] & 0x1F_FFFF)))
}

/// The words of a layout with these ties and the count and length that rule 6 asks for.
pub fn layout_words(sheet: &Sheet, slot_of: &[usize]) -> Vec<u32> {
    let (count, length) = Ties::new(sheet, slot_of).numbers();
    let mut words = vec![8 << 28 | count << 21 | length];
    words.extend(slot_of.iter().map(|slot| 9 << 28 | *slot as u32));
    words
}
