use crate::{lay_out, read, Aim, FormError, Layout, Refusal, Side, Word};
use crate::{MOST_COLOURS, MOST_SITES, MOST_SLOTS};

/// The bound that stands for "unbounded" in a word.
const UNBOUNDED: u8 = 255;

/// A site of a sheet.
#[derive(Clone, Copy, Debug, PartialEq, Eq)]
pub struct Site {
    pub x: u32,
    pub y: u32,
    pub colour: usize,
}

/// A sheet to be filled with slots, colours and sites. It refuses what the form can't hold; what else is amiss
/// (slots that don't rise, two sites with one x, ..) the reader says.
#[derive(Clone, Debug, PartialEq, Eq)]
pub struct Sheet {
    pub side: Side,
    pub aim: Aim,
    gap: u32,
    width: u32,
    charge: Option<u32>,
    slots: Vec<u32>,
    bounds: Vec<Option<u8>>,
    /// By colour; in each colour as they were added.
    sites: Vec<Site>,
}

fn refuse_more(name: &'static str, count: usize, most: usize) -> Result<(), FormError> {
    if count < most {
        Ok(())
    } else {
        Err(FormError::TooMany { name, most })
    }
}

impl Sheet {
    /// A sheet without a charge word, slots and colours: gap from 1 to 4,095, width from 1 to 16,383.
    pub fn new(side: Side, aim: Aim, gap: u32, width: u32) -> Result<Sheet, FormError> {
        Word::Head { side, aim, gap, width }.checked_encode()?;
        Ok(Sheet::of_head(side, aim, gap, width))
    }

    fn of_head(side: Side, aim: Aim, gap: u32, width: u32) -> Sheet {
        Sheet { side, aim, gap, width, charge: None, slots: Vec::new(), bounds: Vec::new(), sites: Vec::new() }
    }

    /// Sets the charge, from 0 to 16,383, which each site off its backbone adds to the length; a charge of 0 has its word too.
    /// None takes the word away.
    ///
    /// ```
    /// use backbone::{Aim, Sheet, Side};
    /// let mut sheet = Sheet::new(Side::One, Aim::Shortest, 2, 8)?;
    /// sheet.set_charge(Some(3))?;
    /// assert_eq!(sheet.words(), [0x14008008, 0x50000003]);
    /// sheet.set_charge(Some(0))?;
    /// assert_eq!(sheet.words(), [0x14008008, 0x50000000]);
    /// sheet.set_charge(None)?;
    /// assert_eq!(sheet.words(), [0x14008008]);
    /// assert!(sheet.set_charge(Some(16384)).is_err());
    /// # Ok::<(), backbone::FormError>(())
    /// ```
    pub fn set_charge(&mut self, charge: Option<u32>) -> Result<(), FormError> {
        if let Some(charge) = charge {
            Word::Charge { charge }.checked_encode()?;
        }
        self.charge = charge;
        Ok(())
    }

    /// Adds a slot, a height from 0 to 16,383 at which a backbone may lie. Slots are added from the top downwards.
    ///
    /// ```
    /// use backbone::{Aim, Sheet, Side};
    /// let mut sheet = Sheet::new(Side::One, Aim::Shortest, 1, 100)?;
    /// sheet.add_slot(16383)?;
    /// assert!(sheet.add_slot(16384).is_err());
    /// # Ok::<(), backbone::FormError>(())
    /// ```
    pub fn add_slot(&mut self, height: u32) -> Result<(), FormError> {
        Word::Slot { height }.checked_encode()?;
        refuse_more("slots", self.slots.len(), MOST_SLOTS)?;
        self.slots.push(height);
        Ok(())
    }

    /// Adds a colour with the most labels that it may have (0 to 254), or none for any number; gives its number.
    pub fn add_colour(&mut self, bound: Option<u8>) -> Result<usize, FormError> {
        if bound == Some(UNBOUNDED) {
            return Err(FormError::OutOfRange { name: "bound", number: 255, least: 0, most: 254 });
        }
        refuse_more("colours", self.bounds.len(), MOST_COLOURS)?;
        self.bounds.push(bound);
        Ok(self.bounds.len() - 1)
    }

    /// Adds a site of a colour. The sites of lower colours come before it in sheet order, whenever they are added.
    pub fn add_site(&mut self, colour: usize, x: u32, y: u32) -> Result<(), FormError> {
        Word::Site { x, y }.checked_encode()?;
        if colour >= self.bounds.len() {
            return Err(FormError::NoSuchColour(colour));
        }
        refuse_more("sites", self.sites.len(), MOST_SITES)?;
        let place = self.sites.partition_point(|site| site.colour <= colour);
        self.sites.insert(place, Site { x, y, colour });
        Ok(())
    }

    pub fn gap(&self) -> u32 {
        self.gap
    }

    pub fn width(&self) -> u32 {
        self.width
    }

    /// The charge in the sheet's charge word; none where it has no such word, and the charge is 0.
    pub fn charge(&self) -> Option<u32> {
        self.charge
    }

    /// The share of the length of a site that lies so far from its backbone: its drop without the sign, and the charge if
    /// that is not 0.
    pub fn share(&self, drop: u32) -> u32 {
        match drop {
            0 => 0,
            _ => drop.saturating_add(self.charge.unwrap_or(0)),
        }
    }

    /// The heights of the slots.
    pub fn slots(&self) -> &[u32] {
        &self.slots
    }

    /// The colours' label bounds.
    pub fn bounds(&self) -> &[Option<u8>] {
        &self.bounds
    }

    /// The sites in sheet order, the order of a layout's ties.
    pub fn sites(&self) -> &[Site] {
        &self.sites
    }

    /// The words of the sheet.
    ///
    /// ```
    /// use backbone::{Aim, Sheet, Side};
    /// let mut sheet = Sheet::new(Side::One, Aim::Fewest, 2, 8)?;
    /// sheet.add_slot(2)?;
    /// let colour = sheet.add_colour(Some(1))?;
    /// sheet.add_site(colour, 2, 4)?;
    /// assert_eq!(sheet.words(), [0x10008008, 0x20000002, 0x30000001, 0x40008004]);
    /// # Ok::<(), backbone::FormError>(())
    /// ```
    pub fn words(&self) -> Vec<u32> {
        let Sheet { side, aim, gap, width, .. } = *self;
        let mut words = vec![Word::Head { side, aim, gap, width }.encode()];
        words.extend(self.charge.map(|charge| Word::Charge { charge }.encode()));
        words.extend(self.slots.iter().map(|height| Word::Slot { height: *height }.encode()));
        for (colour, bound) in self.bounds.iter().enumerate() {
            words.push(Word::Colour { bound: bound.unwrap_or(UNBOUNDED) }.encode());
            let own = self.sites.iter().filter(|site| site.colour == colour);
            words.extend(own.map(|site| Word::Site { x: site.x, y: site.y }.encode()));
        }
        words
    }

    /// The sheet in these words, if the reader accepts them.
    ///
    /// ```
    /// use backbone::{Refusal, Sheet};
    /// let words = [0x10008008, 0x20000002, 0x30000001, 0x40008004];
    /// assert_eq!(Sheet::from_words(&words)?.words(), words);
    /// assert_eq!(Sheet::from_words(&words[1..]), Err(Refusal::NoHead));
    /// # Ok::<(), Refusal>(())
    /// ```
    pub fn from_words(words: &[u32]) -> Result<Sheet, Refusal> {
        read(words)?;
        let Some(Word::Head { side, aim, gap, width }) = words.first().and_then(|head| Word::decode(*head)) else {
            return Err(Refusal::NoHead);
        };
        let mut sheet = Sheet::of_head(side, aim, gap, width);
        for word in &words[1..] {
            match Word::decode(*word) {
                Some(Word::Charge { charge }) => sheet.charge = Some(charge),
                Some(Word::Slot { height }) => sheet.slots.push(height),
                Some(Word::Colour { bound }) => sheet.bounds.push((bound != UNBOUNDED).then_some(bound)),
                Some(Word::Site { x, y }) => {
                    sheet.sites.push(Site { x, y, colour: sheet.bounds.len() - 1 });
                }
                _ => return Err(Refusal::BadWord),
            }
        }
        Ok(sheet)
    }

    /// The best layout, or one of the refusals 3 to 7, 10 and 18.
    pub fn lay_out(&self) -> Result<Layout, Refusal> {
        lay_out(&self.words())
    }
}
