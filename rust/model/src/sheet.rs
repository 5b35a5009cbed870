//! A sheet, its words, and the refusals of the reader.

pub const MOST_SLOTS: usize = 48;
pub const MOST_COLOURS: usize = 8;
pub const MOST_SITES: usize = 32;
pub const MOST_BUDGETS: u64 = 64;
/// The greatest charge that a word can hold.
pub const MOST_CHARGE: u32 = (1 << 14) - 1;
/// The bound that stands for "unbounded".
pub const UNBOUNDED: u32 = 255;

#[derive(Clone, Copy, Debug, PartialEq, Eq)]
pub struct Site {
    pub x: u32,
    pub y: u32,
    pub colour: usize,
}

/// A sheet apart from its words. The sites are in sheet order: those of colour 0 first.
#[derive(Clone, Debug, PartialEq, Eq)]
pub struct Sheet {
    pub two_sided: bool,
    pub shortest: bool,
    pub gap: u32,
    pub width: u32,
    /// None where there is no charge word: the charge is then 0. A charge word of 0 is a word of the sheet.
    pub charge: Option<u32>,
    pub slots: Vec<u32>,
    pub bounds: Vec<u32>,
    pub sites: Vec<Site>,
}

/// What the reader gives; beside a refusal all else is 0.
#[derive(Clone, Copy, Debug, Default, PartialEq, Eq)]
pub struct Sizes {
    pub refusal: u8,
    pub sites: u8,
    pub slots: u8,
    pub colours: u8,
    pub budgets: u8,
    pub work: u32,
    /// The bound and the number of sites of each colour.
    pub each_colour: [(u8, u8); MOST_COLOURS],
}

impl Sheet {
    /// The words of the sheet: the head, the charge if it has a word, the slots, each colour with its sites.
    pub fn words(&self) -> Vec<u32> {
        let side = u32::from(self.two_sided) << 27;
        let aim = u32::from(self.shortest) << 26;
        let mut words = vec![1 << 28 | side | aim | self.gap << 14 | self.width];
        words.extend(self.charge.map(|charge| 5 << 28 | charge));
        words.extend(self.slots.iter().map(|height| 2 << 28 | height));
        for (colour, bound) in self.bounds.iter().enumerate() {
            words.push(3 << 28 | bound);
            let own = self.sites.iter().filter(|site| site.colour == colour);
            words.extend(own.map(|site| 4 << 28 | site.x << 14 | site.y));
        }
        words
    }

    /// The share of the length of a site that lies so far from its backbone: its drop without the sign, and the charge if
    /// that is not 0.
    #[inline]
    pub fn share(&self, drop: u32) -> u32 {
        match drop {
            0 => 0,
            _ => drop + self.charge.unwrap_or(0),
        }
    }

    /// The product of bound plus one over the bounded colours. It fits: 255 to the 8 is below 2 to the 64.
    pub fn budgets(&self) -> u64 {
        let bounded = self.bounds.iter().filter(|bound| **bound != UNBOUNDED);
        bounded.map(|bound| u64::from(*bound) + 1).product()
    }

    /// The work words that the maker needs; of a two-sided sheet, which it refuses, what the reader gives.
    pub fn work_words(&self) -> u64 {
        let (places, colours) = (self.slots.len() as u64 + 2, self.bounds.len() as u64 + 1);
        let row = places * colours * self.budgets();
        if self.two_sided {
            row
        } else {
            row * places * colours * (self.sites.len() as u64 + 1)
        }
    }

    /// The same sheet with the one-sided head.
    pub fn one_sided(&self) -> Sheet {
        Sheet { two_sided: false, ..self.clone() }
    }

    /// The numbers of the sites by rising x.
    pub fn by_x(&self) -> Vec<usize> {
        let mut order: Vec<usize> = (0..self.sites.len()).collect();
        order.sort_unstable_by_key(|site| self.sites[*site].x);
        order
    }
}

/// The sheet in these words, or the number of the first refusal.
pub fn read(words: &[u32]) -> Result<Sheet, u8> {
    let mut sheet = parse_head(words)?;
    parse_rest(&words[1..], &mut sheet)?;
    refuse_numbers(&sheet)?;
    Ok(sheet)
}

/// Refusal 1.
fn parse_head(words: &[u32]) -> Result<Sheet, u8> {
    let head = *words.first().ok_or(1)?;
    let sheet = Sheet {
        two_sided: head >> 27 & 1 == 1,
        shortest: head >> 26 & 1 == 1,
        gap: head >> 14 & 0xFFF,
        width: head & 0x3FFF,
        charge: None,
        slots: Vec::with_capacity(MOST_SLOTS),
        bounds: Vec::with_capacity(MOST_COLOURS),
        sites: Vec::with_capacity(MOST_SITES),
    };
    if head >> 28 != 1 || sheet.gap == 0 || sheet.width == 0 {
        return Err(1);
    }
    Ok(sheet)
}

/// Refusal 2: every word after the head has a kind that may stand where it stands, and no spare bit. A charge stands right
/// after the head.
fn parse_rest(words: &[u32], sheet: &mut Sheet) -> Result<(), u8> {
    for (place, word) in words.iter().enumerate() {
        let low = word & 0x0FFF_FFFF;
        match word >> 28 {
            5 if place == 0 && low <= MOST_CHARGE => sheet.charge = Some(low),
            2 if sheet.bounds.is_empty() && low < 1 << 14 => sheet.slots.push(low),
            3 if low < 1 << 8 => sheet.bounds.push(low),
            4 if !sheet.bounds.is_empty() => {
                sheet.sites.push(Site { x: low >> 14, y: low & 0x3FFF, colour: sheet.bounds.len() - 1 })
            }
            _ => return Err(2),
        }
    }
    Ok(())
}

/// Refusals 3 to 7, in their order.
fn refuse_numbers(sheet: &Sheet) -> Result<(), u8> {
    if sheet.slots.len() > MOST_SLOTS || sheet.bounds.len() > MOST_COLOURS || sheet.sites.len() > MOST_SITES {
        return Err(3);
    }
    if sheet.slots.windows(2).any(|pair| pair[0] >= pair[1]) {
        return Err(4);
    }
    if sheet.sites.iter().any(|site| site.x > sheet.width) {
        return Err(5);
    }
    let twice = |i: usize| sheet.sites[..i].iter().any(|site| site.x == sheet.sites[i].x);
    if (1..sheet.sites.len()).any(twice) {
        return Err(6);
    }
    if sheet.budgets() > MOST_BUDGETS {
        return Err(7);
    }
    Ok(())
}

/// What the reader gives for these words.
pub fn sizes(words: &[u32]) -> Sizes {
    let sheet = match read(words) {
        Ok(sheet) => sheet,
        Err(refusal) => return Sizes { refusal, ..Sizes::default() },
    };
    let mut each_colour = [(0, 0); MOST_COLOURS];
    for (colour, bound) in sheet.bounds.iter().enumerate() {
        let own = sheet.sites.iter().filter(|site| site.colour == colour).count();
        each_colour[colour] = (*bound as u8, own as u8);
    }
    Sizes {
        refusal: 0,
        sites: sheet.sites.len() as u8,
        slots: sheet.slots.len() as u8,
        colours: sheet.bounds.len() as u8,
        budgets: sheet.budgets() as u8,
        work: sheet.work_words() as u32,
        each_colour,
    }
}
