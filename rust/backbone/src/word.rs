use std::fmt;

/// How far backbones reach: from their leftmost site, or from edge to edge. Sheets of the second kind are read and
/// judged, but no longer laid out.
#[derive(Clone, Copy, Debug, PartialEq, Eq)]
pub enum Side {
    One,
    Two,
}

/// Which layout is best: the one with the fewest labels, or the shortest one.
#[derive(Clone, Copy, Debug, PartialEq, Eq)]
pub enum Aim {
    Fewest,
    Shortest,
}

/// One word of a sheet or of a layout, by its fields. A charge, which each site off its backbone adds to the length, stands
/// right after the head or nowhere.
#[derive(Clone, Copy, Debug, PartialEq, Eq)]
pub enum Word {
    Head { side: Side, aim: Aim, gap: u32, width: u32 },
    Charge { charge: u32 },
    Slot { height: u32 },
    Colour { bound: u8 },
    Site { x: u32, y: u32 },
    Layout { labels: u32, length: u32 },
    Tie { slot: u8 },
}

const COORDINATE_BITS: u32 = 14;
const LENGTH_BITS: u32 = 21;

/// What the form of a sheet can't hold.
#[derive(Clone, Copy, Debug, PartialEq, Eq)]
pub enum FormError {
    OutOfRange { name: &'static str, number: u32, least: u32, most: u32 },
    TooMany { name: &'static str, most: usize },
    NoSuchColour(usize),
}

impl fmt::Display for FormError {
    fn fmt(&self, out: &mut fmt::Formatter) -> fmt::Result {
        match self {
            FormError::OutOfRange { name, number, least, most } => {
                write!(out, "{name} must be from {least} to {most}, not {number}")
            }
            FormError::TooMany { name, most } => write!(out, "a sheet has at most {most} {name}"),
            FormError::NoSuchColour(colour) => write!(out, "the sheet has no colour {colour}"),
        }
    }
}

impl std::error::Error for FormError {}

/// The names and ranges of the numbers in words.
pub(crate) mod range {
    use super::FormError;

    pub type Range = (&'static str, u32, u32);
    pub const GAP: Range = ("gap", 1, 4095);
    pub const WIDTH: Range = ("width", 1, 16383);
    pub const CHARGE: Range = ("charge", 0, crate::MOST_CHARGE);
    pub const HEIGHT: Range = ("height", 0, 16383);
    pub const X: Range = ("x", 0, 16383);
    pub const Y: Range = ("y", 0, 16383);
    pub const LABELS: Range = ("labels", 0, 127);
    pub const LENGTH: Range = ("length", 0, 2_097_151);

    pub fn check((name, least, most): Range, number: u32) -> Result<u32, FormError> {
        if (least..=most).contains(&number) {
            Ok(number)
        } else {
            Err(FormError::OutOfRange { name, number, least, most })
        }
    }
}

impl Word {
    /// The fields of a word; none if it is of no kind, has a spare bit set, or is a head with a gap or width of 0.
    ///
    /// ```
    /// use backbone::Word;
    /// assert_eq!(Word::decode(0x20000005), Some(Word::Slot { height: 5 }));
    /// assert_eq!(Word::decode(0x20010005), None);
    /// ```
    pub fn decode(word: u32) -> Option<Word> {
        let low = word & 0x0FFF_FFFF;
        let (left, right) = (low >> COORDINATE_BITS, low & 0x3FFF);
        let decoded = match word >> 28 {
            1 => Word::Head {
                side: if low >> 27 == 1 { Side::Two } else { Side::One },
                aim: if low >> 26 & 1 == 1 { Aim::Shortest } else { Aim::Fewest },
                gap: left & 0xFFF,
                width: right,
            },
            2 => Word::Slot { height: right },
            3 => Word::Colour { bound: low as u8 },
            4 => Word::Site { x: left, y: right },
            5 => Word::Charge { charge: right },
            8 => Word::Layout { labels: low >> LENGTH_BITS, length: low & 0x1F_FFFF },
            9 => Word::Tie { slot: low as u8 },
            _ => return None,
        };
        (decoded.checked_encode() == Ok(word)).then_some(decoded)
    }

    /// The word with these fields. Bits of a number that its field can't hold are cut off.
    pub fn encode(self) -> u32 {
        match self {
            Word::Head { side, aim, gap, width } => {
                let flags = u32::from(side == Side::Two) << 27 | u32::from(aim == Aim::Shortest) << 26;
                1 << 28 | flags | (gap & 0xFFF) << COORDINATE_BITS | width & 0x3FFF
            }
            Word::Charge { charge } => 5 << 28 | charge & 0x3FFF,
            Word::Slot { height } => 2 << 28 | height & 0x3FFF,
            Word::Colour { bound } => 3 << 28 | u32::from(bound),
            Word::Site { x, y } => 4 << 28 | (x & 0x3FFF) << COORDINATE_BITS | y & 0x3FFF,
            Word::Layout { labels, length } => 8 << 28 | (labels & 0x7F) << LENGTH_BITS | length & 0x1F_FFFF,
            Word::Tie { slot } => 9 << 28 | u32::from(slot),
        }
    }

    /// The word with these fields, or the first number that its field can't hold.
    ///
    /// ```
    /// use backbone::Word;
    /// assert_eq!(Word::Site { x: 6, y: 4 }.checked_encode(), Ok(0x40018004));
    /// let error = Word::Slot { height: 20000 }.checked_encode().unwrap_err();
    /// assert_eq!(error.to_string(), "height must be from 0 to 16383, not 20000");
    /// ```
    pub fn checked_encode(self) -> Result<u32, FormError> {
        match self {
            Word::Head { gap, width, .. } => {
                range::check(range::GAP, gap)?;
                range::check(range::WIDTH, width)?;
            }
            Word::Charge { charge } => {
                range::check(range::CHARGE, charge)?;
            }
            Word::Slot { height } => {
                range::check(range::HEIGHT, height)?;
            }
            Word::Site { x, y } => {
                range::check(range::X, x)?;
                range::check(range::Y, y)?;
            }
            Word::Layout { labels, length } => {
                range::check(range::LABELS, labels)?;
                range::check(range::LENGTH, length)?;
            }
            Word::Colour { .. } | Word::Tie { .. } => {}
        }
        Ok(self.encode())
    }
}
