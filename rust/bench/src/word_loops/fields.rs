//! Kinds and fields of a word.

pub const HEAD: u32 = 1;
pub const SLOT: u32 = 2;
pub const COLOUR: u32 = 3;
pub const SITE: u32 = 4;
pub const CHARGE: u32 = 5;
pub const LAYOUT: u32 = 8;
pub const TIE: u32 = 9;

pub fn kind(word: u32) -> u32 {
    word >> 28
}

/// A height, a site's y, the width, a charge.
pub fn low(word: u32) -> u32 {
    word & 0x3FFF
}

/// A site's x; spare bits of a slot and of a charge.
pub fn high(word: u32) -> u32 {
    word >> 14 & 0x3FFF
}

pub fn gap(word: u32) -> u32 {
    word >> 14 & 0xFFF
}

/// A colour's bound, a tie's slot.
pub fn byte(word: u32) -> u32 {
    word & 0xFF
}

pub fn is_two_sided(word: u32) -> bool {
    word >> 27 & 1 == 1
}
