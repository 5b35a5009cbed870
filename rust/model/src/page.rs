//! The page of a stored sheet, which the print room pins up: a line a used slot, a line a site, and the total.

use crate::areas::write;
use crate::rules::{lawful, Ties};
use crate::sheet::Sheet;

/// Columns of a line; a line feed follows.
const COLUMNS: usize = 40;

/// Writes the page: the refusal, 0 if there is none, and how many bytes were written from the start of the area, 0 beside a
/// refusal.
///
/// Refusals 1 to 7 and 11 are the judge's; 13 is a layout that breaks a rule, 9 an area with fewer bytes than the page.
pub fn page(stored: &[u32], area: &mut [u8]) -> (u8, usize) {
    write(text(stored).map(String::into_bytes), area)
}

/// The page's text, or one of the refusals 1 to 7, 11 and 13.
pub fn text(stored: &[u32]) -> Result<String, u8> {
    let (sheet, slot_of) = lawful(stored)?;
    let ties = Ties::new(&sheet, &slot_of);
    let slots = ties.used().map(|(slot, left)| slot_line(&sheet, &slot_of, slot, left));
    let sites = slot_of.iter().enumerate().map(|(site, slot)| site_line(&sheet, site, *slot));
    let (count, length) = ties.numbers();
    let total = format!("total  {count:>3} {length:>16}");
    Ok(slots.chain(sites).chain([total]).map(|line| format!("{line:<COLUMNS$}\n")).collect())
}

/// Slot in columns 1 to 3, colour in 5 and 6, its number of sites in 8 and 9, height in 11 to 18, length in 20 to 27.
fn slot_line(sheet: &Sheet, slot_of: &[usize], slot: usize, left: u32) -> String {
    let height = sheet.slots[slot];
    let (mut colour, mut sites, mut length) = (0, 0, sheet.width - left);
    for (site, _) in sheet.sites.iter().zip(slot_of).filter(|(_, own)| **own == slot) {
        colour = site.colour;
        sites += 1;
        length += sheet.share(site.y.abs_diff(height));
    }
    format!("{slot:>3} {colour:>2} {sites:>2} {height:>8} {length:>8}")
}

/// Site in columns 8 to 10, slot in 12 to 14, drop in 16 to 23: a plus where the slot lies below the site, a minus where it
/// lies above.
fn site_line(sheet: &Sheet, site: usize, slot: usize) -> String {
    let drop = match i64::from(sheet.slots[slot]) - i64::from(sheet.sites[site].y) {
        0 => "0".to_string(),
        drop => format!("{drop:+}"),
    };
    format!("  drop {site:>3} {slot:>3} {drop:>8}")
}
