use crate::{write_page, Refusal, MOST_SITES};

/// The bytes of a page's line: 40 columns and a line feed.
pub const PAGE_LINE_BYTES: usize = 41;

/// The most bytes that a page has: a line for each used slot, of which there are no more than sites, a line for each site,
/// and the last.
pub const MOST_PAGE_BYTES: usize = PAGE_LINE_BYTES * (2 * MOST_SITES + 1);

/// The page of a stored sheet, a text for the print room; or one of the refusals 1 to 7, 11 and 13. Each line has 40 columns,
/// counted from 1, and a line feed. Numbers stand at the right of their columns, and all else is blank.
///
/// - A line for each used slot, by rising slot: slot in columns 1 to 3, colour in 5 and 6, its number of sites in 8 and 9,
///   height in 11 to 18, the label's own length ([`Label::length`](crate::Label::length)) in 20 to 27.
/// - A line for each site, in sheet order, that begins with `  drop`: site in columns 8 to 10, slot in 12 to 14, drop in 16
///   to 23. The drop is the slot's height less the site's y, with its sign right before its digits, without the charge; at
///   zero it is `0`.
/// - Last a line that begins with `total`: the count in columns 8 to 10, the length in 20 to 27.
///
/// The slots' numbers of sites add up to all sites, and their lengths to the length of the last line.
///
/// ```
/// use backbone::{page, Refusal};
/// let stored = [0x10008008, 0x20000002, 0x300000FF, 0x40008004, 0x80200008, 0x90000000];
/// let page = page(&stored)?;
/// let lines: Vec<&str> = page.lines().map(str::trim_end).collect();
/// assert_eq!(lines[0], "  0  0  1        2        8");
/// assert_eq!(lines[1], "  drop   0   0       -2");
/// assert_eq!(lines[2], "total    1                8");
/// assert!(page.lines().all(|line| line.len() == 40));
/// # Ok::<(), Refusal>(())
/// ```
pub fn page(stored: &[u32]) -> Result<String, Refusal> {
    let mut area = vec![0; MOST_PAGE_BYTES];
    let written = write_page(stored, &mut area)?;
    area.truncate(written);
    Ok(String::from_utf8(area).expect("a page has digits, letters, signs, blanks and line feeds"))
}
