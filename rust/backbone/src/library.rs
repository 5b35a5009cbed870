//! The library's operations on slices. All code of this crate that is not safe stands here.

use crate::{End, Layout, NotLaidOut, Refusal, Rule, Stroke, WorkArea, MOST_COLOURS};

/// A colour's label bound (255: unbounded) and its number of sites.
#[repr(C)]
#[derive(Clone, Copy, Debug, Default, PartialEq, Eq)]
pub struct ColourSizes {
    pub bound: u8,
    pub sites: u8,
}

#[repr(C)]
struct RawSizes {
    refusal: u8,
    n: u8,
    m: u8,
    c: u8,
    p: u8,
    work: u32,
    colours: [ColourSizes; MOST_COLOURS],
}

#[repr(C)]
struct RawVerdict {
    refusal: u8,
    rule: u8,
}

#[repr(C)]
struct RawWritten {
    refusal: u8,
    written: u32,
}

#[repr(C)]
struct RawStroke {
    refusal: u8,
    kind: u8,
    x0: f32,
    y0: f32,
    x1: f32,
    y1: f32,
}

extern "C" {
    fn backbone_read(sheet: *const u32, len: usize) -> RawSizes;
    fn backbone_judge(stored: *const u32, len: usize) -> RawVerdict;
    fn backbone_make(
        sheet: *const u32,
        len: usize,
        work: *mut u32,
        work_len: usize,
        out: *mut u32,
        out_len: usize,
    ) -> u32;
    fn backbone_twin(stored: *const u32, len: usize, out: *mut u32, out_len: usize) -> RawWritten;
    fn backbone_stroke_at(stored: *const u32, len: usize, place: usize) -> RawStroke;
    fn backbone_page(stored: *const u32, len: usize, page: *mut u8, page_len: usize) -> RawWritten;
}

/// What the reader says of a sheet that it accepts.
#[derive(Clone, Copy, Debug, PartialEq, Eq)]
pub struct Sizes {
    pub sites: usize,
    pub slots: usize,
    pub colours: usize,
    /// The product of bound plus one over the bounded colours.
    pub budgets: usize,
    /// The work words that [`make`] needs. A two-sided sheet has a number too, though it is not laid out.
    pub work_words: usize,
    /// Both numbers are 0 for a colour that the sheet doesn't have.
    pub each_colour: [ColourSizes; MOST_COLOURS],
}

impl Sizes {
    /// The answer words that [`make`] needs.
    pub fn answer_words(&self) -> usize {
        self.sites + 1
    }
}

/// No number that the library gives is out of its range.
fn refusal(number: u32) -> Result<(), Refusal> {
    match number {
        0 => Ok(()),
        _ => Err(Refusal::from_number(number).expect("the library gives refusals 1 to 11, 13, 14 and 18")),
    }
}

/// How many words or bytes were written, or the refusal.
fn written(raw: RawWritten) -> Result<usize, Refusal> {
    refusal(u32::from(raw.refusal))?;
    Ok(raw.written as usize)
}

/// Reads a sheet: its sizes, or one of the refusals 1 to 7.
///
/// ```
/// use backbone::{read, Refusal};
/// let sizes = read(&[0x10008008, 0x20000002, 0x300000FF, 0x40008004])?;
/// assert_eq!((sizes.sites, sizes.slots, sizes.colours, sizes.budgets), (1, 1, 1, 1));
/// assert_eq!(sizes.work_words, 3 * 3 * 2 * 2 * 2);
/// assert_eq!(read(&[]), Err(Refusal::NoHead));
/// # Ok::<(), Refusal>(())
/// ```
pub fn read(sheet: &[u32]) -> Result<Sizes, Refusal> {
    // SAFETY: the pointer and the length are those of a slice, which the library only reads.
    let sizes = unsafe { backbone_read(sheet.as_ptr(), sheet.len()) };
    refusal(u32::from(sizes.refusal))?;
    Ok(Sizes {
        sites: usize::from(sizes.n),
        slots: usize::from(sizes.m),
        colours: usize::from(sizes.c),
        budgets: usize::from(sizes.p),
        work_words: sizes.work as usize,
        each_colour: sizes.colours,
    })
}

/// Judges a stored sheet (a sheet followed by a layout): the least broken rule, none if the layout is lawful, or
/// one of the refusals 1 to 7 and 11.
///
/// ```
/// use backbone::{judge, Rule};
/// let mut stored = vec![0x10008008, 0x20000002, 0x300000FF, 0x40008004, 0x80200008, 0x90000000];
/// assert_eq!(judge(&stored), Ok(None));
/// stored[4] -= 1; // a length that is not the layout's
/// assert_eq!(judge(&stored), Ok(Some(Rule::TrueNumbers)));
/// ```
pub fn judge(stored: &[u32]) -> Result<Option<Rule>, Refusal> {
    // SAFETY: the pointer and the length are those of a slice, which the library only reads.
    let verdict = unsafe { backbone_judge(stored.as_ptr(), stored.len()) };
    refusal(u32::from(verdict.refusal))?;
    match verdict.rule {
        0 => Ok(None),
        rule => Ok(Some(Rule::from_number(u32::from(rule)).expect("the library gives rules 1 to 6"))),
    }
}

/// Lays out a one-sided sheet in the caller's areas, or gives one of the refusals 1 to 10 and, for a two-sided sheet, 18.
///
/// On success the layout is in the first [`Sizes::answer_words`] of `answer`. Refusals but 10 change neither
/// area; on success and on 10 the needed work words are all zero. What stood in the areas plays no part.
///
/// ```
/// use backbone::{make, read, Layout, Refusal};
/// let sheet = [0x10008008, 0x20000002, 0x300000FF, 0x40008004];
/// let mut work = vec![0; read(&sheet)?.work_words];
/// let mut answer = [0; 33];
/// make(&sheet, &mut work, &mut answer)?;
/// assert_eq!(answer[..2], [0x80200008, 0x90000000]);
/// assert_eq!(make(&sheet, &mut work[1..], &mut answer), Err(Refusal::WorkTooShort));
/// # Ok::<(), Refusal>(())
/// ```
pub fn make(sheet: &[u32], work: &mut [u32], answer: &mut [u32]) -> Result<(), Refusal> {
    // SAFETY: pointers and lengths are those of three slices that Rust keeps apart.
    let number = unsafe {
        backbone_make(sheet.as_ptr(), sheet.len(), work.as_mut_ptr(), work.len(), answer.as_mut_ptr(), answer.len())
    };
    refusal(number)
}

/// Lays out a sheet in areas of its own: the best layout, or one of the refusals 1 to 7, 10 and 18, and 8 where there
/// is no memory for the work area.
///
/// The work area of the largest sheets is 427 million words. [`WorkArea`] serves many sheets, and says what it lacks.
pub fn lay_out(sheet: &[u32]) -> Result<Layout, Refusal> {
    WorkArea::new().lay_out(sheet).map_err(|not_laid_out| match not_laid_out {
        NotLaidOut::Refused(refusal) => refusal,
        NotLaidOut::NoMemory { .. } => Refusal::WorkTooShort,
    })
}

/// Writes the one-sided twin of a stored sheet to the start of the caller's area and gives the number of words written,
/// as many as the stored sheet has; or one of the refusals 1 to 7, 11, 13 and 9, in this order.
///
/// A lawful two-sided sheet's twin differs from it in the side and in the length, which is the true one of the same ties
/// on the one-sided sheet, and is not greater; a charge word stays. The twin is lawful. A lawful one-sided sheet is its own
/// twin. A refusal leaves the area as it was, and places past the twin keep what they hold.
///
/// ```
/// use backbone::{twin, Refusal};
/// let stored = [0x18008008, 0x20000002, 0x300000FF, 0x40008004, 0x8020000A, 0x90000000];
/// let mut area = [0; 7];
/// assert_eq!(twin(&stored, &mut area), Ok(6));
/// assert_eq!(area, [0x10008008, 0x20000002, 0x300000FF, 0x40008004, 0x80200008, 0x90000000, 0]);
/// assert_eq!(twin(&stored, &mut area[..5]), Err(Refusal::AnswerTooShort));
/// ```
pub fn twin(stored: &[u32], area: &mut [u32]) -> Result<usize, Refusal> {
    // SAFETY: pointers and lengths are those of two slices that Rust keeps apart.
    written(unsafe { backbone_twin(stored.as_ptr(), stored.len(), area.as_mut_ptr(), area.len()) })
}

/// The words of a stored sheet's one-sided twin, or one of the refusals 1 to 7, 11 and 13: see [`twin`].
pub fn twin_words(stored: &[u32]) -> Result<Vec<u32>, Refusal> {
    let mut words = vec![0; stored.len()];
    let written = twin(stored, &mut words)?;
    words.truncate(written);
    Ok(words)
}

/// The stroke of a stored sheet at a place, which counts from 0; or one of the refusals 1 to 7, 11, 13 and, past the last
/// stroke, 14. [`strokes`](crate::strokes()) gives them all.
///
/// ```
/// use backbone::{stroke_at, End, Refusal, Stroke};
/// let stored = [0x10008008, 0x20000002, 0x300000FF, 0x40008004, 0x80200008, 0x90000000];
/// let drop = Stroke::Drop { from: End { x: 0.25, y: 0.5 }, to: End { x: 0.25, y: 0.25 } };
/// assert_eq!(stroke_at(&stored, 1), Ok(drop));
/// assert_eq!(stroke_at(&stored, 2), Err(Refusal::PastLastStroke));
/// ```
pub fn stroke_at(stored: &[u32], place: usize) -> Result<Stroke, Refusal> {
    // SAFETY: the pointer and the length are those of a slice, which the library only reads.
    let stroke = unsafe { backbone_stroke_at(stored.as_ptr(), stored.len(), place) };
    refusal(u32::from(stroke.refusal))?;
    let (from, to) = (End { x: stroke.x0, y: stroke.y0 }, End { x: stroke.x1, y: stroke.y1 });
    match stroke.kind {
        0 => Ok(Stroke::Bone { from, to }),
        1 => Ok(Stroke::Drop { from, to }),
        kind => unreachable!("the library gives kinds 0 and 1, not {kind}"),
    }
}

/// Writes the page of a stored sheet, a text for the print room, to the start of the caller's area and gives the number of
/// bytes written; or one of the refusals 1 to 7, 11, 13 and 9, in this order. [`MOST_PAGE_BYTES`](crate::MOST_PAGE_BYTES)
/// serve for every page; one page needs [`PAGE_LINE_BYTES`](crate::PAGE_LINE_BYTES) for each label, each site and the total.
/// A refusal leaves the area as it was, and bytes past the page keep what they hold. [`page`](crate::page()) gives the text.
///
/// ```
/// use backbone::{write_page, Refusal};
/// let stored = [0x10008008, 0x20000002, 0x300000FF, 0x40008004, 0x80200008, 0x90000000];
/// let mut area = [b'?'; 125];
/// assert_eq!(write_page(&stored, &mut area), Ok(3 * 41));
/// assert_eq!(&area[..27], b"  0  0  1        2        8");
/// assert_eq!(&area[3 * 41..], b"??");
/// assert_eq!(write_page(&stored, &mut area[..122]), Err(Refusal::AnswerTooShort));
/// ```
pub fn write_page(stored: &[u32], area: &mut [u8]) -> Result<usize, Refusal> {
    // SAFETY: pointers and lengths are those of two slices that Rust keeps apart.
    written(unsafe { backbone_page(stored.as_ptr(), stored.len(), area.as_mut_ptr(), area.len()) })
}
