use crate::{make, read, Layout, Refusal, MOST_SITES};
use std::fmt;

/// A work area that grows as sheets need it and is used again: the way to lay out many sheets.
///
/// ```
/// use backbone::WorkArea;
/// let mut area = WorkArea::new();
/// let layout = area.lay_out(&[0x10008008, 0x20000002, 0x300000FF, 0x40008004])?;
/// assert_eq!((layout.labels, layout.length), (1, 8));
/// # Ok::<(), backbone::NotLaidOut>(())
/// ```
#[derive(Debug, Default)]
pub struct WorkArea {
    words: Vec<u32>,
}

/// Why a sheet is not laid out.
#[derive(Clone, Copy, Debug, PartialEq, Eq)]
pub enum NotLaidOut {
    /// One of the refusals 1 to 7, 10 and 18.
    Refused(Refusal),
    /// There is no memory for so many work words.
    NoMemory { words: usize },
}

impl From<Refusal> for NotLaidOut {
    fn from(refusal: Refusal) -> NotLaidOut {
        NotLaidOut::Refused(refusal)
    }
}

impl fmt::Display for NotLaidOut {
    fn fmt(&self, out: &mut fmt::Formatter) -> fmt::Result {
        match self {
            NotLaidOut::Refused(refusal) => refusal.fmt(out),
            NotLaidOut::NoMemory { words } => {
                let megabytes = (words * WORD_BYTES).div_ceil(1_000_000);
                write!(out, "no memory for the work area: {words} words, {megabytes} megabytes, are needed")
            }
        }
    }
}

impl std::error::Error for NotLaidOut {}

const WORD_BYTES: usize = size_of::<u32>();

impl WorkArea {
    pub fn new() -> WorkArea {
        WorkArea::default()
    }

    /// The best layout of a sheet, or why there is none.
    pub fn lay_out(&mut self, sheet: &[u32]) -> Result<Layout, NotLaidOut> {
        let sizes = read(sheet)?;
        self.grow(sizes.work_words)?;
        let mut answer = [0; MOST_SITES + 1];
        make(sheet, &mut self.words, &mut answer)?;
        Ok(Layout::from_words(&answer[..sizes.answer_words()]).ok_or(Refusal::BadLayout)?)
    }

    /// What stood in the area plays no part, so only its length counts.
    fn grow(&mut self, words: usize) -> Result<(), NotLaidOut> {
        let more = words.saturating_sub(self.words.len());
        let is_held = more * WORD_BYTES < LARGE || available().is_none_or(|bytes| more * WORD_BYTES < bytes);
        if !is_held || self.words.try_reserve_exact(more).is_err() {
            return Err(NotLaidOut::NoMemory { words });
        }
        self.words.resize(self.words.len().max(words), 0);
        Ok(())
    }
}

/// An area of so many bytes is first compared with what is free: the system gives more memory than it has, and
/// ends a program that uses it.
const LARGE: usize = 1 << 28;

/// The bytes of memory that the program may take, where the system says so.
fn available() -> Option<usize> {
    let limit = std::fs::read_to_string("/sys/fs/cgroup/memory.max").ok().and_then(|text| text.trim().parse().ok());
    Some(free()?.min(limit.unwrap_or(usize::MAX)))
}

/// The bytes of memory that are free.
fn free() -> Option<usize> {
    let text = std::fs::read_to_string("/proc/meminfo").ok()?;
    let kilobytes = |name: &str| {
        let line = text.lines().find_map(|line| line.strip_prefix(name))?;
        line.trim_end_matches("kB").trim().parse::<usize>().ok()
    };
    Some((kilobytes("MemAvailable:")? + kilobytes("SwapFree:").unwrap_or(0)) * 1024)
}
