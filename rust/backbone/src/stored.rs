use crate::{judge, page, strokes, twin_words, Layout, Refusal, Rule, Sheet, Stroke, Word};

/// A sheet with a layout of it, whoever made it.
#[derive(Clone, Debug, PartialEq, Eq)]
pub struct Stored {
    pub sheet: Sheet,
    pub layout: Layout,
}

impl Stored {
    /// The stored sheet in these words, lawful or not, or one of the refusals 1 to 7 and 11.
    pub fn from_words(words: &[u32]) -> Result<Stored, Refusal> {
        judge(words)?;
        let (sheet, layout) = split_stored(words);
        let layout = Layout::from_words(layout).ok_or(Refusal::BadLayout)?;
        Ok(Stored { sheet: Sheet::from_words(sheet)?, layout })
    }

    /// The words of the sheet, and those of the layout.
    pub fn words(&self) -> Vec<u32> {
        [self.sheet.words(), self.layout.words()].concat()
    }

    /// The least broken rule, none if the layout is lawful, or one of the refusals 3 to 7 and 11.
    pub fn judge(&self) -> Result<Option<Rule>, Refusal> {
        judge(&self.words())
    }

    /// The one-sided twin, or one of the refusals 3 to 7, 11 and 13: see [`twin`](crate::twin()).
    ///
    /// ```
    /// use backbone::{Side, Stored};
    /// let words = [0x18008008, 0x20000002, 0x300000FF, 0x40008004, 0x8020000A, 0x90000000];
    /// let twin = Stored::from_words(&words)?.twin()?;
    /// assert_eq!((twin.sheet.side, twin.layout.labels, twin.layout.length), (Side::One, 1, 8));
    /// assert_eq!(twin.twin(), Ok(twin));
    /// # Ok::<(), backbone::Refusal>(())
    /// ```
    pub fn twin(&self) -> Result<Stored, Refusal> {
        Stored::from_words(&twin_words(&self.words())?)
    }

    /// What a viewer draws, or one of the refusals 3 to 7, 11 and 13: see [`strokes`](crate::strokes()).
    pub fn strokes(&self) -> Result<Vec<Stroke>, Refusal> {
        Ok(strokes(&self.words())?.collect())
    }

    /// The page for the print room, or one of the refusals 3 to 7, 11 and 13: see [`page`](crate::page()).
    pub fn page(&self) -> Result<String, Refusal> {
        page(&self.words())
    }
}

/// Parts a stored sheet at the first word of a layout: the words of the sheet, and those of the layout, which
/// are none if there is no such word.
///
/// ```
/// let (sheet, layout) = backbone::split_stored(&[0x10008008, 0x80000000]);
/// assert_eq!((sheet, layout), (&[0x10008008][..], &[0x80000000][..]));
/// ```
pub fn split_stored(stored: &[u32]) -> (&[u32], &[u32]) {
    let is_layout = |word: &u32| matches!(Word::decode(*word), Some(Word::Layout { .. }));
    stored.split_at(stored.iter().position(is_layout).unwrap_or(stored.len()))
}
