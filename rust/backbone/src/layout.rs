use crate::Word;
use std::fmt;

/// A layout: the count and the length that it states, and each site's slot in sheet order.
#[derive(Clone, Debug, PartialEq, Eq)]
pub struct Layout {
    pub labels: u32,
    pub length: u32,
    pub slots: Vec<u8>,
}

impl Layout {
    /// Takes the words of a layout apart; none if they are not in a layout's form.
    ///
    /// ```
    /// use backbone::Layout;
    /// let layout = Layout::from_words(&[0x80400013, 0x90000000, 0x90000002]).unwrap();
    /// assert_eq!(layout, Layout { labels: 2, length: 19, slots: vec![0, 2] });
    /// assert_eq!(Layout::from_words(&[0x90000000]), None);
    /// ```
    pub fn from_words(words: &[u32]) -> Option<Layout> {
        let (first, ties) = words.split_first()?;
        let Word::Layout { labels, length } = Word::decode(*first)? else {
            return None;
        };
        let slot = |word: &u32| match Word::decode(*word) {
            Some(Word::Tie { slot }) => Some(slot),
            _ => None,
        };
        let slots = ties.iter().map(slot).collect::<Option<Vec<u8>>>()?;
        Some(Layout { labels, length, slots })
    }

    /// The words of the layout.
    pub fn words(&self) -> Vec<u32> {
        let first = Word::Layout { labels: self.labels, length: self.length };
        let ties = self.slots.iter().map(|slot| Word::Tie { slot: *slot });
        std::iter::once(first).chain(ties).map(Word::encode).collect()
    }
}

/// The first line of the program's answer.
impl fmt::Display for Layout {
    fn fmt(&self, out: &mut fmt::Formatter) -> fmt::Result {
        write!(out, "labels {} length {}", self.labels, self.length)
    }
}
