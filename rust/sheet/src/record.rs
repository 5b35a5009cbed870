use crate::Names;
use backbone::Word;

/// What a file holds: the words of a sheet or of a stored sheet, the names beside them, and whether its writer
/// says that the sheet has no layout.
#[derive(Clone, Debug, Default, PartialEq, Eq)]
pub struct Record {
    pub words: Vec<u32>,
    pub names: Names,
    pub claims_no_layout: bool,
}

impl Record {
    /// Words without names.
    pub fn of_words(words: Vec<u32>) -> Record {
        let mut record = Record::default();
        for word in words {
            record.push(word, None);
        }
        record
    }

    /// Adds a word, with its name if it is a colour or a site.
    pub(crate) fn push(&mut self, word: u32, name: Option<String>) {
        self.words.push(word);
        match Word::decode(word) {
            Some(Word::Colour { .. }) => self.names.colours.push(name),
            Some(Word::Site { .. }) => self.names.sites.push(name),
            _ => {}
        }
    }
}

/// Whether a list of words has a layout's first word.
pub fn has_layout(words: &[u32]) -> bool {
    !backbone::split_stored(words).1.is_empty()
}
