/// The names of a sheet's colours and sites, by number. They stand in the text form alone, not in the words.
#[derive(Clone, Debug, Default, PartialEq, Eq)]
pub struct Names {
    pub colours: Vec<Option<String>>,
    pub sites: Vec<Option<String>>,
}

impl Names {
    /// The name of a colour, if it has one.
    pub fn colour(&self, number: usize) -> Option<&str> {
        self.colours.get(number).and_then(Option::as_deref)
    }

    /// The name of a site, if it has one.
    pub fn site(&self, number: usize) -> Option<&str> {
        self.sites.get(number).and_then(Option::as_deref)
    }
}
