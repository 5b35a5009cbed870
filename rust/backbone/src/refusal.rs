use crate::numbered::numbered;

numbered! {
    /// Why a list of words, an area or an input is refused. An operation gives the first that applies, by rising number,
    /// but 18 is looked for right after 7, and twin and page look for 9 last.
    ///
    /// ```
    /// use backbone::Refusal;
    /// assert_eq!(Refusal::from_number(10), Some(Refusal::NoLayout));
    /// assert_eq!(Refusal::NoLayout.to_string(), "no layout obeys rules 1 to 5");
    /// ```
    Refusal, 15:
    NoHead = 1, "the list is empty, or its first word is no head, or its width or gap is 0";
    BadWord = 2, "a word of another kind, out of its order, or with a spare bit set";
    TooMany = 3, "more than 48 slots, 8 colours or 32 sites";
    SlotsNotRising = 4, "slot heights are not strictly rising";
    SiteBeyondWidth = 5, "a site's x is above the width";
    EqualX = 6, "two sites have equal x";
    TooManyBudgets = 7, "the product of bound plus one over the bounded colours is above 64";
    WorkTooShort = 8, "the work area is shorter than needed";
    AnswerTooShort = 9, "the area for the answer is shorter than needed";
    NoLayout = 10, "no layout obeys rules 1 to 5";
    BadLayout = 11, "there is no layout, or it is not one tie to a slot for each site";
    BadInput = 12, "more than 1,024 bytes, or not whole words";
    Unlawful = 13, "the layout breaks a rule";
    PastLastStroke = 14, "the place is past the last stroke";
    TwoSided = 18, "the sheet is two-sided, and such sheets are no longer laid out";
}

impl std::error::Error for Refusal {}
