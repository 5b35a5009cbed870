use crate::numbered::numbered;

numbered! {
    /// A rule of lawful layouts that a layout breaks. The judge gives the lowest.
    ///
    /// ```
    /// use backbone::Rule;
    /// assert_eq!(Rule::NoCrossing.number(), 4);
    /// assert_eq!(Rule::NoCrossing.to_string(), "no vertical shares a point with the backbone of another label");
    /// ```
    Rule, 6:
    SharedSlotSharedColour = 1, "sites that share a slot share a colour";
    LabelBound = 2, "no colour uses more slots than its bound";
    BackbonesApart = 3, "any two used slots are at least the gap apart";
    NoCrossing = 4, "no vertical shares a point with the backbone of another label";
    SitesClear = 5, "a backbone lies at least the gap from every site of another label at or right of its left end, or left of it by less than the gap";
    TrueNumbers = 6, "the stated count and length are the layout's own";
}
