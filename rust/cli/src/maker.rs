//! The proved maker, asked about sheets that are made here.

use crate::exit::Failure;
use backbone::{Layout, NotLaidOut, Refusal, WorkArea};
use model::maker::keep_binding_bounds;
use model::sheet::{Sheet, MOST_BUDGETS};

/// The maker with its work area. It is asked about the sheet without what can't make a difference, since the work area
/// grows with it.
#[derive(Default)]
pub struct Maker {
    area: WorkArea,
}

impl Maker {
    /// The best layout of a sheet, or its refusal.
    pub fn lay_out(&mut self, sheet: &Sheet) -> Result<Result<Layout, Refusal>, Failure> {
        match self.area.lay_out(&reduced(sheet).words()) {
            Ok(layout) => Ok(Ok(layout)),
            Err(NotLaidOut::Refused(refusal)) => Ok(Err(refusal)),
            Err(problem) => Err(Failure::Unable(problem.to_string())),
        }
    }

    /// Whether a sheet has a layout. A sheet that the reader refuses has none.
    pub fn has_layout(&mut self, sheet: &Sheet) -> Result<bool, Failure> {
        Ok(self.lay_out(sheet)?.is_ok())
    }
}

/// The sheet without bounds that can't bind and without colours that have no sites: it has the same layouts. A sheet
/// that the reader refuses for its bounds stays as it is.
fn reduced(sheet: &Sheet) -> Sheet {
    let mut reduced = sheet.clone();
    if sheet.budgets() > MOST_BUDGETS {
        return reduced;
    }
    keep_binding_bounds(&mut reduced);
    for colour in (0..reduced.bounds.len()).rev() {
        if reduced.sites.iter().all(|site| site.colour != colour) {
            reduced.bounds.remove(colour);
            reduced.sites.iter_mut().filter(|site| site.colour > colour).for_each(|site| site.colour -= 1);
        }
    }
    reduced
}

#[cfg(test)]
mod tests {
    use super::*;
    use model::random::{medium_sheet, small_sheet, Random};

    #[test]
    fn what_is_left_out_makes_no_difference() {
        let mut random = Random::new(1705);
        let (mut maker, mut reduced_sheets) = (Maker::default(), 0);
        for index in 0..4_000 {
            let sheet = if index % 4 == 0 { medium_sheet(&mut random) } else { small_sheet(&mut random) };
            assert_eq!(maker.lay_out(&sheet), Ok(backbone::lay_out(&sheet.words())), "{sheet:?}");
            let sheet = sheet.one_sided();
            assert_eq!(maker.lay_out(&sheet), Ok(backbone::lay_out(&sheet.words())), "{sheet:?}");
            reduced_sheets += u32::from(reduced(&sheet) != sheet);
        }
        assert!(reduced_sheets > 1_000, "{reduced_sheets}");
    }

    #[test]
    fn too_high_bounds_are_still_refused() {
        let words = [0x1000_8008, 0x3000_0007, 0x3000_0008];
        let sheet = Sheet { bounds: vec![7, 8], ..model::sheet::read(&words[..1]).expect("a head") };
        assert_eq!(backbone::lay_out(&words), Err(Refusal::TooManyBudgets));
        assert_eq!(Maker::default().lay_out(&sheet), Ok(Err(Refusal::TooManyBudgets)));
    }
}
