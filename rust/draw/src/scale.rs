//! How large a sheet is drawn. One scale holds for x and y unless the heights are to be stretched.

use crate::precise;
use backbone::Sheet;

/// A pixel of a picture is a 96th of an inch, as in every browser.
pub const MILLIMETRES_IN_PIXEL: f64 = 25.4 / 96.0;
/// A unit is an eighth of a point, a 576th of an inch.
pub const MILLIMETRES_IN_UNIT: f64 = 25.4 / 576.0;
const PIXELS_IN_UNIT: f64 = 96.0 / 576.0;

/// The scales that are taken, by tens: each is at most half as large again as the one before.
const STEPS: [f64; 9] = [1.0, 1.5, 2.0, 2.5, 3.0, 4.0, 5.0, 6.0, 8.0];

/// The size in pixels that a drawing may have.
#[derive(Clone, Copy)]
pub struct Limits {
    pub width: f64,
    pub height: f64,
}

/// How many times as large as on paper a sheet is drawn.
#[derive(Clone, Copy, Debug, PartialEq)]
pub struct Scale {
    pub across: f64,
    pub down: f64,
}

/// The largest scale that is not above the limit.
fn fitting(limit: f64) -> f64 {
    let ten = ten_below(limit);
    let scale = |step: &f64| if limit >= 1.0 { step * ten } else { 10.0 * ten / step };
    STEPS.iter().map(scale).filter(|scale| *scale <= limit).fold(ten, f64::max)
}

/// The largest power of ten that is not above a number, by plain steps, which every machine takes alike.
fn ten_below(number: f64) -> f64 {
    let mut ten = 1.0;
    while ten * 10.0 <= number {
        ten *= 10.0;
    }
    while ten > number {
        ten /= 10.0;
    }
    ten
}

/// The lowest place of a sheet that a slot or a site takes; a sheet has no height of its own.
pub fn depth(sheet: &Sheet) -> u32 {
    let heights = sheet.slots().iter().copied();
    heights.chain(sheet.sites().iter().map(|site| site.y)).max().unwrap_or(0)
}

impl Scale {
    pub fn of(sheet: &Sheet, limits: Limits, is_stretched: bool) -> Scale {
        let across = fitting(limits.width / (PIXELS_IN_UNIT * f64::from(sheet.width())));
        let down = fitting(limits.height / (PIXELS_IN_UNIT * f64::from(depth(sheet).max(1))));
        if is_stretched {
            return Scale { across, down };
        }
        Scale { across: across.min(down), down: across.min(down) }
    }

    /// The pixels of a unit across.
    pub fn unit_across(&self) -> f64 {
        self.across * PIXELS_IN_UNIT
    }

    /// The pixels of a unit down.
    pub fn unit_down(&self) -> f64 {
        self.down * PIXELS_IN_UNIT
    }

    /// The scale in words.
    pub fn words(&self) -> String {
        if self.across == self.down {
            format!("drawn {}", ratio(self.across))
        } else {
            format!("drawn {} across, {} down", ratio(self.across), ratio(self.down))
        }
    }

    /// A round number of millimetres for the scale bar, and its pixels.
    pub fn bar(&self) -> (f64, f64) {
        let pixels = self.across / MILLIMETRES_IN_PIXEL;
        let millimetres = round_below(LONGEST_BAR / pixels);
        (millimetres, millimetres * pixels)
    }
}

const LONGEST_BAR: f64 = 110.0;

/// The largest of 1, 2 and 5, by tens, that is not above a number.
fn round_below(number: f64) -> f64 {
    let ten = ten_below(number);
    [1.0, 2.0, 5.0].into_iter().map(|step| step * ten).filter(|step| *step <= number).fold(ten, f64::max)
}

/// `2.5 : 1`, `1 : 4`.
fn ratio(times: f64) -> String {
    if times >= 1.0 {
        format!("{} : 1", precise(times))
    } else {
        format!("1 : {}", precise(1.0 / times))
    }
}

/// A length in millimetres, rounded to what can be seen.
pub fn millimetres(units: u32) -> String {
    let length = f64::from(units) * MILLIMETRES_IN_UNIT;
    match length {
        _ if length >= 10.0 => format!("{length:.1} mm"),
        _ if length >= 1.0 => format!("{length:.2} mm"),
        _ => format!("{length:.3} mm"),
    }
}
