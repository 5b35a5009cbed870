//! Below the drawing: the scale bar, and the colours with their bounds and the names of their sites.

use crate::column::colour_name;
use crate::paint::{site_shape, DARK, GREY};
use crate::scale::Scale;
use crate::text::{shortened, width, Anchor, Style};
use crate::{number, precise};
use backbone::Sheet;
use sheet::Names;

const LINE: Style = Style { size: 11.0, anchor: Anchor::Start, is_bold: false, fill: DARK };
const HEADING: Style = Style { is_bold: true, ..LINE };
const NUMBER: Style = Style { anchor: Anchor::End, fill: GREY, ..LINE };
const LINE_HEIGHT: f64 = 15.0;
const SWATCH: f64 = 14.0;
/// From the bar to its words.
const BAR_END: f64 = 8.0;
const BETWEEN: f64 = 22.0;
const MOST_WIDTH: f64 = 220.0;
/// The numbers of sites end here.
const NUMBER_END: f64 = 12.0;

/// A bar of a round number of millimetres, and the scale in words.
pub fn scale_bar(scale: &Scale, x: f64, y: f64) -> String {
    let (_, pixels) = scale.bar();
    let bar = format!(
        "<path class=\"bar\" d=\"M{0} {1}v8m0 -4h{2}m0 -4v8\" fill=\"none\" stroke=\"{DARK}\" stroke-width=\"1.4\"/>\n",
        number(x),
        number(y - 8.0),
        precise(pixels)
    );
    bar + &LINE.group(&LINE.text(&LINE, &bar_words(scale), x + pixels + BAR_END, y))
}

fn bar_words(scale: &Scale) -> String {
    format!("{} mm, {}", precise(scale.bar().0), scale.words())
}

/// What a picture's scale bar takes across.
pub fn bar_width(scale: &Scale) -> f64 {
    scale.bar().1 + BAR_END + width(&bar_words(scale), LINE.size, false)
}

/// A colour with the names of its sites, one a line.
struct Block {
    colour: usize,
    heading: String,
    /// A site's number and its name.
    sites: Vec<(String, String)>,
}

impl Block {
    fn of(sheet: &Sheet, names: &Names, colour: usize) -> Block {
        let bound = match sheet.bounds()[colour] {
            None => String::new(),
            Some(0) => ", no label".to_string(),
            Some(1) => ", at most 1 label".to_string(),
            Some(bound) => format!(", at most {bound} labels"),
        };
        let room = MOST_WIDTH - width(&bound, LINE.size, true);
        let heading = shortened(&colour_name(names, colour), LINE.size, true, room) + &bound;
        let own = (0..sheet.sites().len()).filter(|site| sheet.sites()[*site].colour == colour);
        let named = own.filter_map(|site| names.site(site).map(|name| (site, name)));
        let sites =
            named.map(|(site, name)| (site.to_string(), shortened(name, LINE.size, false, MOST_WIDTH))).collect();
        Block { colour, heading, sites }
    }

    fn width(&self) -> f64 {
        let names = self.sites.iter().map(|(_, name)| width(name, LINE.size, false));
        SWATCH + 4.0 + names.fold(width(&self.heading, LINE.size, true), f64::max)
    }

    fn height(&self) -> f64 {
        LINE_HEIGHT * (1 + self.sites.len()) as f64
    }

    fn svg(&self, x: f64, y: f64) -> String {
        let left = x + SWATCH + 4.0;
        let mut svg = site_shape(self.colour, (x + SWATCH / 2.0, y - 4.0), 5.0);
        svg.push_str(&HEADING.text(&LINE, &self.heading, left, y));
        for (index, (number, name)) in self.sites.iter().enumerate() {
            let y = y + LINE_HEIGHT * (index + 1) as f64;
            svg.push_str(&NUMBER.text(&LINE, number, x + NUMBER_END, y));
            svg.push_str(&LINE.text(&LINE, name, left, y));
        }
        svg
    }
}

/// The blocks of all colours with their places, in rows that have the room.
pub struct Parts(Vec<(Block, f64, f64)>);

impl Parts {
    pub fn of(sheet: &Sheet, names: &Names, room: f64) -> Parts {
        let mut placed = Vec::new();
        let (mut x, mut y, mut row) = (0.0, 0.0, 0.0);
        for colour in 0..sheet.bounds().len() {
            let block = Block::of(sheet, names, colour);
            if x > 0.0 && x + block.width() > room {
                (x, y, row) = (0.0, y + row + 4.0, 0.0);
            }
            let (width, height) = (block.width(), block.height());
            placed.push((block, x, y));
            x += width + BETWEEN;
            row = f64::max(row, height);
        }
        Parts(placed)
    }

    pub fn height(&self) -> f64 {
        self.0.iter().map(|(block, _, y)| y + block.height()).fold(0.0, f64::max)
    }

    /// What it takes across.
    pub fn width(&self) -> f64 {
        self.0.iter().map(|(block, x, _)| x + block.width()).fold(0.0, f64::max)
    }

    /// The first line stands at this height.
    pub fn svg(&self, left: f64, first: f64) -> String {
        LINE.group(&self.0.iter().map(|(block, x, y)| block.svg(left + x, first + y)).collect::<String>())
    }
}
