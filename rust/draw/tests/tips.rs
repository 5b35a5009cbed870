//! What a picture shows of a tip that is too near a foreign site.

mod common;

use backbone::{judge, Rule};
use common::{elements, example_picture, hold_texts_apart};
use draw::{picture, sheet_and_layout, Options};
use model::random::{any_stored, Random};
use model::rules::{breaks_at_tips_alone, split, Ties};

/// A line from a site to a tip, each x and y.
type Line = [f64; 4];

/// The lines to tips, in pixels.
fn lines_to_tips(picture: &str) -> Vec<Line> {
    let elements = elements(picture);
    let lines = elements.iter().filter(|element| element.is("to-tip"));
    let line = |path: &str| {
        let numbers = path.split(['M', ' ', 'L']).filter_map(|number| number.parse().ok());
        numbers.collect::<Vec<f64>>().try_into().expect("two places")
    };
    lines.map(|element| line(element.text("d"))).collect()
}

/// Foreign sites and the tips that they are too near, by the rule's own words; by site and then by slot.
fn near_tips(stored: &[u32]) -> Vec<[u32; 4]> {
    let (sheet, slot_of, _) = split(stored).unwrap();
    let ties = Ties::new(&sheet, &slot_of);
    let mut near = Vec::new();
    for (site, own) in sheet.sites.iter().zip(&slot_of) {
        let foreign = ties.used().filter(|(slot, left)| slot != own && site.x < *left && left - site.x < sheet.gap);
        let tips = foreign.map(|(slot, left)| [site.x, site.y, left, sheet.slots[slot]]);
        near.extend(tips.filter(|[_, y, _, height]| y.abs_diff(*height) < sheet.gap));
    }
    near
}

/// Holds the lines to places of the sheet, by the transformation of its strokes. Coordinates have one decimal place.
fn hold_lines(picture: &str, places: &[[u32; 4]]) {
    let elements = elements(picture);
    let strokes = elements.iter().find(|element| element.text("transform").contains(" scale(")).expect("strokes");
    let numbers = strokes.text("transform").split(['(', ' ', ')']).filter_map(|number| number.parse().ok());
    let [left, top, scale] = numbers.collect::<Vec<f64>>()[..] else { panic!("one scale: {strokes:?}") };
    let drawn = |from: f64, number: u32| from + scale * f64::from(number);
    let lines = lines_to_tips(picture);
    assert_eq!(lines.len(), places.len(), "{picture}");
    for (line, [x, y, to_x, to_y]) in lines.iter().zip(places) {
        let wanted = [drawn(left, *x), drawn(top, *y), drawn(left, *to_x), drawn(top, *to_y)];
        let is_near = line.iter().zip(wanted).all(|(found, wanted)| (found - wanted).abs() < 0.1);
        assert!(is_near, "{line:?} {wanted:?}");
    }
}

#[test]
fn the_example_has_a_line_to_its_tip_and_a_ring() {
    let drawn = example_picture("near_tip");
    hold_lines(&drawn, &[[134, 90, 150, 90]]);
    let rings: Vec<_> = elements(&drawn).into_iter().filter(|element| element.is("ring")).collect();
    let [x, y, ..] = lines_to_tips(&drawn)[0];
    assert_eq!(rings.iter().map(|ring| [ring.number("cx"), ring.number("cy")]).collect::<Vec<_>>(), [[x, y]]);
    hold_lines(&example_picture("near_site"), &[]);
}

#[test]
fn every_tip_that_is_too_near_has_its_line() {
    let mut random = Random::new(86);
    let mut met = 0;
    for _ in 0..6_000 {
        let words = any_stored(&mut random);
        if judge(&words) != Ok(Some(Rule::SitesClear)) {
            continue;
        }
        let (sheet, layout) = sheet_and_layout(&words).unwrap();
        let drawn = picture(&sheet, layout.as_ref(), &Options::default()).unwrap();
        hold_lines(&drawn, &near_tips(&words));
        hold_texts_apart(&drawn);
        met += usize::from(breaks_at_tips_alone(&words));
    }
    assert!(met > 10, "{met}");
}
