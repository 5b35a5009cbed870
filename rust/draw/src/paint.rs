//! The colours of labels and sites, and the shapes of sites. They are told apart by readers who are colour-blind, and
//! in grey by shape and lightness. Red is kept for broken rules.

use crate::number;
use std::fmt::Write;

pub const RED: &str = "#d4001a";
pub const DARK: &str = "#222222";
pub const GREY: &str = "#62625c";
pub const FAINT: &str = "#a3a39b";
/// Below the drops and around the sites whose ties differ.
pub const HIGHLIGHT: &str = "#ffc400";

/// Eight, as a sheet has at most eight colours.
pub const PAINTS: [&str; 8] = ["#1f4fc4", "#e88200", "#14806a", "#4f1d80", "#4ea4ec", "#4a2204", "#cf5fae", "#3a4a48"];
/// Whether text on the paint is dark: on orange, sky blue and pink.
const IS_LIGHT: [bool; 8] = [false, true, false, false, true, false, true, false];

pub fn paint(colour: usize) -> &'static str {
    PAINTS[colour % PAINTS.len()]
}

pub fn text_on(colour: usize) -> &'static str {
    if IS_LIGHT[colour % PAINTS.len()] {
        "#000000"
    } else {
        "#ffffff"
    }
}

/// The shapes of sites: filled for the first four colours, hollow for the others.
#[derive(Clone, Copy, PartialEq, Eq)]
enum Shape {
    Circle,
    Square,
    Hexagon,
    Diamond,
}

const SHAPES: [Shape; 4] = [Shape::Circle, Shape::Square, Shape::Hexagon, Shape::Diamond];

fn shape(colour: usize) -> Shape {
    SHAPES[colour % SHAPES.len()]
}

fn is_hollow(colour: usize) -> bool {
    colour / SHAPES.len() % 2 == 1
}

/// Half of what a site's shape takes across and down, for a circle of radius 1.
pub fn reach(colour: usize) -> f64 {
    match shape(colour) {
        Shape::Circle | Shape::Square => 1.0,
        Shape::Hexagon => 1.16,
        Shape::Diamond => 1.3,
    }
}

/// The colour of a number on a site's shape.
pub fn text_in_site(colour: usize) -> &'static str {
    if is_hollow(colour) {
        "#000000"
    } else {
        text_on(colour)
    }
}

/// The shape of a site of a colour around a point. A white line parts it from what lies below.
pub fn site_shape(colour: usize, (x, y): (f64, f64), radius: f64) -> String {
    let (fill, stroke) = if is_hollow(colour) { ("#ffffff", paint(colour)) } else { (paint(colour), "#ffffff") };
    let width = if is_hollow(colour) { 2.2 } else { 0.8 };
    let inner = if is_hollow(colour) { radius - 0.8 } else { radius };
    let look = format!("fill=\"{fill}\" stroke=\"{stroke}\" stroke-width=\"{width}\"");
    match shape(colour) {
        Shape::Circle => {
            format!("<circle cx=\"{}\" cy=\"{}\" r=\"{}\" {look}/>\n", number(x), number(y), number(inner))
        }
        Shape::Square => polygon((x, y), inner * 0.95, &[(-1.0, -1.0), (1.0, -1.0), (1.0, 1.0), (-1.0, 1.0)], &look),
        Shape::Hexagon => {
            let corners = [(-1.16, 0.0), (-0.6, -1.0), (0.6, -1.0), (1.16, 0.0), (0.6, 1.0), (-0.6, 1.0)];
            polygon((x, y), inner, &corners, &look)
        }
        Shape::Diamond => polygon((x, y), inner, &[(-1.3, 0.0), (0.0, -1.3), (1.3, 0.0), (0.0, 1.3)], &look),
    }
}

fn polygon((x, y): (f64, f64), size: f64, corners: &[(f64, f64)], look: &str) -> String {
    let mut points = String::new();
    for (right, down) in corners {
        let _ = write!(points, " {},{}", number(x + size * right), number(y + size * down));
    }
    format!("<polygon points=\"{}\" {look}/>\n", points.trim_start())
}

#[cfg(test)]
mod tests {
    use super::{site_shape, PAINTS, RED};

    type Colour = [f64; 3];

    /// What a reader sees: with all colours, without red, green or blue cones (Machado and others, 2009).
    const SIGHTS: [[Colour; 3]; 4] = [
        [[1.0, 0.0, 0.0], [0.0, 1.0, 0.0], [0.0, 0.0, 1.0]],
        [[0.152286, 1.052583, -0.204868], [0.114503, 0.786281, 0.099216], [-0.003882, -0.048116, 1.051998]],
        [[0.367322, 0.860646, -0.227968], [0.280085, 0.672501, 0.047413], [-0.011820, 0.042940, 0.968881]],
        [[1.255528, -0.076749, -0.178779], [-0.078411, 0.930809, 0.147602], [0.004733, 0.691367, 0.303900]],
    ];

    /// Red, green and blue as amounts of light.
    fn light(paint: &str) -> Colour {
        [1, 3, 5].map(|place| {
            let part = f64::from(u8::from_str_radix(&paint[place..place + 2], 16).unwrap()) / 255.0;
            if part <= 0.04045 {
                part / 12.92
            } else {
                ((part + 0.055) / 1.055).powf(2.4)
            }
        })
    }

    fn seen(light: Colour, sight: &[Colour; 3]) -> Colour {
        sight.map(|row| row.iter().zip(light).map(|(part, amount)| part * amount).sum::<f64>().clamp(0.0, 1.0))
    }

    /// Lightness from 0 to 100, and two differences of hue (CIE 1976).
    fn lab([red, green, blue]: Colour) -> Colour {
        let x = (0.4124 * red + 0.3576 * green + 0.1805 * blue) / 0.95047;
        let y = 0.2126 * red + 0.7152 * green + 0.0722 * blue;
        let z = (0.0193 * red + 0.1192 * green + 0.9505 * blue) / 1.08883;
        let [x, y, z] = [x, y, z].map(|part| if part > 0.008856 { part.cbrt() } else { 7.787 * part + 16.0 / 116.0 });
        [116.0 * y - 16.0, 500.0 * (x - y), 200.0 * (y - z)]
    }

    /// Two is the least difference that is seen; more than 15 is told at a glance.
    #[test]
    fn colours_are_told_apart_by_all_readers() {
        let all: Vec<&str> = PAINTS.iter().copied().chain([RED]).collect();
        for sight in &SIGHTS {
            let colours: Vec<Colour> = all.iter().map(|paint| lab(seen(light(paint), sight))).collect();
            for (index, one) in colours.iter().enumerate() {
                for (other, its) in colours[..index].iter().enumerate() {
                    let distance: f64 = one.iter().zip(its).map(|(a, b)| (a - b) * (a - b)).sum();
                    assert!(distance.sqrt() > 15.0, "{} and {}: {}", all[index], all[other], distance.sqrt());
                }
            }
        }
    }

    #[test]
    fn shapes_are_told_apart_in_grey() {
        // The same shape twice would differ in its paint alone.
        let shapes = (0..PAINTS.len()).map(|colour| site_shape(colour, (0.0, 0.0), 7.5).replace(PAINTS[colour], ""));
        let shapes: Vec<String> = shapes.collect();
        for (index, shape) in shapes.iter().enumerate() {
            assert!(!shapes[..index].contains(shape), "{shape}");
        }
    }
}
