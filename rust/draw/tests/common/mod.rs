//! A picture taken apart: its elements, the areas of its texts, and its strokes in the sheet's units.
#![allow(dead_code)]

use std::collections::BTreeMap;
use std::path::PathBuf;

pub fn folder() -> PathBuf {
    PathBuf::from(env!("CARGO_MANIFEST_DIR")).join("../../examples")
}

/// The texts of the folder of examples, by name.
pub fn example_names() -> Vec<String> {
    let entries = std::fs::read_dir(folder()).unwrap().map(|entry| entry.unwrap().path());
    let texts = entries.filter(|path| path.extension().is_some_and(|ending| ending == "txt"));
    let mut names: Vec<String> = texts.map(|path| path.file_stem().unwrap().to_string_lossy().into_owned()).collect();
    names.sort();
    names
}

pub fn example_picture(name: &str) -> String {
    std::fs::read_to_string(folder().join(name).with_extension("svg")).unwrap()
}

/// An element's name, its attributes, and the text that follows its tag.
#[derive(Clone, Debug)]
pub struct Element {
    pub name: String,
    attributes: BTreeMap<String, String>,
    pub inside: String,
}

impl Element {
    pub fn text(&self, attribute: &str) -> &str {
        self.attributes.get(attribute).map_or("", String::as_str)
    }

    pub fn number(&self, attribute: &str) -> f64 {
        let text = self.text(attribute);
        text.trim_end_matches("mm").parse().unwrap_or_else(|_| panic!("{attribute} is no number: {self:?}"))
    }

    pub fn is(&self, class: &str) -> bool {
        self.text("class") == class
    }
}

/// What an element has from the groups around it unless it says otherwise.
const INHERITED: [&str; 4] = ["font-size", "text-anchor", "font-weight", "fill"];

/// The elements of a picture by their opening tags; tags must close in order.
pub fn elements(picture: &str) -> Vec<Element> {
    let (mut elements, mut open): (Vec<Element>, Vec<Element>) = (Vec::new(), Vec::new());
    for part in picture.trim().strip_prefix('<').expect("a picture begins with a tag").split('<') {
        let (tag, inside) = part.split_once('>').expect("a tag ends");
        if let Some(closed) = tag.strip_prefix('/') {
            assert_eq!(open.pop().map(|one| one.name).as_deref(), Some(closed), "tags close in order");
            continue;
        }
        let element = element(tag, inside, open.last());
        if !tag.ends_with('/') {
            open.push(element.clone());
        }
        elements.push(element);
    }
    assert!(open.is_empty(), "every tag is closed: {open:?}");
    elements
}

fn element(tag: &str, inside: &str, around: Option<&Element>) -> Element {
    let (name, attributes) = tag.trim_end_matches('/').split_once(' ').unwrap_or((tag, ""));
    let own = attributes.split("\" ").filter_map(|one| one.trim_end_matches('"').split_once("=\""));
    let own = own.map(|(name, value)| (name.trim().to_string(), value.to_string()));
    let around = around.into_iter().flat_map(|element| element.attributes.clone());
    let inherited = around.filter(|(name, _)| INHERITED.contains(&name.as_str()));
    Element { name: name.to_string(), attributes: inherited.chain(own).collect(), inside: inside.to_string() }
}

/// What a text covers: left, top, right and bottom. Its width is what it states, which a reader's font keeps to.
pub type Box = [f64; 4];

pub fn text_boxes(picture: &str) -> Vec<(String, Box)> {
    let texts = elements(picture).into_iter().filter(|element| element.name == "text");
    texts
        .map(|text| {
            let (x, y, size, width) =
                (text.number("x"), text.number("y"), text.number("font-size"), text.number("textLength"));
            let left = match text.text("text-anchor") {
                "middle" => x - width / 2.0,
                "end" => x - width,
                _ => x,
            };
            // Capital letters and digits of Helvetica are 0.72 high, and letters reach 0.21 below their line.
            (text.inside, [left, y - 0.72 * size, left + width, y + 0.21 * size])
        })
        .collect()
}

pub fn overlap(one: &Box, other: &Box) -> bool {
    one[0] < other[2] && other[0] < one[2] && one[1] < other[3] && other[1] < one[3]
}

/// What the shapes of sites and the boxes of labels cover, each with the words that stand in it.
fn shape_boxes(elements: &[Element]) -> Vec<(String, Box)> {
    let mut boxes = Vec::new();
    for (index, element) in elements.iter().enumerate() {
        if element.is("site") {
            // A site is its title, its shape and its number.
            boxes.push((elements[index + 3].inside.clone(), shape_box(&elements[index + 2])));
        } else if element.is("label") {
            boxes.push((String::new(), shape_box(element)));
        }
    }
    boxes
}

fn shape_box(shape: &Element) -> Box {
    match shape.name.as_str() {
        "circle" => {
            let (x, y, radius) = (shape.number("cx"), shape.number("cy"), shape.number("r"));
            [x - radius, y - radius, x + radius, y + radius]
        }
        "rect" => {
            let (x, y) = (shape.number("x"), shape.number("y"));
            [x, y, x + shape.number("width"), y + shape.number("height")]
        }
        _ => {
            let corners = shape.text("points").split(' ').map(|corner| corner.split_once(',').unwrap());
            let corners = corners.map(|(x, y)| (x.parse::<f64>().unwrap(), y.parse::<f64>().unwrap()));
            corners.fold([f64::MAX, f64::MAX, f64::MIN, f64::MIN], |area, (x, y)| {
                [area[0].min(x), area[1].min(y), area[2].max(x), area[3].max(y)]
            })
        }
    }
}

/// Panics if two texts, two shapes, or a text and a shape that it does not stand in overlap, or a text leaves the
/// picture.
pub fn hold_texts_apart(picture: &str) {
    let (elements, texts) = (elements(picture), text_boxes(picture));
    let view: Vec<f64> = elements[0].text("viewBox").split(' ').map(|number| number.parse().unwrap()).collect();
    for (index, (words, area)) in texts.iter().enumerate() {
        assert!(area[0] >= 0.0 && area[1] >= 0.0, "'{words}' leaves the picture:\n{picture}");
        assert!(area[2] <= view[2] && area[3] <= view[3], "'{words}' leaves the picture:\n{picture}");
        for (other, its) in &texts[..index] {
            assert!(!overlap(area, its), "'{words}' {area:?} overlaps '{other}' {its:?}:\n{picture}");
        }
    }
    let shapes = shape_boxes(&elements);
    for (index, (words, shape)) in shapes.iter().enumerate() {
        for (_, other) in &shapes[..index] {
            assert!(!overlap(shape, other), "two shapes overlap, at {shape:?} and {other:?}:\n{picture}");
        }
        let is_inside =
            |area: &Box| shape[0] <= area[0] && area[2] <= shape[2] && shape[1] <= area[1] && area[3] <= shape[3];
        for (other, its) in texts.iter().filter(|(_, its)| overlap(shape, its)) {
            let is_own = is_inside(its) && (words.is_empty() || words == other);
            assert!(is_own, "'{other}' overlaps the shape of '{words}' at {shape:?}:\n{picture}");
        }
    }
}

/// The strokes of one class: from x and y to x and y, in units, whole numbers all.
pub fn strokes(elements: &[Element], class: &str) -> Vec<[u32; 4]> {
    let paths = elements.iter().filter(|element| element.is(class));
    let mut strokes = Vec::new();
    for path in paths {
        for one in path.text("d").split('M').filter(|one| !one.is_empty()) {
            let (start, turn) = one.split_once(['H', 'V']).unwrap();
            let (x, y) = start.split_once(' ').unwrap();
            let (x, y, to): (u32, u32, u32) = (x.parse().unwrap(), y.parse().unwrap(), turn.parse().unwrap());
            strokes.push(if one.contains('H') { [x, y, to, y] } else { [x, y, x, to] });
        }
    }
    strokes.sort_unstable();
    strokes
}
