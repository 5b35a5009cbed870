//! The example of rounding: what its picture is meant to show is there.

use crate::command::{backbone, rounding_engine};
use model::depth::depth;
use model::rounding::{lay_out, rounded_length, Rounding};
use model::rules::Ties;
use model::search;
use model::sheet::Sheet;

fn example() -> Sheet {
    let path = format!("{}/../../examples/rounding.txt", env!("CARGO_MANIFEST_DIR"));
    let text = std::fs::read_to_string(path).expect("the example");
    model::sheet::read(&sheet::encode(&text).expect("a text")).expect("a sheet")
}

/// The heights of a site's vertical, the lower number first.
fn vertical(sheet: &Sheet, slot_of: &[usize], site: usize) -> std::ops::Range<u32> {
    let (y, end) = (sheet.sites[site].y, sheet.slots[slot_of[site]]);
    y.min(end)..y.max(end)
}

#[test]
fn six_nested_cuts_and_a_leader_past_a_foreign_bolt() {
    let (sheet, rounding) = (example(), Rounding::TenthMillimetre);
    let best = search::find(&sheet).expect("there is a layout").slot_of;
    let rival = lay_out(&sheet, rounding).expect("there is a layout");
    let numbers = |slot_of: &[usize]| Ties::new(&sheet, slot_of).numbers();
    assert_eq!((depth(&sheet, &best), depth(&sheet, &rival)), (6, 6));
    assert_eq!((numbers(&best), numbers(&rival)), ((6, 7321), (6, 7323)));
    let sum = |slot_of: &[usize]| rounded_length(&sheet, slot_of, rounding);
    assert_eq!((sum(&best), sum(&rival)), (Ok(3229), Ok(3228)), "whichever of its equals it takes, it errs");
    // Site 2's leader, 90 units (4 mm) right of site 6, of another colour: past it in the rival's layout alone.
    let (inner, foreign) = (2, 6);
    let (near, y) = (sheet.sites[inner].x - sheet.sites[foreign].x, sheet.sites[foreign].y);
    assert!(near == 90 && sheet.sites[inner].colour != sheet.sites[foreign].colour);
    assert!(vertical(&sheet, &rival, inner).contains(&y) && !vertical(&sheet, &best, inner).contains(&y));
}

#[test]
fn the_command_finds_it() {
    let path = format!("{}/../../examples/rounding.txt", env!("CARGO_MANIFEST_DIR"));
    let run = backbone(&["check", &path, "--engine", &rounding_engine("0.1mm")]).ends(1);
    assert!(
        run.out.contains("not best: 2 units (0.25 points, 0.088 mm) longer; best: labels 6 length 7321"),
        "{}",
        run.out
    );
}
