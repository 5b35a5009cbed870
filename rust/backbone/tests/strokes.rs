//! The library's strokes: values of them, each refusal, what is promised of every list, and plain ones beside them.

mod common;

use backbone::{stroke_at, strokes, End, Refusal, Stored, Stroke};
use common::{any_sort, refused_stored, stored_a, LAYOUT_A, SHEET_A};
use model::random::Random;
use model::rules;
use model::strokes as plain;

const SHEETS: usize = 100_000;

fn bone(x: f32, y: f32, to_x: f32, to_y: f32) -> Stroke {
    Stroke::Bone { from: End { x, y }, to: End { x: to_x, y: to_y } }
}

fn drop(x: f32, y: f32, to_x: f32, to_y: f32) -> Stroke {
    Stroke::Drop { from: End { x, y }, to: End { x: to_x, y: to_y } }
}

/// All strokes, each asked for by its place too.
fn all(stored: &[u32]) -> Result<Vec<Stroke>, Refusal> {
    let before = stored.to_vec();
    let found: Vec<Stroke> = strokes(stored)?.collect();
    for (place, stroke) in found.iter().enumerate() {
        assert_eq!(stroke_at(stored, place), Ok(*stroke), "{stored:x?}");
    }
    for past in [found.len(), found.len() + 1, usize::MAX] {
        assert_eq!(stroke_at(stored, past), Err(Refusal::PastLastStroke), "{stored:x?}");
    }
    assert_eq!(stored, before);
    Ok(found)
}

/// Width 8, slots at 2, 5 and 8, sites at (2,4), (6,6) and (4,5): in points an eighth of each.
#[test]
fn sheet_a_by_hand() {
    let expected = [
        bone(0.25, 0.25, 1.0, 0.25),
        bone(0.5, 1.0, 1.0, 1.0),
        drop(0.25, 0.5, 0.25, 0.25),
        drop(0.75, 0.75, 0.75, 0.25),
        drop(0.5, 0.625, 0.5, 1.0),
    ];
    let stored = stored_a(0x10008008, &LAYOUT_A);
    assert_eq!(all(&stored), Ok(expected.to_vec()));
    assert_eq!(Stored::from_words(&stored).unwrap().strokes(), Ok(expected.to_vec()));
    // Slots 0, 1 and 2: three labels.
    let three = stored_a(0x14008008, &[0x80600012, 0x90000000, 0x90000001, 0x90000002]);
    let expected = [
        bone(0.25, 0.25, 1.0, 0.25),
        bone(0.75, 0.625, 1.0, 0.625),
        bone(0.5, 1.0, 1.0, 1.0),
        drop(0.25, 0.5, 0.25, 0.25),
        drop(0.75, 0.75, 0.75, 0.625),
        drop(0.5, 0.625, 0.5, 1.0),
    ];
    assert_eq!(all(&three), Ok(expected.to_vec()));
}

/// Backbones reach from edge to edge; drops are as before.
#[test]
fn sheet_a_two_sided_by_hand() {
    let stored = stored_a(0x18008008, &[0x80400019, 0x90000000, 0x90000000, 0x90000002]);
    let found = all(&stored).unwrap();
    assert_eq!(found[..2], [bone(0.0, 0.25, 1.0, 0.25), bone(0.0, 1.0, 1.0, 1.0)]);
    assert_eq!(found[2..], all(&stored_a(0x10008008, &LAYOUT_A)).unwrap()[2..]);
}

/// A charge gives no stroke: those of sheet A with a charge of 5 are those of sheet A, and it states 3 times 5 more.
#[test]
fn a_charge_gives_no_stroke() {
    let layout = [0x80400013 + 15, 0x90000000, 0x90000000, 0x90000002];
    let charged = [&SHEET_A[..1], &[0x50000005], &SHEET_A[1..], &layout].concat();
    assert_eq!(all(&charged), all(&stored_a(0x10008008, &LAYOUT_A)));
    let uncharged = [&SHEET_A[..1], &[0x50000005], &SHEET_A[1..], &LAYOUT_A].concat();
    assert_eq!(strokes(&uncharged).err(), Some(Refusal::Unlawful));
}

/// A drop of zero gives none, a backbone of no length gives one, and the head alone has none at all.
#[test]
fn strokes_of_no_length() {
    let one = |site: u32, first: u32| [0x10008008, 0x20000000, 0x300000FF, site, first, 0x90000000];
    assert_eq!(all(&one(0x40000000, 0x80200008)), Ok(vec![bone(0.0, 0.0, 1.0, 0.0)]));
    assert_eq!(all(&one(0x40020000, 0x80200000)), Ok(vec![bone(1.0, 0.0, 1.0, 0.0)]));
    assert_eq!(all(&one(0x40020003, 0x80200003)), Ok(vec![bone(1.0, 0.0, 1.0, 0.0), drop(1.0, 0.375, 1.0, 0.0)]));
    assert_eq!(all(&[0x10008008, 0x80000000]), Ok(vec![]));
}

/// The largest numbers that a sheet has: 16383 units are 2047.875 points.
#[test]
fn the_largest_coordinates() {
    let stored = [0x10007FFF, 0x20003FFF, 0x300000FF, 0x4FFF8000, 0x80200000 + 1 + 0x3FFF, 0x90000000];
    let expected = [bone(2047.75, 2047.875, 2047.875, 2047.875), drop(2047.75, 0.0, 2047.75, 2047.875)];
    assert_eq!(all(&stored), Ok(expected.to_vec()));
}

/// 1 to 7 and 11 as the judge refuses, then 13; each comes before 14.
#[test]
fn refusals() {
    for (stored, refusal) in refused_stored() {
        assert_eq!(strokes(&stored).err(), Some(refusal), "{stored:x?}");
        for place in [0, 1, 99, usize::MAX] {
            assert_eq!(stroke_at(&stored, place), Err(refusal), "{stored:x?}");
        }
    }
}

/// The end stays the end, and a copy goes on from where it was made.
#[test]
fn the_iterator() {
    let stored = stored_a(0x10008008, &LAYOUT_A);
    let mut given = strokes(&stored).unwrap();
    assert_eq!(given.next(), Some(bone(0.25, 0.25, 1.0, 0.25)));
    let rest: Vec<Stroke> = given.clone().collect();
    assert_eq!(rest, all(&stored).unwrap()[1..]);
    assert_eq!((given.by_ref().count(), given.next(), given.next()), (4, None, None));
}

/// What a stroke is, bit for bit.
fn bits(stroke: Stroke) -> (&'static str, [u32; 4]) {
    let [from, to] = stroke.ends();
    (stroke.name(), [from.x, from.y, to.x, to.y].map(f32::to_bits))
}

fn plain_bits(stroke: plain::Stroke) -> (&'static str, [u32; 4]) {
    (if stroke.is_drop { "drop" } else { "bone" }, stroke.ends.map(f32::to_bits))
}

#[test]
fn strokes_are_those_of_the_plain_ones() {
    let mut random = Random::new(340);
    let (mut met, mut two_sided) = ([0; 15], 0);
    for _ in 0..SHEETS {
        let stored = any_sort(&mut random);
        let found = strokes(&stored).map(|all| all.map(bits).collect::<Vec<_>>()).map_err(Refusal::number);
        let expected = plain::strokes(&stored).map(|all| all.into_iter().map(plain_bits).collect::<Vec<_>>());
        assert_eq!(found, expected, "{stored:x?}");
        let place = random.below(20) as usize;
        let one = stroke_at(&stored, place).map(bits).map_err(Refusal::number);
        assert_eq!(one, plain::stroke_at(&stored, place).map(plain_bits), "{place} {stored:x?}");
        two_sided += usize::from(one.is_ok() && stored[0] >> 27 & 1 == 1);
        met[usize::from(one.err().unwrap_or(0))] += 1;
    }
    assert!([0, 1, 2, 4, 5, 6, 11, 13, 14].iter().all(|refusal| met[*refusal] > SHEETS / 1000), "{met:?}");
    assert!(two_sided > SHEETS / 100, "{two_sided}");
}

/// A coordinate in units: eight times it is a whole number, and zero is plus zero.
fn units(points: f32) -> u32 {
    let number = 8.0 * f64::from(points);
    assert!(number.fract() == 0.0 && points.is_sign_positive(), "{points}");
    number as u32
}

/// The lengths of all strokes, in units; no end lies left of 0 or right of the width.
fn total_length(found: &[Stroke], width: u32) -> u32 {
    let length = |stroke: &Stroke| {
        let ends = stroke.ends().map(|end| (units(end.x), units(end.y)));
        assert_eq!(ends, stroke.ends().map(End::units));
        let [(x, y), (to_x, to_y)] = ends;
        assert!(x <= to_x && to_x <= width, "{stroke:?}");
        match stroke {
            Stroke::Bone { .. } => assert_eq!((y, to_x), (to_y, width), "{stroke:?}"),
            Stroke::Drop { .. } => assert!(x == to_x && y != to_y, "{stroke:?}"),
        }
        to_x - x + y.abs_diff(to_y)
    };
    found.iter().map(length).sum()
}

#[test]
fn lists_keep_their_promises() {
    let mut random = Random::new(341);
    let (mut lawful, mut on_backbone, mut charged) = ([0; 2], 0, 0);
    for _ in 0..SHEETS / 2 {
        let stored = any_sort(&mut random);
        let Ok((sheet, slot_of)) = rules::lawful(&stored) else { continue };
        let found: Vec<Stroke> = strokes(&stored).unwrap().collect();
        let (_, _, (labels, length)) = rules::split(&stored).unwrap();
        let backbones = found.iter().take_while(|stroke| matches!(stroke, Stroke::Bone { .. })).count();
        let off = sheet.sites.iter().zip(&slot_of).filter(|(site, slot)| site.y != sheet.slots[**slot]).count();
        assert_eq!((backbones, found.len() - backbones), (labels as usize, off), "{stored:x?}");
        // The second word of a sheet with a charge has it.
        let charge = if stored[1] >> 28 == 5 { stored[1] & 0x3FFF } else { 0 };
        assert_eq!(total_length(&found, sheet.width) + charge * off as u32, length, "{stored:x?}");
        let heights: Vec<u32> = found[..backbones].iter().map(|stroke| stroke.ends()[0].units().1).collect();
        assert!(heights.windows(2).all(|pair| pair[0] < pair[1]), "{stored:x?}");
        lawful[usize::from(sheet.two_sided)] += 1;
        on_backbone += sheet.sites.len() - off;
        charged += usize::from(charge > 0 && off > 0);
    }
    assert!(charged > 1_000, "{charged}");
    assert!(lawful.iter().all(|count| *count > 1_000) && on_backbone > 1_000, "{lawful:?} {on_backbone}");
}

/// Every coordinate is shown in full, those of wall charts too: the digits of its number of eighths.
#[test]
fn lines_have_all_digits() {
    for number in 0..=262_143u32 {
        let points = number as f32 / 8.0;
        let line = bone(points, 0.0, 0.0, 0.0).to_string();
        let shown = line.split(' ').nth(1).unwrap();
        let (whole, digits) = shown.split_once('.').unwrap_or((shown, ""));
        let thousandths = format!("{whole}{digits:0<3}").parse::<u32>().unwrap();
        assert_eq!(thousandths, 125 * number, "{shown}");
        assert!(!digits.ends_with('0') && digits.len() <= 3, "{shown}");
    }
}
