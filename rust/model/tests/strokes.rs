//! The strokes of a stored sheet by what the format says of them.

use model::random::{any_stored, Random};
use model::rules::{judge, split};
use model::strokes::{stroke_at, strokes, Stroke};

const SHEETS: usize = 20_000;

fn stroke(is_drop: bool, ends: [f32; 4]) -> Stroke {
    Stroke { is_drop, ends }
}

/// Sheet A with its best layout: backbones of 6 and 4 units, drops of 2, 4 and 3.
#[test]
fn sheet_a_by_hand() {
    let stored = [
        0x10008008, 0x20000002, 0x20000005, 0x20000008, 0x300000FF, 0x40008004, 0x40018006, 0x300000FF, 0x40010005,
        0x80400013, 0x90000000, 0x90000000, 0x90000002,
    ];
    let expected = [
        stroke(false, [0.25, 0.25, 1.0, 0.25]),
        stroke(false, [0.5, 1.0, 1.0, 1.0]),
        stroke(true, [0.25, 0.5, 0.25, 0.25]),
        stroke(true, [0.75, 0.75, 0.75, 0.25]),
        stroke(true, [0.5, 0.625, 0.5, 1.0]),
    ];
    assert_eq!(strokes(&stored), Ok(expected.to_vec()));
    assert_eq!((stroke_at(&stored, 4), stroke_at(&stored, 5)), (Ok(expected[4]), Err(14)));
}

/// The charge in a list's second word, 0 without one.
fn charge(stored: &[u32]) -> u32 {
    stored.get(1).filter(|word| **word >> 28 == 5).map_or(0, |word| word & 0x3FFF)
}

/// The count of a lawful layout is that of its backbones; its length is that of its strokes and of a charge for each drop.
/// What the judge refuses has no strokes.
#[test]
fn strokes_add_up_to_the_stated_numbers() {
    let mut random = Random::new(330);
    let (mut met, mut charged) = ([0; 14], 0);
    for _ in 0..SHEETS {
        let stored = any_stored(&mut random);
        let expected = match judge(&stored) {
            (0, 0) => 0,
            (0, _) => 13,
            (refusal, _) => refusal,
        };
        met[usize::from(expected)] += 1;
        let all = match strokes(&stored) {
            Ok(all) => all,
            Err(refusal) => {
                assert_eq!((refusal, stroke_at(&stored, 0)), (expected, Err(refusal)), "{stored:x?}");
                continue;
            }
        };
        assert_eq!(expected, 0, "{stored:x?}");
        let (_, _, (labels, length)) = split(&stored).unwrap();
        let units: f32 = all.iter().map(|Stroke { ends: [x, y, to_x, to_y], .. }| (to_x - x) + (to_y - y).abs()).sum();
        let drops = all.iter().filter(|stroke| stroke.is_drop).count();
        let charges = charge(&stored) * drops as u32;
        assert_eq!(all.len() - drops, labels as usize, "{stored:x?}");
        assert_eq!(8.0 * units, (length - charges) as f32, "{stored:x?}");
        charged += usize::from(charges > 0);
    }
    assert!(charged > 500, "{charged}");
    assert!([0, 1, 2, 4, 11, 13].iter().all(|refusal| met[*refusal] > 20), "{met:?}");
}
