//! The page of a stored sheet by what the format says of it.

use model::page::{page, text};
use model::random::{any_stored, Random};
use model::rules::{judge, split};

const SHEETS: usize = 20_000;
const LINE: usize = 41;
const DIRT: u8 = 0xA5;

/// Sheet A with its best layout: slot 0 has sites 0 and 1, a backbone of 6 and drops of 2 and 4; slot 2 has site 2, a
/// backbone of 4 and a drop of 3.
#[test]
fn sheet_a_by_hand() {
    let stored = [
        0x10008008, 0x20000002, 0x20000005, 0x20000008, 0x300000FF, 0x40008004, 0x40018006, 0x300000FF, 0x40010005,
        0x80400013, 0x90000000, 0x90000000, 0x90000002,
    ];
    let expected = include_str!("../../../examples/a.page");
    assert_eq!(text(&stored).as_deref(), Ok(expected));
}

/// The number in columns `from` to `to` of a line, counted from 1.
fn number(line: &str, from: usize, to: usize) -> u32 {
    line[from - 1..to].trim_start().parse().unwrap_or_else(|_| panic!("columns {from} to {to} of '{line}'"))
}

/// Each line has 40 columns. Lengths of slots add up to the last line's, which the layout states, and their numbers of sites
/// to all sites.
#[test]
fn pages_add_up() {
    let mut random = Random::new(350);
    let mut lawful = 0;
    for _ in 0..SHEETS {
        let stored = any_stored(&mut random);
        let Ok(page) = text(&stored) else { continue };
        let (sheet, _, (count, length)) = split(&stored).unwrap();
        let lines: Vec<&str> = page.split_terminator('\n').collect();
        assert!(lines.iter().all(|line| line.len() + 1 == LINE) && page.ends_with('\n'), "{page}");
        assert_eq!(lines.len(), count as usize + sheet.sites.len() + 1, "{page}");
        let (slots, rest) = lines.split_at(count as usize);
        let sum = |from: usize, to: usize| slots.iter().map(|line| number(line, from, to)).sum::<u32>();
        assert_eq!((sum(8, 9) as usize, sum(20, 27)), (sheet.sites.len(), length), "{page}");
        let total = rest.last().unwrap();
        assert_eq!((&total[..5], number(total, 8, 10), number(total, 20, 27)), ("total", count, length), "{page}");
        lawful += 1;
    }
    assert!(lawful > SHEETS / 10, "{lawful}");
}

/// 1 to 7 and 11 as the judge, then 13, then 9. A refusal changes nothing; what is past the page stays.
#[test]
fn refusals_and_areas() {
    let mut random = Random::new(351);
    let mut met = [0; 14];
    for _ in 0..SHEETS {
        let stored = any_stored(&mut random);
        let needed = text(&stored).map_or(LINE, |page| page.len());
        let lent = needed + random.below(3) as usize - 1;
        let mut area = vec![DIRT; lent];
        let expected = match judge(&stored) {
            (0, 0) if lent < needed => (9, 0),
            (0, 0) => (0, needed),
            (0, _) => (13, 0),
            (refusal, _) => (refusal, 0),
        };
        let (refusal, written) = page(&stored, &mut area);
        assert_eq!((refusal, written), expected, "{stored:x?}");
        assert!(area[written..].iter().all(|byte| *byte == DIRT), "{stored:x?}");
        assert!(!area[..written].contains(&DIRT), "{stored:x?}");
        met[usize::from(refusal)] += 1;
    }
    assert!([0, 1, 2, 4, 9, 11, 13].iter().all(|refusal| met[*refusal] > 20), "{met:?}");
}
