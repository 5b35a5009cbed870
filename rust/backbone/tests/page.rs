//! The library's page: values of it, each refusal, areas, what is promised of every page, and plain ones beside it.

mod common;

use backbone::{labels, page, write_page, Refusal, Stored, MOST_PAGE_BYTES, PAGE_LINE_BYTES};
use common::{any_sort, numbered, page_in_dirt, refused_stored, stored_a, LAYOUT_A, SHEET_A};
use model::page as plain;
use model::random::Random;

const SHEETS: usize = 100_000;

/// Sheet A with its best layout: slot 0 has sites 0 and 1, a backbone of 6 and drops of 2 and 4; slot 2 has site 2, a
/// backbone of 4 and a drop of 3.
const PAGE_A: &str = include_str!("../../../examples/a.page");

/// The page's lines without the blanks at their ends, each of which has 40 columns.
fn lines(stored: &[u32]) -> Vec<String> {
    let text = page(stored).unwrap_or_else(|refusal| panic!("{refusal}: {stored:x?}"));
    assert!(text.lines().all(|line| line.len() + 1 == PAGE_LINE_BYTES) && text.ends_with('\n'), "{text}");
    assert_eq!(text.len() % PAGE_LINE_BYTES, 0, "{text}");
    text.lines().map(|line| line.trim_end().to_string()).collect()
}

#[test]
fn sheet_a_by_hand() {
    let stored = stored_a(0x10008008, &LAYOUT_A);
    assert_eq!(page(&stored).as_deref(), Ok(PAGE_A));
    assert_eq!(Stored::from_words(&stored).unwrap().page().as_deref(), Ok(PAGE_A));
    // Slots 0, 1 and 2: backbones of 6, 2 and 4, drops of 2, 1 and 3.
    let three = stored_a(0x14008008, &[0x80600012, 0x90000000, 0x90000001, 0x90000002]);
    let expected = [
        "  0  0  1        2        8",
        "  1  0  1        5        3",
        "  2  1  1        8        7",
        "  drop   0   0       -2",
        "  drop   1   1       -1",
        "  drop   2   2       +3",
        "total    3               18",
    ];
    assert_eq!(lines(&three), expected);
}

/// Two-sided both backbones have 8 units; with a charge of 5 each drop adds 5 to a length. Neither is in the drops.
#[test]
fn sheet_a_with_other_lengths() {
    let two_sided = stored_a(0x18008008, &[0x80400019, 0x90000000, 0x90000000, 0x90000002]);
    let layout = [0x80400013 + 15, 0x90000000, 0x90000000, 0x90000002];
    let charged = [&SHEET_A[..1], &[0x50000005], &SHEET_A[1..], &layout].concat();
    for (stored, slot_0, slot_2, total) in [(two_sided, 14, 11, 25), (charged, 22, 12, 34)] {
        let slots = [format!("  0  0  2        2       {slot_0}"), format!("  2  1  1        8       {slot_2}")];
        let found = lines(&stored);
        assert_eq!(found[..2], slots);
        assert_eq!(found[2..5], lines(&stored_a(0x10008008, &LAYOUT_A))[2..5]);
        assert_eq!(found[5..], [format!("total    2               {total}")]);
    }
}

/// A drop of zero has no sign and no charge; a backbone of no length has a line; the head alone has the total.
#[test]
fn zeros() {
    let one = |site: u32, first: u32| lines(&[0x10008008, 0x50000009, 0x20000000, 0x300000FF, site, first, 0x90000000]);
    let on_backbone = ["  0  0  1        0        8", "  drop   0   0        0", "total    1                8"];
    assert_eq!(one(0x40000000, 0x80200008), on_backbone);
    let no_length = ["  0  0  1        0        0", "  drop   0   0        0", "total    1                0"];
    assert_eq!(one(0x40020000, 0x80200000), no_length);
    assert_eq!(lines(&[0x10008008, 0x80000000]), ["total    0                0"]);
}

/// 32 sites at height 0 and x from 0 to 31, each with the greatest drop and charge: 16383 + 32 × (16383 + 16383) = 1064895.
#[test]
fn the_largest_numbers() {
    let sites = (0..32).map(|x| 4 << 28 | x << 14);
    let low_slots = (0..47).map(|height| 2 << 28 | height);
    let mut stored = vec![0x10007FFF, 0x50003FFF];
    stored.extend(low_slots.chain([0x20003FFF]).chain([0x300000FF; 8]).chain(sites));
    stored.extend([0x80200000 + 1_064_895].into_iter().chain([0x90000000 + 47; 32]));
    let found = lines(&stored);
    assert_eq!(found[0], " 47  7 32    16383  1064895");
    let drops: Vec<String> = (0..32).map(|site| format!("  drop {site:>3}  47   +16383")).collect();
    assert_eq!(found[1..33], drops);
    assert_eq!(found[33..], ["total    1          1064895"]);
}

/// No two of 32 sites share a label. Each lies 1 below its slot, so no other label is near.
fn longest() -> Vec<u32> {
    let slots = (0..48).map(|slot| 2 << 28 | (10 * slot + 5));
    let sites = (0..32).map(|site| 4 << 28 | (site + 1) << 14 | (10 * site + 6));
    // Backbones of 99 down to 68, and 32 drops of 1.
    let length = (68..=99).sum::<u32>() + 32;
    let mut stored = vec![0x1000C064];
    stored.extend(slots.chain([0x300000FF]).chain(sites));
    stored.extend([8 << 28 | 32 << 21 | length].into_iter().chain((0..32).map(|slot| 9 << 28 | slot)));
    stored
}

#[test]
fn the_longest_page() {
    let found = lines(&longest());
    assert_eq!((found.len(), MOST_PAGE_BYTES), (65, 2665));
    assert_eq!(&found[31], " 31  0  1      315       69");
    assert_eq!(&found[63], "  drop  31  31       -1");
    assert_eq!(&found[64], "total   32             2704");
    let mut random = Random::new(360);
    assert_eq!(page_in_dirt(&longest(), MOST_PAGE_BYTES, &mut random), page(&longest()));
    assert_eq!(page_in_dirt(&longest(), MOST_PAGE_BYTES - 1, &mut random), Err(Refusal::AnswerTooShort));
}

/// On both sides of the length that the page needs, without an area, and in bytes that no word begins at.
#[test]
fn areas_of_a_page() {
    let stored = stored_a(0x10008008, &LAYOUT_A);
    let mut random = Random::new(361);
    for lent in [6 * 41, 6 * 41 + 1, 3000] {
        assert_eq!(page_in_dirt(&stored, lent, &mut random).as_deref(), Ok(PAGE_A));
    }
    for lent in [0, 1, 41, 6 * 41 - 1] {
        assert_eq!(page_in_dirt(&stored, lent, &mut random), Err(Refusal::AnswerTooShort));
    }
    let mut area = [b'?'; 6 * 41 + 2];
    for from in 0..2 {
        assert_eq!(write_page(&stored, &mut area[from..from + 6 * 41]), Ok(6 * 41));
        assert_eq!((&area[from..from + 6 * 41], area[6 * 41 + 1]), (PAGE_A.as_bytes(), b'?'));
    }
}

/// 1 to 7 and 11 as the judge refuses, then 13; each comes before 9.
#[test]
fn refusals() {
    let mut random = Random::new(362);
    for (stored, refusal) in refused_stored() {
        assert_eq!(page(&stored), Err(refusal), "{stored:x?}");
        for lent in [0, 41, 300] {
            assert_eq!(page_in_dirt(&stored, lent, &mut random), Err(refusal), "{stored:x?}");
        }
    }
}

/// The plain page in an area of so many bytes.
fn plain_page(stored: &[u32], lent: usize) -> Result<String, u8> {
    let mut area = vec![0; lent];
    match plain::page(stored, &mut area) {
        (0, written) => Ok(String::from_utf8(area[..written].to_vec()).unwrap()),
        (refusal, _) => Err(refusal),
    }
}

/// In areas one byte too short, as long as needed, and longer.
#[test]
fn pages_are_those_of_the_plain_one() {
    let mut random = Random::new(363);
    let (mut met, mut two_sided) = ([0; 14], 0);
    for _ in 0..SHEETS {
        let stored = any_sort(&mut random);
        let needed = plain::text(&stored).map_or(PAGE_LINE_BYTES, |text| text.len());
        let spare = random.below(99) as usize;
        let lent = needed + random.pick(&[0, 1, 1, 1 + spare]) - 1;
        let made = numbered(page_in_dirt(&stored, lent, &mut random));
        assert_eq!(made, plain_page(&stored, lent), "{lent} {stored:x?}");
        two_sided += usize::from(made.is_ok() && stored[0] >> 27 & 1 == 1);
        met[usize::from(made.err().unwrap_or(0))] += 1;
    }
    assert!([1, 2, 4, 5, 6, 11, 13].iter().all(|refusal| met[*refusal] > SHEETS / 1000), "{met:?}");
    assert!(met[0] > SHEETS / 5 && met[9] > SHEETS / 20 && two_sided > SHEETS / 100, "{met:?} {two_sided}");
}

/// The number in columns `from` to `to` of a line, counted from 1; none if it is not one with blanks before it.
fn number(line: &str, from: usize, to: usize) -> Option<i64> {
    line.get(from - 1..to)?.trim_start_matches(' ').parse().ok()
}

/// The columns of a line that belong to no number and to no word are blank.
fn is_blank_but(line: &str, columns: &[(usize, usize)]) -> bool {
    let is_named = |place: usize| columns.iter().any(|(from, to)| (*from..=*to).contains(&(place + 1)));
    line.bytes().enumerate().all(|(place, byte)| byte == b' ' || is_named(place))
}

/// The slots' lines: the labels that the safe crate finds in the words.
fn hold_slots(lines: &[&str], stored: &Stored) {
    let labels = labels(&stored.sheet, &stored.layout);
    assert_eq!(lines.len(), labels.len());
    for (line, label) in lines.iter().zip(&labels) {
        let columns = [(1, 3), (5, 6), (8, 9), (11, 18), (20, 27)];
        let wanted = [label.slot as i64, label.colour as i64, label.sites.len() as i64, label.height.into()];
        let wanted = wanted.into_iter().chain([label.length.into()]).map(Some);
        assert!(columns.iter().map(|(from, to)| number(line, *from, *to)).eq(wanted), "{line} {label:?}");
        assert!(is_blank_but(line, &columns), "{line}");
    }
}

/// The sites' lines: a plus where the slot lies below the site, a minus where it lies above.
fn hold_sites(lines: &[&str], stored: &Stored) {
    assert_eq!(lines.len(), stored.sheet.sites().len());
    for (number_of_site, (line, site)) in lines.iter().zip(stored.sheet.sites()).enumerate() {
        let slot = stored.layout.slots[number_of_site];
        let height = stored.sheet.slots()[usize::from(slot)];
        let sign = if height > site.y { "+" } else { "-" };
        let drop = if height == site.y { "0".to_string() } else { format!("{sign}{}", height.abs_diff(site.y)) };
        assert_eq!((number(line, 8, 10), number(line, 12, 14)), (Some(number_of_site as i64), Some(slot.into())));
        assert_eq!((&line[..6], line[15..23].trim_start()), ("  drop", &drop[..]), "{line}");
        assert!(is_blank_but(line, &[(3, 6), (8, 10), (12, 14), (16, 23)]), "{line}");
    }
}

#[test]
fn pages_keep_their_promises() {
    let mut random = Random::new(364);
    let (mut lawful, mut on_backbone, mut charged) = ([0; 2], 0, 0);
    for _ in 0..SHEETS / 2 {
        let words = any_sort(&mut random);
        let Ok(text) = page(&words) else { continue };
        let stored = Stored::from_words(&words).unwrap();
        let all: Vec<&str> = text.split_terminator('\n').collect();
        assert!(all.iter().all(|line| line.len() == 40), "{text}");
        let (count, length) = (stored.layout.labels as usize, i64::from(stored.layout.length));
        let (slots, rest) = all.split_at(count);
        let (total, sites) = rest.split_last().unwrap();
        hold_slots(slots, &stored);
        hold_sites(sites, &stored);
        assert_eq!((number(total, 8, 10), number(total, 20, 27)), (Some(count as i64), Some(length)), "{text}");
        assert!(total.starts_with("total ") && is_blank_but(total, &[(1, 5), (8, 10), (20, 27)]), "{text}");
        let sum = |from: usize, to: usize| slots.iter().filter_map(|line| number(line, from, to)).sum::<i64>();
        assert_eq!((sum(8, 9), sum(20, 27)), (sites.len() as i64, length), "{text}");
        lawful[usize::from(words[0] >> 27 & 1 == 1)] += 1;
        on_backbone += sites.iter().filter(|line| line[15..23].trim() == "0").count();
        charged += usize::from(stored.sheet.charge() > Some(0));
    }
    assert!(lawful.iter().all(|count| *count > 1_000), "{lawful:?}");
    assert!(on_backbone > 1_000 && charged > 1_000, "{on_backbone} {charged}");
}
