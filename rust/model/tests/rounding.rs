//! The rival that rounds: without rounding it is as good as the maker, and with rounding it is lawful and worse at times.

use model::maker::make;
use model::random::{medium_sheet, small_sheet, Random};
use model::ranked::rank;
use model::rounding::{lay_out, rounded_length, Rounding, Unserved};
use model::rules::Ties;
use model::search;
use model::sheet::{Sheet, MOST_CHARGE};

fn made(sheet: &Sheet) -> Option<Vec<usize>> {
    let mut work = vec![0; sheet.work_words() as usize];
    let mut answer = vec![0; sheet.sites.len() + 1];
    let is_made = make(&sheet.words(), &mut work, &mut answer) == 0;
    is_made.then(|| answer[1..].iter().map(|word| (word & 0xFF) as usize).collect())
}

fn numbers(sheet: &Sheet, slot_of: &[usize]) -> (u32, u32) {
    Ties::new(sheet, slot_of).numbers()
}

/// Small and medium one-sided sheets, bounded and not, with both aims.
fn sheets(count: usize, seed: u64) -> impl Iterator<Item = Sheet> {
    let mut random = Random::new(seed);
    let draw = |index, random: &mut Random| if index % 3 == 0 { medium_sheet(random) } else { small_sheet(random) };
    (0..count).map(move |index| draw(index, &mut random).one_sided())
}

#[test]
fn without_rounding_it_is_as_good_as_the_maker() {
    let mut bounded = 0;
    for sheet in sheets(12_000, 171) {
        let best = made(&sheet);
        let rival = lay_out(&sheet, Rounding::None);
        match (&best, &rival) {
            (None, Err(Unserved::NoLayout)) => {}
            (Some(best), Ok(rival)) => {
                assert_eq!(numbers(&sheet, rival), numbers(&sheet, best), "{sheet:?}");
                assert_eq!(Ties::new(&sheet, rival).broken(), 0, "{sheet:?}");
                let length = u64::from(numbers(&sheet, best).1);
                assert_eq!(rounded_length(&sheet, best, Rounding::None), Ok(length));
                bounded += usize::from(sheet.budgets() > 1);
            }
            _ => panic!("{best:?} {rival:?} {sheet:?}"),
        }
    }
    assert!(bounded > 1_500, "{bounded}");
}

#[test]
fn with_rounding_it_is_lawful_and_no_worse_by_its_own_sums() {
    for rounding in [Rounding::TenthMillimetre, Rounding::TenthPoint] {
        let mut worse = 0;
        for sheet in sheets(15_000, 172) {
            let Some(best) = made(&sheet) else { continue };
            let rival = lay_out(&sheet, rounding).expect("there is a layout");
            assert_eq!(Ties::new(&sheet, &rival).broken(), 0, "{sheet:?}");
            if sheet.shortest {
                let by_its_sums = |slot_of| rounded_length(&sheet, slot_of, rounding).expect("it is lawful");
                assert!(by_its_sums(&rival) <= by_its_sums(&best), "{sheet:?}");
            }
            assert!(!sheet.shortest || numbers(&sheet, &rival).1 >= numbers(&sheet, &best).1);
            worse += usize::from(numbers(&sheet, &rival) != numbers(&sheet, &best));
        }
        assert!(worse > 20, "{worse}");
    }
}

/// Where every length is a whole number of steps, nothing is rounded away: 4 units are 5 tenths of a point.
#[test]
fn rounding_alone_makes_it_worse() {
    for mut sheet in sheets(5_000, 173).filter(|sheet| sheet.width < 1000) {
        sheet.width *= 4;
        sheet.gap *= 4;
        sheet.charge = sheet.charge.map(|charge| 4 * charge.min(MOST_CHARGE / 4));
        sheet.slots.iter_mut().for_each(|height| *height *= 4);
        sheet.sites.iter_mut().for_each(|site| (site.x, site.y) = (site.x * 4, site.y * 4));
        let Some(best) = made(&sheet) else { continue };
        let rival = lay_out(&sheet, Rounding::TenthPoint).expect("there is a layout");
        assert_eq!(numbers(&sheet, &rival), numbers(&sheet, &best), "{sheet:?}");
    }
}

/// One label of length 10 from (0, 5): 10 units are 0.44 mm, and 14 units 0.62 mm, or 1.75 points.
#[test]
fn lengths_are_rounded_to_the_nearest_tenth() {
    let words = [0x1000_400A, 0x2000_0005, 0x3000_00FF, 0x4000_0005];
    let sheet = model::sheet::read(&words).expect("a sheet");
    assert_eq!(rounded_length(&sheet, &[0], Rounding::TenthMillimetre), Ok(4));
    assert_eq!(rounded_length(&sheet, &[0], Rounding::TenthPoint), Ok(13), "1.25 points, the half up");
    let longer = Sheet { width: 14, ..sheet };
    assert_eq!(rounded_length(&longer, &[0], Rounding::TenthMillimetre), Ok(6));
    assert_eq!(rounded_length(&longer, &[0], Rounding::TenthPoint), Ok(18), "1.75 points, the half up");
    assert_eq!(rounded_length(&longer, &[0], Rounding::None), Ok(14));
}

/// The same label at slot 6, a drop of 1 with a charge of 3: 10 + 1 + 3 units are 0.62 mm.
#[test]
fn charges_are_rounded_with_the_drops() {
    let words = [0x1000_400A, 0x5000_0003, 0x2000_0005, 0x2000_0006, 0x3000_00FF, 0x4000_0005];
    let sheet = model::sheet::read(&words).expect("a sheet");
    assert_eq!(rounded_length(&sheet, &[1], Rounding::TenthMillimetre), Ok(6));
    assert_eq!(rounded_length(&sheet, &[1], Rounding::None), Ok(14));
    assert_eq!(rounded_length(&sheet, &[0], Rounding::None), Ok(10), "on its backbone it is not charged");
}

#[test]
fn two_sided_sheets_are_not_served() {
    let sheet = model::sheet::read(&[0x1800_8008]).expect("a sheet");
    assert_eq!(lay_out(&sheet, Rounding::None), Err(Unserved::TwoSided));
}

/// The search that leaves a branch early finds what the search over all layouts finds.
#[test]
fn ranked_search_agrees_with_the_search_over_all_layouts() {
    let mut random = Random::new(174);
    let mut with_second = 0;
    for _ in 0..4_000 {
        let sheet = small_sheet(&mut random);
        let ranked = rank(&sheet, u64::MAX).expect("it has all the steps that it needs");
        let found = search::find(&sheet);
        assert_eq!(ranked.is_some(), found.is_some(), "{sheet:?}");
        let (Some(ranked), Some(found)) = (ranked, found) else { continue };
        assert_eq!((&ranked.slot_of, ranked.equals), (&found.slot_of, found.equals as u64), "{sheet:?}");
        assert_eq!(ranked.best, numbers(&sheet, &found.slot_of));
        assert_eq!(ranked.second, second_of_all(&sheet, ranked.best), "{sheet:?}");
        with_second += usize::from(ranked.second.is_some());
    }
    assert!(with_second > 500, "{with_second}");
}

#[test]
fn ranked_search_gives_up_when_its_steps_are_used() {
    let words = [0x1000_8008, 0x2000_0002, 0x2000_0005, 0x3000_00FF, 0x4000_8004];
    let sheet = model::sheet::read(&words).expect("a sheet of two slots and one site");
    assert_eq!(rank(&sheet, 1), None);
    let ranked = rank(&sheet, 2).flatten().expect("two steps suffice");
    assert_eq!((ranked.slot_of, ranked.best, ranked.second), (vec![1], (1, 7), Some((1, 8))));
}

/// The numbers next after the best ones, over all layouts there are.
fn second_of_all(sheet: &Sheet, best: (u32, u32)) -> Option<(u32, u32)> {
    let (slots, sites) = (sheet.slots.len(), sheet.sites.len() as u32);
    let ties = |number: usize| (0..sites).map(|site| number / slots.pow(site) % slots).collect::<Vec<usize>>();
    let all = (0..slots.pow(sites)).map(ties).filter(|slot_of| Ties::new(sheet, slot_of).broken() == 0);
    let others = all.map(|slot_of| numbers(sheet, &slot_of)).filter(|other| *other != best);
    others.min_by_key(|(count, length)| if sheet.shortest { (*length, *count) } else { (*count, *length) })
}
