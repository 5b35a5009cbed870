//! The rows of the programs, held to the rules and to the costs of layouts, without a solver.

use super::Program;
use model::random::{small_sheet, Random};
use model::rules::Ties;
use model::sheet::{read, Sheet};
use std::collections::HashMap;

/// Two sites and two slots, shortest: a label weighs 1, a unit of length 3. Site 0 at (2,4) is the first by x; a drop of 2
/// costs 3 * (2 + 5) with the charge, one of 0 nothing.
#[test]
fn the_cost_of_a_tie_has_the_charge() {
    let words = [0x14008008, 0x50000005, 0x20000002, 0x20000004, 0x300000FF, 0x40008004, 0x40018005];
    let sheet = read(&words).expect("a sheet");
    let program = Program::new(&sheet).text();
    let costs = program.lines().take_while(|line| *line != "Subject To").collect::<Vec<_>>().join(" ");
    for term in [" + 21 tie_0_0 ", " + 0 tie_0_1 ", " + 24 tie_1_0 ", " + 18 tie_1_1 "] {
        assert!(costs.contains(term), "{term}: {costs}");
    }
    // Both sites at slot 1: a label, 8 - 2 for its backbone, and 1 + 5 for site 1.
    assert_eq!(Program::new(&sheet).numbers(f64::from(3 * (6 + 6) + 1)), (1, 12));
    assert_eq!(Ties::new(&sheet, &[1, 1]).numbers(), (1, 12));
}

/// The least values of the variables with these ties.
fn values(sheet: &Sheet, slot_of: &[usize]) -> HashMap<String, i64> {
    let order = sheet.by_x();
    let of_slot = |slot: usize| {
        let is_tied = |site: &usize| slot_of[*site] == slot;
        let is_used = |colour| order.iter().any(|site| is_tied(site) && sheet.sites[*site].colour == colour);
        let ties = order.iter().map(|site| (format!("tie_{site}_{slot}"), is_tied(site)));
        let open = (0..order.len()).map(|rank| (format!("open_{rank}_{slot}"), order[..=rank].iter().any(is_tied)));
        let used = (0..sheet.bounds.len()).map(|colour| (format!("used_{slot}_{colour}"), is_used(colour)));
        ties.chain(open).chain(used).map(|(name, is_1)| (name, i64::from(is_1))).collect::<Vec<_>>()
    };
    (0..sheet.slots.len()).flat_map(of_slot).collect()
}

/// A sum of terms, each a sign, a factor that may be left out, and a variable.
fn sum<'a>(words: impl Iterator<Item = &'a str>, values: &HashMap<String, i64>) -> i64 {
    let (mut total, mut factor) = (0, 1);
    for word in words {
        match word {
            "+" => factor = 1,
            "-" => factor = -1,
            _ => match word.parse::<i64>() {
                Ok(number) => factor *= number,
                Err(_) => total += factor * values[word],
            },
        }
    }
    total
}

/// Whether a row `sum >= number`, `sum <= number` or `sum = number` holds.
fn holds(row: &str, values: &HashMap<String, i64>) -> bool {
    let (left, right) = row.rsplit_once(' ').expect("a row ends with a number");
    let (left, sign) = left.rsplit_once(' ').expect("a row has a sign");
    let (left, right) = (sum(left.split_whitespace(), values), right.parse::<i64>().expect("a number"));
    match sign {
        ">=" => left >= right,
        "<=" => left <= right,
        _ => left == right,
    }
}

/// For every layout of a sheet: its rows hold exactly where rules 1 to 5 do, and then the objective is its cost.
fn hold_to_rules(sheet: &Sheet, met: &mut [usize; 3]) {
    let text = Program::new(sheet).text();
    let (objective, rows) = text.split_once("Subject To\n").expect("an objective and rows");
    let rows: Vec<&str> = rows.lines().take_while(|line| *line != "Binary").collect();
    let (slots, sites) = (sheet.slots.len(), sheet.sites.len() as u32);
    for number in 0..slots.pow(sites) {
        let slot_of: Vec<usize> = (0..sites).map(|site| number / slots.pow(site) % slots).collect();
        let (values, ties) = (values(sheet, &slot_of), Ties::new(sheet, &slot_of));
        assert_eq!(rows.iter().all(|row| holds(row, &values)), ties.broken() == 0, "{sheet:?} {slot_of:?}");
        met[0] += usize::from(ties.broken() == 0);
        met[1] += usize::from(ties.broken() > 0);
        met[2] += usize::from(ties.broken() == 5 && ties.broken_but_for_tips() == 0);
        if ties.broken() == 0 {
            let cost = sum(objective.split_whitespace().skip(2), &values);
            assert_eq!(Program::new(sheet).numbers(cost as f64), ties.numbers(), "{sheet:?} {slot_of:?}");
        }
    }
}

#[test]
fn rows_hold_where_the_rules_do() {
    let mut random = Random::new(74);
    let mut met = [0; 3];
    for _ in 0..400 {
        let sheet = small_sheet(&mut random).one_sided();
        if !sheet.sites.is_empty() && sheet.slots.len().pow(sheet.sites.len() as u32) <= 256 {
            hold_to_rules(&sheet, &mut met);
        }
    }
    assert!(met.iter().all(|count| *count > 100), "lawful, unlawful, at a tip alone: {met:?}");
}
