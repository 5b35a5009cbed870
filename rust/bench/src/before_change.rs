//! The judge beside that of before a change, both called in the same way.

use crate::sheets::{judged, most_strokes, unlawful, wide_bars, Named, NamedStored};
use crate::timing::{quotient, race, show};
use before::{Library, Verdict};
use std::hint::black_box;

/// The stored sheets of the judge's table and the largest ones, each with the least rule that it breaks, or 0.
fn stored_sheets(named: &[Named]) -> Vec<(u8, NamedStored)> {
    let lawful = judged(named).into_iter().chain([most_strokes(), wide_bars()]);
    lawful.map(|stored| (0, stored)).chain(unlawful()).collect()
}

/// The times on each stored sheet, and the mean of their ratios.
pub fn print(named: &[Named], before: &Library) {
    println!("\n## The judge before a change\n");
    println!("| stored sheet | n | m | library | before | library / before |");
    println!("|---|---|---|---|---|---|");
    let library = Library::linked();
    let mut ratios = Vec::new();
    for (rule, NamedStored { name, sheet, words }) in stored_sheets(named) {
        let expected = Verdict { refusal: 0, rule };
        let [time, old_time] =
            race([&mut || assert_eq!(library.judge(black_box(&words)), expected, "the library: {name}"), &mut || {
                assert_eq!(before.judge(black_box(&words)), expected, "the library of before: {name}")
            }]);
        let ratio = quotient(time, old_time);
        let (sites, slots) = (sheet.sites.len(), sheet.slots.len());
        println!("| {name} | {sites} | {slots} | {} | {} | {ratio:.2} |", show(time), show(old_time));
        ratios.push(ratio);
    }
    println!("\nIn the mean library / before is {:.2}.", ratios.iter().sum::<f64>() / ratios.len() as f64);
}
