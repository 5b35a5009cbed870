//! One work area for many sheets gives what a fresh one gives.

use backbone::{lay_out, read, NotLaidOut, WorkArea};
use model::random::{any_list, medium_sheet, small_sheet, Random};

#[test]
fn one_area_serves_many_sheets() {
    let mut random = Random::new(94);
    let mut area = WorkArea::new();
    for round in 0..20_000 {
        let words = match round % 10 {
            0 => any_list(&mut random),
            1 => medium_sheet(&mut random).words(),
            _ => small_sheet(&mut random).words(),
        };
        // The largest take a second each.
        if read(&words).is_ok_and(|sizes| sizes.work_words > 200_000) {
            continue;
        }
        assert_eq!(area.lay_out(&words), lay_out(&words).map_err(NotLaidOut::Refused), "{words:x?}");
    }
}

#[test]
fn missing_memory_is_told_in_words_and_megabytes() {
    let text = NotLaidOut::NoMemory { words: 427_680_000 }.to_string();
    assert_eq!(text, "no memory for the work area: 427680000 words, 1711 megabytes, are needed");
}
