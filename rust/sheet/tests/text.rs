//! Every list of words survives the way through its text; errors say where they are.

use model::random::{any_list, any_word, damage, small_sheet, Random};
use model::rules::layout_words;
use sheet::{encode, show};

#[test]
fn lists_of_words_survive_the_text() {
    let mut random = Random::new(71);
    for _ in 0..50_000 {
        let mut words = any_list(&mut random);
        words.push(any_word(&mut random));
        assert_eq!(encode(&show(&words)), Ok(words));
    }
}

#[test]
fn stored_sheets_survive_the_text() {
    let mut random = Random::new(72);
    for _ in 0..20_000 {
        let sheet = small_sheet(&mut random);
        let slots = sheet.slots.len().max(1) as u32;
        let slot_of: Vec<usize> = sheet.sites.iter().map(|_| random.below(slots) as usize).collect();
        let mut stored = sheet.words();
        if !sheet.slots.is_empty() {
            stored.extend(layout_words(&sheet, &slot_of));
        }
        let text = show(&stored);
        assert!(!text.contains("0x"), "every word has a name: {text}");
        assert_eq!(encode(&text), Ok(stored.clone()));
        damage(&mut stored, &mut random);
        assert_eq!(encode(&show(&stored)), Ok(stored));
    }
}

#[test]
fn names_of_all_words() {
    let text = "\
head two-sided shortest gap 4095 width 16383
charge 16383
slot 0
colour bound 2
site 6 4
colour unbounded
layout labels 2 length 19
tie 47
charge 0
0x50004000
0x60000001
";
    let words = [
        0x1FFFFFFF, 0x50003FFF, 0x20000000, 0x30000002, 0x40018004, 0x300000FF, 0x80400013, 0x9000002F, 0x50000000,
        0x50004000, 0x60000001,
    ];
    assert_eq!(encode(text).as_deref(), Ok(&words[..]));
    assert_eq!(show(&words), text);
}

#[test]
fn blanks_and_remarks_are_left_out() {
    let text = "# a sheet\n\n  head one-sided\tfewest gap 2 width 8  # its head\n \nslot 05\r\ncolour bound 255\n";
    assert_eq!(encode(text), Ok(vec![0x10008008, 0x20000005, 0x300000FF]));
}

#[test]
fn errors_say_where_they_are() {
    let at = |text: &str| encode(text).map_err(|error| (error.line, error.column));
    assert_eq!(at("slot 5\n\nslto 5"), Err((3, 1)));
    assert_eq!(at("charge"), Err((1, 7)));
    assert_eq!(at("charge 16384"), Err((1, 8)));
    assert_eq!(at("charge -1"), Err((1, 8)));
    assert_eq!(at("charge 5 \"name\""), Err((1, 10)));
    assert_eq!(at("slot"), Err((1, 5)));
    assert_eq!(at("slot  # none"), Err((1, 5)));
    assert_eq!(at("slot 16384"), Err((1, 6)));
    assert_eq!(at("slot -1"), Err((1, 6)));
    assert_eq!(at("slot +1"), Err((1, 6)));
    assert_eq!(at("slot 99999999999999999999"), Err((1, 6)));
    assert_eq!(at("slot 5 6"), Err((1, 8)));
    assert_eq!(at("  site 16384 4"), Err((1, 8)));
    assert_eq!(at("site 4\t16384"), Err((1, 8)));
    assert_eq!(at("head one-sided gap 2 width 8"), Err((1, 16)));
    assert_eq!(at("head one-sided fewest gap 0 width 8"), Err((1, 27)));
    assert_eq!(at("head one-sided fewest gap 2 width 0"), Err((1, 35)));
    assert_eq!(at("colour 2"), Err((1, 8)));
    assert_eq!(at("colour bound 256"), Err((1, 14)));
    assert_eq!(at("tie 256"), Err((1, 5)));
    assert_eq!(at("layout labels 128 length 0"), Err((1, 15)));
    assert_eq!(at("layout labels 0 length 2097152"), Err((1, 24)));
    assert_eq!(at("0x"), Err((1, 1)));
    assert_eq!(at("0x123456789"), Err((1, 1)));
    assert_eq!(at("0x+1234567"), Err((1, 1)));
}

#[test]
fn errors_say_what_is_wrong() {
    let message = |text: &str| encode(text).unwrap_err().to_string();
    assert_eq!(message("slot 20000"), "line 1, column 6: height must be from 0 to 16383, not '20000'");
    assert_eq!(message("charge 16384"), "line 1, column 8: charge must be from 0 to 16383, not '16384'");
    assert_eq!(message("head both fewest"), "line 1, column 6: one-sided or two-sided should stand here, not 'both'");
    assert_eq!(message("site 4"), "line 1, column 7: y is missing");
}
