//! The program on random bytes: it ends, it crashes on none, and it prints what a plain one prints.

#[path = "../../backbone/tests/common/mod.rs"]
mod common;

use common::vectors::cases;
use common::SHEET_A;
use model::program::{prints, MOST_BYTES};
use model::random::{any_list, damage, small_sheet, Random};
use program::repeated::{self, Server};
use program::started::{with_runner, with_runners, Runner};
use std::path::Path;

const INPUTS: usize = 200_000;
/// One in so many inputs is also given to the program as the system starts it.
const STARTED: usize = 50;
/// The inputs are shared out among threads, each with its own seed: more than processors, so that none is idle
/// while a thread waits for its program.
const SEEDS: [u64; 4] = [41, 42, 43, 44];

/// Refusals to 18, and 0 for a layout.
const ANSWERS: usize = 19;

fn bytes(words: &[u32]) -> Vec<u8> {
    words.iter().flat_map(|word| word.to_le_bytes()).collect()
}

/// Noise, sheets, damaged sheets, lists of any sort, and lengths on both sides of the limit.
fn any_input(random: &mut Random) -> Vec<u8> {
    let noise = |count: u32, random: &mut Random| (0..count).map(|_| random.word() as u8).collect();
    let mut input: Vec<u8> = match random.below(8) {
        0 => {
            let count = random.below(64);
            noise(count, random)
        }
        1 => {
            let count = random.between(MOST_BYTES as u32 - 5, MOST_BYTES as u32 + 5);
            [bytes(&[0x10008008]), noise(count - 4, random)].concat()
        }
        2 | 3 => bytes(&any_list(random)),
        4 => {
            let mut words = small_sheet(random).words();
            damage(&mut words, random);
            bytes(&words)
        }
        _ => bytes(&small_sheet(random).words()),
    };
    if random.one_in(16) {
        input.truncate(input.len().saturating_sub(random.between(1, 3) as usize));
    }
    input
}

/// Runs the program on some inputs beside the plain one, and counts refusals and, at 0, layouts.
fn compare(server: &Path, runner: &Runner, inputs: usize, seed: u64) -> [usize; ANSWERS] {
    let mut server = Server::start(server).expect("the server starts");
    let mut random = Random::new(seed);
    let mut met = [0; ANSWERS];
    for number in 0..inputs {
        let input = any_input(&mut random);
        let expected = prints(&input);
        assert_eq!(server.run(&input).as_deref(), Ok(&expected[..]), "{input:x?}");
        if number % STARTED == 0 {
            assert_eq!(runner.run(&input).as_deref(), Ok(&expected[..]), "{input:x?}");
        }
        let refusal = expected
            .strip_prefix("refused ")
            .map_or(0, |number| number.trim_end().parse::<usize>().expect("a refusal has a number"));
        met[refusal] += 1;
    }
    assert!(server.end().is_ok_and(|status| status.success()));
    met
}

#[test]
fn random_bytes() {
    let server = repeated::build(Path::new(env!("CARGO_TARGET_TMPDIR")));
    let share = INPUTS.div_ceil(SEEDS.len());
    let met = with_runners(SEEDS.len(), |index, runner| compare(&server, runner, share, SEEDS[index]));
    let times = |refusal: usize| met.iter().map(|met| met[refusal]).sum::<usize>();
    // All answers but 9, which 33 answer words shut out, and those of other operations.
    let rare = (0..=12).chain([18]).filter(|refusal| ![9, 11].contains(refusal) && times(*refusal) < INPUTS / 1000);
    assert_eq!(rare.count(), 0, "{met:?}");
}

#[test]
fn sheet_a_is_printed_as_drawn() {
    with_runner(|runner| {
        let drawn = "labels 2 length 19\nsite 0 colour 0 slot 0\nsite 1 colour 0 slot 0\nsite 2 colour 1 slot 2\n";
        assert_eq!(runner.run(&bytes(&SHEET_A)).as_deref(), Ok(drawn));
    });
}

/// Its three sites are off their backbones, so a charge of 5 adds 15; a second charge is refused.
#[test]
fn sheet_a_with_a_charge() {
    with_runner(|runner| {
        let lines = "labels 2 length 34\nsite 0 colour 0 slot 0\nsite 1 colour 0 slot 0\nsite 2 colour 1 slot 2\n";
        let charged = [&SHEET_A[..1], &[0x50000005], &SHEET_A[1..]].concat();
        assert_eq!(runner.run(&bytes(&charged)).as_deref(), Ok(lines));
        let twice = [&charged[..2], &charged[1..]].concat();
        assert_eq!(runner.run(&bytes(&twice)).as_deref(), Ok("refused 2\n"));
        assert_eq!(runner.run(&bytes(&charged[1..])).as_deref(), Ok("refused 1\n"));
    });
}

/// The tip at (4, 2) of document 01's layout is too near the site (2, 4), by document 02.
#[test]
fn sheet_a_with_gap_3() {
    with_runner(|runner| {
        let wider = [&[0x1000C008], &SHEET_A[1..]].concat();
        assert_eq!(runner.run(&bytes(&wider)).as_deref(), Ok("refused 10\n"));
    });
}

/// The lines of the program in vectors.txt, where / stands for a line feed and the last one is left out.
#[test]
fn vectors_are_printed() {
    with_runner(|runner| {
        let lines: Vec<_> = cases().into_iter().filter(|case| case.operation == "program").collect();
        for case in &lines {
            let expected = case.answer.replace('/', "\n") + "\n";
            assert_eq!(runner.run(&bytes(&case.words)).as_deref(), Ok(&expected[..]), "line {}", case.line);
        }
        assert!(lines.len() > 100, "{}", lines.len());
    });
}

#[test]
fn inputs_that_are_no_list_of_words() {
    with_runner(|runner| {
        let head_and = |zeros: usize| [bytes(&[0x10008008]), vec![0; zeros]].concat();
        assert_eq!(runner.run(&head_and(1021)).as_deref(), Ok("refused 12\n"));
        assert_eq!(runner.run(&head_and(1024)).as_deref(), Ok("refused 12\n"));
        assert_eq!(runner.run(&head_and(100_000)).as_deref(), Ok("refused 12\n"));
        assert_eq!(runner.run(&head_and(1)).as_deref(), Ok("refused 12\n"));
        assert_eq!(runner.run(&head_and(1020)).as_deref(), Ok("refused 2\n"));
        assert_eq!(runner.run(&[]).as_deref(), Ok("refused 1\n"));
    });
}

/// Refused with 18, also where the work words of the one-sided sheet would not suffice.
#[test]
fn two_sided_sheets() {
    with_runner(|runner| {
        let two_sided = |sheet: &[u32]| [&[sheet[0] | 1 << 27], &sheet[1..]].concat();
        assert_eq!(runner.run(&bytes(&two_sided(&SHEET_A))).as_deref(), Ok("refused 18\n"));
        let slots: Vec<u32> = (0..48).map(|height| 2 << 28 | height).collect();
        let large = [&[0x10004001], &slots[..], &[0x3000003F]].concat();
        assert_eq!(runner.run(&bytes(&large)).as_deref(), Ok("refused 8\n"));
        assert_eq!(runner.run(&bytes(&two_sided(&large))).as_deref(), Ok("refused 18\n"));
    });
}

/// The program has 16,384 work words: one sheet needs just these, the other four times as many.
#[test]
fn sheets_on_both_sides_of_the_work_area() {
    with_runner(|runner| {
        let slots: Vec<u32> = (0..6).map(|slot| (2 << 28) | (10 * slot)).collect();
        let sheet = |colours: &[u32], sites: u32| {
            let sites: Vec<u32> = (0..sites).map(|x| 4 << 28 | x << 14 | 5).collect();
            [&[0x10004030], &slots[..], colours, &sites].concat()
        };
        // 64 x 4 x 4 x 16 and 64 x 4 x 17 x 4.
        let just = sheet(&[0x3000000F], 3);
        let over = sheet(&[0x30000003], 16);
        assert_eq!(backbone::read(&just).map(|sizes| sizes.work_words), Ok(16384));
        assert!(runner.run(&bytes(&just)).is_ok_and(|text| text.starts_with("labels 1 ")));
        assert_eq!(runner.run(&bytes(&over)).as_deref(), Ok("refused 8\n"));
    });
}
