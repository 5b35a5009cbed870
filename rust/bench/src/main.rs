//! Times the library beside the same algorithm in safe Rust, a search over all layouts, and an exact integer
//! program. Writes Markdown to standard output.
//!
//! Answers are compared as they come: where two differ, the run ends with an error. Sections are left out by naming
//! those that are wanted: maker, growth, program, judge, twin, strokes, page. A further one, before, is taken only if it is
//! named: it times the judge beside the library of before a change, which `BACKBONE_BEFORE` names (see `before`).

mod before_change;
mod integer_program;
mod machine;
mod process;
mod sheets;
mod timing;
mod word_loops;

use before::Library;
use integer_program::{Outcome, Solver};
use model::program::WORK_WORDS;
use model::sheet::Sheet;
use model::{maker, page, rules, search, strokes, twin};
use sheets::{Named, NamedStored};
use std::hint::black_box;
use std::process::ExitCode;
use std::time::Duration;
use timing::{quotient, race, show, timed};

/// A search over more layouts is not begun.
const MOST_LAYOUTS: f64 = 2e7;

/// The areas that both makers are given. They are written to, so that no rival pays for fresh memory.
struct Areas {
    work: Vec<u32>,
    answer: Vec<u32>,
}

impl Areas {
    fn new(sheet: &Sheet, work_words: usize) -> Areas {
        Areas { work: vec![1; work_words], answer: vec![1; sheet.sites.len() + 1] }
    }
}

/// The best layout and the times of the library and of plain Rust, in the work words that the sheet needs.
fn race_makers(sheet: &Sheet) -> (Vec<u32>, Duration, Duration) {
    race_makers_in(sheet, sheet.work_words() as usize)
}

fn race_makers_in(sheet: &Sheet, work_words: usize) -> (Vec<u32>, Duration, Duration) {
    let words = sheet.words();
    let mut areas = Areas::new(sheet, work_words);
    let mut plain_areas = Areas { work: Vec::new(), answer: areas.answer.clone() };
    // One work area for both, since the largest is 1.7 GB.
    let work = std::cell::RefCell::new(std::mem::take(&mut areas.work));
    let [library, plain] = race([
        &mut || assert_eq!(backbone::make(&words, &mut work.borrow_mut(), &mut areas.answer), Ok(())),
        &mut || assert_eq!(maker::make(&words, &mut work.borrow_mut(), &mut plain_areas.answer), 0),
    ]);
    assert_eq!(areas.answer, plain_areas.answer, "the library and plain Rust differ: {sheet:?}");
    (areas.answer, library, plain)
}

fn ratio(time: Duration, other: Duration) -> String {
    format!("{:.2}", quotient(time, other))
}

/// Times beside the library's, as "time (times as long)".
fn beside(time: Duration, library: Duration) -> String {
    format!("{} ({:.0}x)", show(time), quotient(time, library))
}

fn search_cell(sheet: &Sheet, answer: &[u32], library: Duration) -> String {
    if search::layouts(sheet) > MOST_LAYOUTS {
        return "-".to_string();
    }
    let (found, time) = timed(|| search::best(sheet));
    assert_eq!(found.as_deref(), Some(answer), "the library and the search differ: {sheet:?}");
    beside(time, library)
}

fn solver_cell(solver: &Solver, sheet: &Sheet, answer: &[u32], library: Duration) -> String {
    let stated = (answer[0] >> 21 & 0x7F, answer[0] & 0x1F_FFFF);
    match solver.solve(sheet) {
        Outcome::Solved { labels, length, time } => {
            assert_eq!((labels, length), stated, "the library and the integer program differ: {sheet:?}");
            beside(time, library)
        }
        Outcome::OutOfTime => format!("over {} s", integer_program::SECONDS),
        Outcome::Failed(message) => panic!("{}: {message}", solver.name()),
    }
}

fn print_makers(named: &[Named], solvers: &[Solver]) {
    println!("## The layout maker\n");
    let columns: String = solvers.iter().map(|solver| format!(" {} |", solver.name())).collect();
    println!("| sheet | n | m | C | P | work words | library | safe Rust | library / Rust | search |{columns}");
    println!("|---|---|---|---|---|---|---|---|---|---|{}", "---|".repeat(solvers.len()));
    for Named { name, sheet } in named {
        let (answer, library, plain) = race_makers(sheet);
        let mut row = format!("| {name} {}| {} | {} |", sizes(sheet), show(library), show(plain));
        row += &format!(" {} | {} |", ratio(library, plain), search_cell(sheet, &answer, library));
        for solver in solvers {
            row += &format!(" {} |", solver_cell(solver, sheet, &answer, library));
        }
        println!("{row}");
    }
}

/// n, m, C, P and the work words.
fn sizes(sheet: &Sheet) -> String {
    let counts = [sheet.sites.len(), sheet.slots.len(), sheet.bounds.len(), sheet.budgets() as usize];
    let counts: String = counts.iter().map(|count| format!("| {count} ")).collect();
    format!("{counts}| {} ", sheet.work_words())
}

fn print_growth() {
    println!("\n## Growth\n");
    println!("| what grows | n | m | C | P | work words | library | safe Rust | library / Rust |");
    println!("|---|---|---|---|---|---|---|---|---|");
    for Named { name, sheet } in sheets::growing() {
        let (_, library, plain) = race_makers(&sheet);
        let times = format!("{} | {} | {}", show(library), show(plain), ratio(library, plain));
        println!("| {name} {}| {times} |", sizes(&sheet));
    }
}

fn print_judges(named: &[Named]) {
    println!("\n## The judge\n");
    println!("| stored sheet | n | m | library | loops over words in Rust | library / loops over words | decoding judge | library / decoding |");
    println!("|---|---|---|---|---|---|---|---|");
    for NamedStored { name, sheet, words: stored } in sheets::judged(named) {
        let [library, loops, decoding] = race([
            &mut || assert_eq!(backbone::judge(black_box(&stored)), Ok(None)),
            &mut || assert_eq!(word_loops::judge(black_box(&stored)), (0, 0)),
            &mut || assert_eq!(rules::judge(black_box(&stored)), (0, 0)),
        ]);
        let (sites, slots) = (sheet.sites.len(), sheet.slots.len());
        let beside = |rival: Duration| format!("{} | {}", show(rival), ratio(library, rival));
        println!("| {name} | {sites} | {slots} | {} | {} | {} |", show(library), beside(loops), beside(decoding));
    }
}

/// The head of a table of a tool over stored sheets, of which each answer has a size.
fn print_tool(title: &str, size: &str) {
    println!("\n## {title}\n");
    println!("| stored sheet | n | m | {size} | library | safe Rust | library / Rust |");
    println!("|---|---|---|---|---|---|---|");
}

/// A row of such a table.
fn print_stored(NamedStored { name, sheet, .. }: &NamedStored, size: usize, [library, plain]: [Duration; 2]) {
    let (sites, slots) = (sheet.sites.len(), sheet.slots.len());
    let times = format!("{} | {} | {}", show(library), show(plain), ratio(library, plain));
    println!("| {name} | {sites} | {slots} | {size} | {times} |");
}

fn print_twins() {
    print_tool("The twin", "words");
    for stored in sheets::two_sided() {
        let words = &stored.words;
        let (mut area, mut plain_area) = (vec![1; words.len()], vec![1; words.len()]);
        let times =
            race([&mut || assert_eq!(backbone::twin(black_box(words), &mut area), Ok(words.len())), &mut || {
                assert_eq!(twin::twin(black_box(words), &mut plain_area), (0, words.len()))
            }]);
        assert_eq!(area, plain_area, "the library and plain Rust differ: {}", stored.name);
        print_stored(&stored, words.len(), times);
    }
}

/// All strokes of a stored sheet, asked for one by one as a viewer does, until there are no more.
fn print_strokes() {
    print_tool("The strokes", "strokes");
    for stored in sheets::drawn() {
        let words = &stored.words;
        let (mut found, mut plain_found) = (Vec::new(), Vec::new());
        let times = race([
            &mut || {
                found.clear();
                found.extend((0..).map_while(|place| backbone::stroke_at(black_box(words), place).ok()))
            },
            &mut || {
                plain_found.clear();
                plain_found.extend((0..).map_while(|place| strokes::stroke_at(black_box(words), place).ok()))
            },
        ]);
        let plainly = |stroke: &backbone::Stroke| {
            let ([from, to], is_drop) = (stroke.ends(), matches!(stroke, backbone::Stroke::Drop { .. }));
            strokes::Stroke { is_drop, ends: [from.x, from.y, to.x, to.y] }
        };
        assert!(found.iter().map(plainly).eq(plain_found), "the library and plain Rust differ: {}", stored.name);
        print_stored(&stored, found.len(), times);
    }
}

fn print_pages() {
    print_tool("The page", "bytes");
    for stored in sheets::drawn() {
        let words = &stored.words;
        let bytes = page::text(words).map_or(0, |text| text.len());
        let (mut area, mut plain_area) = (vec![1; bytes], vec![1; bytes]);
        let times =
            race([&mut || assert_eq!(backbone::write_page(black_box(words), &mut area), Ok(bytes)), &mut || {
                assert_eq!(page::page(black_box(words), &mut plain_area), (0, bytes))
            }]);
        assert_eq!(area, plain_area, "the library and plain Rust differ: {}", stored.name);
        print_stored(&stored, bytes, times);
    }
}

/// The program's work area is the limit here, so these are the longest that a user of the program waits.
fn print_program() {
    println!("\n## The program's largest sheets\n");
    if !program::path().exists() {
        println!("The program is not built; `rt run` in crates/backbones makes it. Its times are left out.");
        return;
    }
    println!("| sheet | n | m | C | P | work words | library | safe Rust | library / Rust | whole process |");
    println!("|---|---|---|---|---|---|---|---|---|---|");
    for Named { name, sheet } in sheets::largest_of_program() {
        let (_, library, plain) = race_makers_in(&sheet, WORK_WORDS);
        let times = format!("{} | {} | {}", show(library), show(plain), ratio(library, plain));
        println!("| {name} {}| {times} | {} |", sizes(&sheet), show(process::time(&sheet)));
    }
}

/// The sections that need nothing but this repository.
fn print_sections(is_asked: impl Fn(&str) -> bool, named: &[Named]) {
    if is_asked("maker") {
        print_makers(named, &Solver::installed());
    }
    if is_asked("growth") {
        print_growth();
    }
    if is_asked("program") {
        print_program();
    }
    if is_asked("judge") {
        print_judges(named);
    }
    if is_asked("twin") {
        print_twins();
    }
    if is_asked("strokes") {
        print_strokes();
    }
    if is_asked("page") {
        print_pages();
    }
}

fn main() -> ExitCode {
    let asked: Vec<String> = std::env::args().skip(1).collect();
    let is_named = |section: &str| asked.iter().any(|name| name == section);
    // Loaded before anything is timed, so that a run does not end for want of it.
    let before = match is_named("before").then(Library::before).transpose() {
        Ok(before) => before,
        Err(why) => {
            eprintln!("{why}");
            return ExitCode::from(2);
        }
    };
    println!("{}\n", machine::heading());
    println!(
        "Each time is the least of several runs, library and Rust by turns; runs of a second or more are made once."
    );
    println!("The integer programs give the cost alone, not the first of the equals; their times have the solver's start in them.\n");
    let named = sheets::by_size();
    print_sections(|section| asked.is_empty() || is_named(section), &named);
    if let Some(before) = before {
        before_change::print(&named, &before);
    }
    ExitCode::SUCCESS
}
