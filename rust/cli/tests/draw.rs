//! `backbone draw` through the command itself: what it draws, what it refuses, and how it ends.

use std::path::{Path, PathBuf};
use std::process::{Command, Output};

fn example(name: &str) -> String {
    let path = Path::new(env!("CARGO_MANIFEST_DIR")).join("../../examples").join(name);
    path.to_string_lossy().into_owned()
}

fn draw(arguments: &[&str]) -> Output {
    Command::new(env!("CARGO_BIN_EXE_backbone")).arg("draw").args(arguments).output().unwrap()
}

fn picture(arguments: &[&str]) -> String {
    let run = draw(arguments);
    assert_eq!(run.status.code(), Some(0), "{arguments:?}: {}", String::from_utf8_lossy(&run.stderr));
    let text = String::from_utf8(run.stdout).unwrap();
    assert!(text.starts_with("<svg ") && text.ends_with("</svg>\n"));
    text
}

/// The exit code and what is said; nothing stands on standard output.
fn failure(arguments: &[&str]) -> (i32, String) {
    let run = draw(arguments);
    assert_eq!(run.stdout, b"", "{arguments:?}");
    (run.status.code().unwrap(), String::from_utf8(run.stderr).unwrap())
}

/// A folder of its own for one test, taken away at the end.
struct Folder(PathBuf);

impl Folder {
    fn new(name: &str) -> Folder {
        let folder = std::env::temp_dir().join(format!("backbone-draw-{name}-{}", std::process::id()));
        std::fs::create_dir_all(&folder).unwrap();
        Folder(folder)
    }

    fn file(&self, name: &str, text: &str) -> String {
        let path = self.0.join(name);
        std::fs::write(&path, text).unwrap();
        path.to_string_lossy().into_owned()
    }
}

impl Drop for Folder {
    fn drop(&mut self) {
        let _ = std::fs::remove_dir_all(&self.0);
    }
}

#[test]
fn the_tractor_is_drawn_as_in_the_folder() {
    let drawn = picture(&["--background", &example("tractor.background.svg"), &example("tractor.txt")]);
    assert_eq!(drawn, std::fs::read_to_string(example("tractor.svg")).unwrap());
}

#[test]
fn a_picture_goes_to_a_file() {
    let folder = Folder::new("file");
    let out = folder.0.join("a.svg");
    let run = draw(&[&example("a.txt"), "-o", &out.to_string_lossy()]);
    assert_eq!((run.status.code(), &run.stdout[..]), (Some(0), &b""[..]));
    assert_eq!(std::fs::read_to_string(&out).unwrap(), std::fs::read_to_string(example("a.svg")).unwrap());
    let (code, said) = failure(&[&example("a.txt"), "-o", &folder.0.join("none/a.svg").to_string_lossy()]);
    assert!(code == 3 && said.contains("a.svg"), "{said}");
}

#[test]
fn a_folder_is_drawn_whole() {
    let folder = Folder::new("all");
    for name in ["a.txt", "crossing.txt", "tractor.txt", "tractor.background.svg"] {
        folder.file(name, &std::fs::read_to_string(example(name)).unwrap());
    }
    let run = draw(&["--all", &folder.0.to_string_lossy()]);
    assert_eq!((run.status.code(), &run.stdout[..]), (Some(0), &b""[..]));
    for name in ["a.svg", "a.words", "crossing.svg", "crossing.words", "tractor.svg", "tractor.words"] {
        let made = std::fs::read_to_string(folder.0.join(name)).unwrap();
        assert_eq!(made, std::fs::read_to_string(example(name)).unwrap(), "{name}");
    }
    assert_eq!(failure(&["--all", &folder.0.to_string_lossy(), &example("a.txt")]).0, 2);
    assert_eq!(failure(&["--all", &folder.0.join("none").to_string_lossy()]).0, 3);
}

#[test]
fn two_layouts_are_compared() {
    let drawn = picture(&[&example("crossing.txt"), "--compare", &example("a.txt")]);
    // Site 2 goes to slot 1 in the one and to slot 2 in the other; the others are tied alike.
    assert!(drawn.contains("ties that differ: site 2<"), "{drawn}");
    assert!(drawn.contains("class=\"differs\" d=\"M4 5V5\"") && drawn.contains("class=\"differs\" d=\"M4 5V8\""));
    assert!(drawn.contains("rule 4 is broken: the vertical of site 1 meets the backbone at slot 1, at x 6"));
    let (code, said) = failure(&[&example("a.txt"), "--compare", &example("a_shortest.txt")]);
    assert!(code == 2 && said.contains("not of the same sheet"), "{said}");
    assert_eq!(failure(&[&example("a.txt"), "--compare", &example("a.txt"), "--rounded"]).0, 2);
}

#[test]
fn a_claim_that_there_is_no_layout_is_told() {
    let folder = Folder::new("claim");
    let sheet = |name: &str| std::fs::read_to_string(example(name)).unwrap() + "refused 10\n";
    let (false_claim, true_claim) =
        (folder.file("false.txt", &sheet("a.txt")), folder.file("true.txt", &sheet("no_layout.txt")));
    assert!(picture(&[&false_claim]).contains("says that there is no layout, which is false"));
    assert!(picture(&[&true_claim]).contains("says that there is no layout, which is true"));
    let beside = picture(&[&false_claim, "--compare", &example("a.txt")]);
    assert!(beside.contains("false.txt: no layout") && beside.matches("class=\"backbone\"").count() == 2);
}

#[test]
fn rounding_says_what_it_cannot_do() {
    let (code, said) = failure(&["--rounded", &example("a_two_sided.txt")]);
    assert!(code == 2 && said.contains("take the layout out of the file"), "{said}");
    let (code, said) = failure(&["--rounded", &example("no_layout.txt")]);
    assert!(code == 1 && said.contains("no layout (refused 10)"), "{said}");
    let (code, said) = failure(&["--rounded", &example("crossing.txt")]);
    assert!(code == 2 && said.contains("take the layout out of the file"), "{said}");
    let (code, said) = failure(&["--rounded", "--step", "0.2mm", &example("a.txt")]);
    assert!(code == 2 && said.contains("0.1mm, 0.1pt"), "{said}");
    // Bounds are served.
    let drawn = picture(&["--rounded", "--step", "0.1pt", &example("shared_bound.txt")]);
    assert!(drawn.contains("rounded to 0.1 pt at each cut"), "{drawn}");
}

/// With its layout a two-sided sheet is drawn as it is; without one there is none to draw.
#[test]
fn two_sided_sheets_are_drawn_with_their_layout() {
    let folder = Folder::new("two-sided");
    let stored = std::fs::read_to_string(example("a_two_sided.txt")).unwrap();
    let drawn = picture(&[&example("a_two_sided.txt")]);
    assert!(drawn.contains("two-sided") && drawn.matches("class=\"backbone\"").count() == 2, "{drawn}");
    assert_eq!(drawn, std::fs::read_to_string(example("a_two_sided.svg")).unwrap());
    let sheet = &stored[..stored.find("layout labels").unwrap()];
    for text in [sheet.to_string(), format!("{sheet}refused 10\n")] {
        let alone = folder.file("alone.txt", &text);
        for arguments in
            [&[&alone[..]][..], &["--rounded", &alone], &[&alone, "--compare", &example("a_two_sided.txt")]]
        {
            let (code, said) = failure(arguments);
            assert!(code == 1 && said.contains("refused 18: ") && said.contains("`backbone twin`"), "{said}");
        }
    }
}

#[test]
fn bad_input_is_told() {
    let folder = Folder::new("bad");
    let (code, said) = failure(&[
        &folder.file("equal.txt", "head one-sided fewest gap 1 width 8\ncolour unbounded\nsite 1 1\nsite 1 2\n")
    ]);
    assert!(code == 1 && said.contains("refused 6: two sites have equal x"), "{said}");
    let (code, said) = failure(&[&folder.file("text.txt", "head one-sided fewest gap 1 width eight\n")]);
    assert!(code == 3 && said.contains("line 1, column 35"), "{said}");
    let (code, said) = failure(&[&folder.0.join("missing.txt").to_string_lossy()]);
    assert!(code == 3 && said.contains("missing.txt"), "{said}");
    let open = folder.file("open.svg", "<g><path>");
    let (code, said) = failure(&["--background", &open, &example("a.txt")]);
    assert!(code == 3 && said.contains("<path> is not closed"), "{said}");
    assert_eq!(failure(&[]).0, 2);
    assert_eq!(failure(&["--colour", &example("a.txt")]).0, 2);
}

#[test]
fn options_that_do_not_go_together_are_told() {
    let a = example("a.txt");
    let told = |arguments: &[&str], words: &str| {
        let (code, said) = failure(arguments);
        assert!(code == 2 && said.contains(words), "{arguments:?}: {said}");
    };
    told(&["--step", "0.1pt", &a], "--step goes with --rounded");
    told(&["--compare", &a, "--rounded", &a], "both want the place beside it");
    told(&["--compare", "-", "-"], "can't be both files");
    told(&["--all", ".", "--stretch"], "another option");
}

#[test]
fn heights_are_stretched_when_asked() {
    let drawn = picture(&["--stretch", &example("gearbox.txt")]);
    assert!(drawn.contains("drawn 5 : 1 across, 6 : 1 down<"), "the picture says so");
}
