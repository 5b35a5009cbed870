//! Runs the command `backbone` as a user does.
#![allow(dead_code)]

use std::ffi::OsStr;
use std::io::Write;
use std::path::{Path, PathBuf};
use std::process::{Command, Stdio};

pub const BACKBONE: &str = env!("CARGO_BIN_EXE_backbone");

/// How a run ended and what it wrote.
#[derive(Debug, PartialEq, Eq)]
pub struct Run {
    pub code: Option<i32>,
    pub out: Vec<u8>,
    pub err: String,
}

impl Run {
    pub fn text(&self) -> String {
        String::from_utf8(self.out.clone()).expect("UTF-8 on standard output")
    }
}

/// A run with these arguments and this standard input. A panic, which no input may cause, fails the test.
pub fn run<S: AsRef<OsStr>>(arguments: impl IntoIterator<Item = S>, input: &[u8]) -> Run {
    let mut command = Command::new(BACKBONE);
    command.args(arguments);
    finish(command, input)
}

/// A run of a line of the shell, in which $BACKBONE is the command.
pub fn shell(line: &str, input: &[u8]) -> Run {
    let mut command = Command::new("sh");
    command.args(["-c", line]).env("BACKBONE", BACKBONE);
    finish(command, input)
}

fn finish(mut command: Command, input: &[u8]) -> Run {
    command.stdin(Stdio::piped()).stdout(Stdio::piped()).stderr(Stdio::piped());
    let mut child = command.spawn().expect("the command starts");
    let mut stdin = child.stdin.take().expect("standard input is a pipe");
    // A command that does not read its input closes the pipe.
    let _ = stdin.write_all(input);
    drop(stdin);
    let output = child.wait_with_output().expect("the command ends");
    let err = String::from_utf8_lossy(&output.stderr).into_owned();
    assert!(!err.contains("panicked"), "{err}");
    Run { code: output.status.code(), out: output.stdout, err }
}

/// The folder of examples.
pub fn examples() -> PathBuf {
    Path::new(env!("CARGO_MANIFEST_DIR")).join("../../examples")
}

/// A folder of its own that goes with the test.
pub struct Folder(pub PathBuf);

impl Folder {
    pub fn new(name: &str) -> Folder {
        let path = std::env::temp_dir().join(format!("backbone-test-{name}-{}", std::process::id()));
        let _ = std::fs::remove_dir_all(&path);
        std::fs::create_dir_all(&path).expect("a folder for the test");
        Folder(path)
    }

    /// Writes a file and gives its name.
    pub fn file(&self, name: &str, bytes: impl AsRef<[u8]>) -> String {
        let path = self.0.join(name);
        std::fs::write(&path, bytes).expect("a file for the test");
        path.to_str().expect("a name in UTF-8").to_string()
    }

    pub fn path(&self, name: &str) -> String {
        self.0.join(name).to_str().expect("a name in UTF-8").to_string()
    }
}

impl Drop for Folder {
    fn drop(&mut self) {
        let _ = std::fs::remove_dir_all(&self.0);
    }
}

/// Document 01's sheet A as text.
pub const SHEET_A: &str = "\
head one-sided fewest gap 2 width 8
slot 2
slot 5
slot 8
colour unbounded
site 2 4
site 6 6
colour unbounded
site 4 5
";

/// Sheet A with a layout.
pub fn stored_a(labels: u32, length: u32, slots: [u8; 3]) -> String {
    let [a, b, c] = slots;
    format!("{SHEET_A}layout labels {labels} length {length}\ntie {a}\ntie {b}\ntie {c}\n")
}

/// Sheet A with its best layout.
pub fn best_a() -> String {
    stored_a(2, 19, [0, 0, 2])
}

/// Stored sheets that every tool refuses, with the number and what it comes from.
pub fn refused_stored() -> Vec<(String, u64, &'static str)> {
    let many = (3..52).map(|height| format!("slot {height}\n")).collect::<String>();
    let best = best_a();
    vec![
        (String::new(), 1, "there is no word"),
        (best.replace("head one-sided fewest gap 2 width 8\n", ""), 1, "word 0 is 0x20000002, no head"),
        (best.replace("slot 5", "tie 1"), 2, "word 2 is 0x90000001: a tie stands in the sheet"),
        (best.replace("slot 5\nslot 8\n", &many), 3, "there are 50 slots, at most 48 are allowed"),
        (best.replace("slot 5", "slot 2"), 4, "slot 0 has height 2, and slot 1 after it height 2"),
        (best.replace("site 4", "site 9"), 5, "site 2 has x 9, and the width is 8"),
        (best.replace("site 4", "site 6"), 6, "sites 1 and 2 both have x 6"),
        (best.replace("colour unbounded", "colour bound 8"), 7, "the bounds 8 of colour 0, 8 of colour 1 give 81"),
        (SHEET_A.to_string(), 11, "there is no word of a layout"),
        (format!("{SHEET_A}refused 10\n"), 11, "there is no word of a layout"),
        (stored_a(2, 19, [0, 0, 3]), 11, "site 2 is tied to slot 3, and the sheet has 3 slots"),
        (stored_a(2, 19, [0, 0, 1]), 13, "rule 4: the vertical of site 1 meets the backbone at slot 1, at x 6"),
        (stored_a(2, 18, [0, 0, 2]), 13, "rule 6: the layout states 2 labels and length 18"),
        (best.replace("one-sided", "two-sided"), 13, "rule 6: the layout states 2 labels and length 19"),
    ]
}

/// Output that can't be written ends a subcommand with 3, whether its input is refused or not.
pub fn assert_unwritten_is_3(subcommand: &str) {
    let mut places = vec![(">&-", "standard output: it is closed")];
    if Path::new("/dev/full").exists() {
        places.push((">/dev/full", "standard output: No space left"));
    }
    for (to, message) in places {
        for input in [best_a(), SHEET_A.to_string()] {
            let run = shell(&format!("$BACKBONE {subcommand} - {to}"), input.as_bytes());
            assert!(run.code == Some(3) && run.err.contains(message), "{run:?}");
        }
    }
}
