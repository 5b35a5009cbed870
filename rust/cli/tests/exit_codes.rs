//! Each exit code on each bad use, bad input and bad output; nothing panics, and nothing fails without a message.

mod common;

use common::{run, shell, Folder, Run, BACKBONE, SHEET_A};
use std::io::Write;
use std::process::{Command, Stdio};

/// Input that can't be read: exit code 3, a message with this in it, and nothing that looks like a refusal. (The table of
/// `check` has a row of refusals; it is left out here.)
fn assert_unreadable(run: &Run, message: &str) {
    assert_eq!(run.code, Some(3), "{run:?}");
    assert!(run.err.contains(message), "{message}: {run:?}");
    assert!(!run.text().contains("refused") && !run.err.contains("refused 1"), "{run:?}");
}

const WRONG_USES: &[&[&str]] = &[
    &[],
    &["layout"],
    &["--formal"],
    &["lay-out"],
    &["lay-out", "a", "b"],
    &["lay-out", "--format"],
    &["lay-out", "--format", "xml", "-"],
    &["lay-out", "--format", "text", "--format", "text", "-"],
    &["lay-out", "--jobs", "2", "-"],
    &["lay-out", "-x", "-"],
    &["check"],
    &["check", "-", "-"],
    &["check", "--jobs", "0", "-"],
    &["check", "--jobs", "two", "-"],
    &["check", "--jobs", "-1", "-"],
    &["check", "--jobs", "99999999999999999999", "-"],
    &["check", "--format=words", "-"],
    &["check", "--report"],
    &["convert", "-"],
    &["convert", "--to", "pdf", "-"],
    &["convert", "--to", "text"],
    &["convert", "--to=text", "--to=text", "-"],
    &["twin"],
    &["twin", "a", "b"],
    &["twin", "--to", "pdf", "-"],
    &["strokes"],
    &["strokes", "a", "b"],
    &["strokes", "--format", "words", "-"],
    &["strokes", "--place", "-"],
    &["strokes", "--place", "-1", "-"],
    &["strokes", "--place", "18446744073709551616", "-"],
    &["page"],
    &["page", "a", "b"],
    &["page", "--format", "text", "-"],
    &["lay-out", "--format", "pages", "-"],
    &["draw"],
    &["draw", "-o"],
    &["draw", "--rounded=yes", "-"],
];

#[test]
fn wrong_use_is_2() {
    for arguments in WRONG_USES {
        let run = run(*arguments, SHEET_A.as_bytes());
        assert_eq!((run.code, run.out.len()), (Some(2), 0), "{arguments:?} {run:?}");
        assert!(run.err.contains("--help"), "{arguments:?} {run:?}");
    }
}

#[test]
fn after_two_dashes_all_are_operands() {
    let folder = Folder::new("dashes");
    folder.file("--help", SHEET_A);
    let run = shell(&format!("cd {} && $BACKBONE lay-out -- --help", folder.0.display()), b"");
    assert_eq!(run.code, Some(0), "{run:?}");
    assert!(run.text().starts_with("labels 2 length 19\n"));
}

#[test]
fn texts_with_errors_are_3_with_line_and_column() {
    let cases: &[(&[u8], &str)] = &[
        (b"head one-sided fewest gap 2 width 8\nslot five\n", "line 2, column 6"),
        (b"head one-sided fewest gap 0 width 8\n", "line 1, column 27"),
        (b"head one-sided fewest gap 2 width 8\ncharge 16384\n", "line 2, column 8"),
        (b"slot 5\nrefused 9\n", "line 2, column 9"),
        (b"hello\n", "line 1, column 1"),
        (b"0x123456789\n", "line 1, column 1"),
        (b"{\"side\": \"one-sided\",\n \"aim\": }", "line 2, column 9"),
        (b"{}", "line 1, column 1"),
        (b"colour unbounded \"B\xFCgel\"", "line 1, column 20: the text is not UTF-8: byte 0xFC"),
        (b"\xFF\xFEh\0e\0a\0d\0", "UTF-16"),
        (b"h\0e\0a\0d\0", "UTF-16"),
        (b"\0h\0e\0a\0d", "UTF-16"),
        (b"\x08\x80\x00\x10\x05", "5 bytes are not whole words"),
        (b"\x1B[31mslot 5", "line 1, column 1"),
        (b"<svg xmlns=\"http://www.w3.org/2000/svg\"/>", "line 1, column 1"),
    ];
    for (input, message) in cases {
        let reading = [&["lay-out", "-"][..], &["draw", "-"], &["twin", "-"], &["strokes", "-"], &["page", "-"]];
        let writing = [&["convert", "--to", "json", "-"][..], &["lay-out", "--format", "page", "-"]];
        for arguments in reading.into_iter().chain(writing) {
            let run = run(arguments, input);
            assert_unreadable(&run, message);
            assert!(run.err.contains("standard input: ") && run.out.is_empty(), "{run:?}");
        }
        let checked = run(["check", "-"], input);
        assert_unreadable(&Run { out: Vec::new(), ..checked }, message);
    }
}

#[test]
fn files_that_cannot_be_read_are_3() {
    let folder = Folder::new("unreadable");
    let missing = folder.path("missing.txt");
    let closed = folder.file("closed.txt", SHEET_A);
    let below = folder.file("file", SHEET_A) + "/below.txt";
    let mut cases = vec![
        (missing, "No such file"),
        (folder.path("."), "Is a directory"),
        (below, "Not a directory"),
        ("/dev/zero".to_string(), "longer than"),
        ("/proc/self/mem".to_string(), "error"),
    ];
    // Who may read everything can't be kept from this one.
    use std::os::unix::fs::PermissionsExt;
    std::fs::set_permissions(&closed, std::fs::Permissions::from_mode(0o000)).unwrap();
    if std::fs::read(&closed).is_err() {
        cases.push((closed, "Permission denied"));
    }
    for (file, message) in cases {
        let reading = [&["lay-out"][..], &["draw"], &["twin"], &["strokes"], &["page"]];
        for arguments in reading.into_iter().chain([&["convert", "--to", "text"][..]]) {
            let run = run(arguments.iter().copied().chain([&file[..]]), b"");
            assert_unreadable(&run, message);
            assert!(run.err.contains(&file), "{run:?}");
        }
    }
}

#[test]
fn a_folder_without_sheets_is_3() {
    let folder = Folder::new("none");
    folder.file("notes.md", "slot 5\n");
    assert_unreadable(&run(["check", folder.0.to_str().unwrap()], b""), "no file in this folder");
    let missing = run(["check", &folder.path("missing")], b"");
    assert!(missing.text().contains("missing: unreadable: No such file"), "{}", missing.text());
    assert_unreadable(&Run { out: Vec::new(), ..missing }, "No such file");
}

#[test]
fn closed_streams_are_3() {
    let input = shell("$BACKBONE lay-out - <&-", b"");
    assert_unreadable(&input, "standard input: it is closed");
    for arguments in ["lay-out -", "check -", "draw -", "convert --to bin -", "--help", "check --help", "--man"] {
        let output = shell(&format!("$BACKBONE {arguments} >&-"), SHEET_A.as_bytes());
        assert_unreadable(&output, "standard output: it is closed");
    }
    // Without standard error the code still says it.
    assert_eq!(shell("$BACKBONE lay-out missing 2>&-", b"").code, Some(3));
    assert_eq!(shell("$BACKBONE lay-out 2>&-", b"").code, Some(2));
}

#[test]
fn a_full_disk_is_3() {
    if !std::path::Path::new("/dev/full").exists() {
        println!("skipped: there is no /dev/full");
        return;
    }
    for arguments in ["lay-out -", "check -", "draw -", "convert --to bin -", "--help", "--version", "--man"] {
        let run = shell(&format!("$BACKBONE {arguments} >/dev/full"), SHEET_A.as_bytes());
        assert_unreadable(&run, "standard output: No space left");
    }
    let drawn = run(["draw", "-", "-o", "/dev/full"], SHEET_A.as_bytes());
    assert_unreadable(&drawn, "/dev/full: No space left");
}

/// The pipe's reader goes before the command has read its input, so every write fails.
#[test]
fn a_closed_pipe_is_3() {
    for arguments in [&["lay-out", "-"][..], &["check", "-"], &["draw", "-"], &["convert", "--to", "json", "-"]] {
        let mut command = Command::new(BACKBONE);
        command.args(arguments).stdin(Stdio::piped()).stdout(Stdio::piped()).stderr(Stdio::piped());
        let mut child = command.spawn().unwrap();
        drop(child.stdout.take());
        child.stdin.take().unwrap().write_all(SHEET_A.as_bytes()).unwrap();
        let output = child.wait_with_output().unwrap();
        let err = String::from_utf8_lossy(&output.stderr).into_owned();
        assert_eq!(output.status.code(), Some(3), "{err}");
        assert!(err.contains("standard output: Broken pipe") && !err.contains("panicked"), "{err}");
    }
}

#[test]
fn output_that_cannot_be_written_leaves_what_was_there() {
    let folder = Folder::new("kept");
    let missing = run(["draw", "-", "-o", &folder.path("no/such/folder.svg")], SHEET_A.as_bytes());
    assert_unreadable(&missing, "No such file");
    let old = folder.file("old.svg", "old");
    let refused = run(["draw", "-", "-o", &old], b"slot 5\n");
    assert_eq!((refused.code, std::fs::read_to_string(&old).unwrap()), (Some(1), "old".to_string()));
    use std::os::unix::fs::PermissionsExt;
    std::fs::set_permissions(&old, std::fs::Permissions::from_mode(0o640)).unwrap();
    let drawn = run(["draw", "-", "-o", &old], SHEET_A.as_bytes());
    assert_eq!((drawn.code, drawn.out.len()), (Some(0), 0));
    assert_eq!(std::fs::metadata(&old).unwrap().permissions().mode() & 0o777, 0o640);
    let shown = run(["draw", "-", "-o", "-"], SHEET_A.as_bytes());
    assert_eq!((shown.code, shown.text()), (Some(0), std::fs::read_to_string(&old).unwrap()));
    assert!(std::fs::read_to_string(&old).unwrap().starts_with("<svg "));
    assert_eq!(std::fs::read_dir(&folder.0).unwrap().count(), 1, "no part is left behind");
    let report = run(["check", "-", "--report", &(old + "/report")], SHEET_A.as_bytes());
    assert_unreadable(&Run { out: Vec::new(), ..report }, "Not a directory");
}

/// The largest work area there is, where the system gives no more than 300 megabytes.
#[test]
fn no_memory_is_3_and_says_how_much_is_needed() {
    let slots = (0..48).map(|slot| format!("slot {}\n", 10 * slot)).collect::<String>();
    let sites = (0..24).map(|site| format!("site {site} {}\n", 15 * site)).collect::<String>();
    let others = (24..32).map(|site| format!("site {site} {}\n", 15 * site)).collect::<String>();
    let colours = format!("colour bound 7\n{sites}colour bound 7\n{others}") + &"colour unbounded\n".repeat(6);
    let largest = format!("head one-sided fewest gap 1 width 100\n{slots}{colours}");
    for arguments in ["lay-out -", "draw -", "check -"] {
        let run = shell(&format!("ulimit -v 300000 && exec $BACKBONE {arguments}"), largest.as_bytes());
        assert_eq!(run.code, Some(3), "{run:?}");
        assert!(run.err.contains("427680000 words, 1711 megabytes"), "{run:?}");
    }
}

#[test]
fn files_with_any_name_are_read() {
    use std::os::unix::ffi::OsStringExt;
    let folder = Folder::new("names");
    let name = std::ffi::OsString::from_vec(b"\xFF\n\t\"<&.txt".to_vec());
    let path = folder.0.join(&name);
    std::fs::write(&path, SHEET_A).unwrap();
    assert_eq!(run([std::ffi::OsStr::new("lay-out"), path.as_os_str()], b"").code, Some(0));
    for format in ["text", "json", "tsv", "junit"] {
        let run = run(["check", "--format", format, folder.0.to_str().unwrap()], b"");
        assert_eq!(run.code, Some(1), "{run:?}");
    }
}
