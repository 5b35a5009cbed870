//! Help, the version and the man page: on standard output, with exit code 0.

mod common;

use common::{run, shell};

/// The subcommands as `--help` lists them.
fn subcommands() -> Vec<String> {
    let overview = run(["--help"], b"").text();
    let list = overview.split("subcommands:\n").nth(1).unwrap().split("\n\n").next().unwrap().to_string();
    list.lines().map(|line| line.split_whitespace().next().unwrap().to_string()).collect()
}

#[test]
fn every_subcommand_has_help() {
    let subcommands = subcommands();
    for name in ["lay-out", "check", "draw", "convert"] {
        assert!(subcommands.contains(&name.to_string()), "{subcommands:?}");
    }
    for name in subcommands {
        for arguments in
            [&[&name[..], "--help"][..], &[&name, "-h"], &["help", &name], &[&name, "--no-such-option", "--help", "x"]]
        {
            let run = run(arguments, b"");
            assert_eq!((run.code, &run.err[..]), (Some(0), ""), "{arguments:?}");
            assert!(run.text().starts_with(&format!("backbone {name}: ")), "{}", run.text());
            for part in ["\nusage: backbone ", "\noptions:\n", "\nexit codes:\n", "\n  2  ", "\n  3  "] {
                assert!(run.text().contains(part), "{part} {}", run.text());
            }
            assert!(run.text().lines().all(|line| line.chars().count() <= 130), "{}", run.text());
        }
    }
}

#[test]
fn version() {
    for option in ["--version", "-V"] {
        let run = run([option], b"");
        assert_eq!((run.code, run.text()), (Some(0), format!("backbone {}\n", env!("CARGO_PKG_VERSION"))));
    }
}

/// groff, where it is installed, has nothing to say against the man page.
#[test]
fn the_man_page() {
    let page = run(["--man"], b"");
    assert_eq!((page.code, &page.err[..]), (Some(0), ""));
    assert!(page.text().starts_with(".TH BACKBONE 1 "));
    for name in subcommands() {
        assert!(page.text().contains(&format!(".SS backbone {}", name.replace('-', "\\-"))), "{name}");
    }
    if shell("command -v groff", b"").code != Some(0) {
        println!("skipped: groff is not installed");
        return;
    }
    let shown = shell("groff -man -ww -Tutf8 -P-cbou", &page.out);
    assert_eq!((shown.code, &shown.err[..]), (Some(0), ""));
    for part in ["backbone lay-out [OPTION]... FILE|-", "EXIT STATUS", "colour bound 3 \"screws\""] {
        assert!(shown.text().contains(part), "{part} {}", shown.text());
    }
}
