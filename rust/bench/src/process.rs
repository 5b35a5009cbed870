//! The time of the program as a process.

use crate::timing::race;
use model::program::prints;
use model::sheet::Sheet;
use std::io::{pipe, Write};
use std::process::Command;
use std::time::Duration;

/// The time from the start of the process to its end, its text read.
pub fn time(sheet: &Sheet) -> Duration {
    let input: Vec<u8> = sheet.words().iter().flat_map(|word| word.to_le_bytes()).collect();
    let expected = prints(&input);
    let mut command = Command::new(program::path());
    let [time] = race([&mut || {
        // The pipe holds the whole input before the process starts, so that it never waits for it.
        let (stdin, mut writer) = pipe().expect("a pipe");
        writer.write_all(&input).expect("a pipe holds 1,024 bytes");
        drop(writer);
        let output = command.stdin(stdin).output().expect("the program starts");
        assert!(output.status.success(), "{}", output.status);
        assert_eq!(output.stdout, expected.as_bytes(), "the program and plain Rust differ: {sheet:?}");
    }]);
    time
}
