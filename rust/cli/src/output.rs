//! What is written, with every error seen: a closed pipe and a full disk end the run with exit code 3.

use crate::exit::Failure;
use crate::streams::is_output_closed;
use std::fs::Permissions;
use std::io::{BufWriter, Stdout, Write};
use std::path::{Path, PathBuf};

/// Standard output. What is written stands there only after `finish`.
pub struct Output {
    to: BufWriter<Stdout>,
}

impl Output {
    pub fn standard() -> Output {
        Output { to: BufWriter::with_capacity(1 << 16, std::io::stdout()) }
    }

    pub fn text(&mut self, text: &str) -> Result<(), Failure> {
        self.bytes(text.as_bytes())
    }

    pub fn bytes(&mut self, bytes: &[u8]) -> Result<(), Failure> {
        if is_output_closed() {
            return Err(Failure::about(&"standard output", &"it is closed"));
        }
        self.to.write_all(bytes).map_err(|error| Failure::about(&"standard output", &error))
    }

    pub fn finish(&mut self) -> Result<(), Failure> {
        self.to.flush().map_err(|error| Failure::about(&"standard output", &error))
    }
}

/// A line on standard error. Where that is closed there is nobody left to tell.
pub fn message(text: &str) {
    let _ = writeln!(std::io::stderr(), "backbone: {text}");
}

/// Writes a file whole or not at all: first beside it, then in its place, so that a full disk leaves what was there.
pub fn write_file(path: &Path, bytes: &[u8]) -> Result<(), Failure> {
    let written = match std::fs::metadata(path) {
        // A device or a pipe has no place to be taken.
        Ok(known) if !known.is_file() => std::fs::write(path, bytes),
        Ok(known) => path.canonicalize().and_then(|path| replace(&path, bytes, Some(known.permissions()))),
        Err(_) => replace(path, bytes, None),
    };
    written.map_err(|error| Failure::about(&path.display(), &error))
}

/// The new file has the permissions of the one whose place it takes.
fn replace(path: &Path, bytes: &[u8], permissions: Option<Permissions>) -> std::io::Result<()> {
    let mut name = path.as_os_str().to_owned();
    name.push(format!(".{}.part", std::process::id()));
    let part = PathBuf::from(name);
    let permit = || permissions.map_or(Ok(()), |permissions| std::fs::set_permissions(&part, permissions));
    let written = std::fs::write(&part, bytes).and_then(|()| permit());
    let done = written.and_then(|()| std::fs::rename(&part, path));
    if done.is_err() {
        // What could be written of it is of no use.
        let _ = std::fs::remove_file(&part);
    }
    done
}
