//! What is read: a file, standard input, or every sheet of a folder.

use crate::exit::Failure;
use crate::streams::is_input_closed;
use sheet::Record;
use std::ffi::{OsStr, OsString};
use std::fmt;
use std::io::Read;
use std::path::{Path, PathBuf};

/// Where a sheet stands.
#[derive(Clone, Debug, PartialEq, Eq, PartialOrd, Ord)]
pub enum Source {
    Standard,
    File(PathBuf),
}

impl fmt::Display for Source {
    fn fmt(&self, out: &mut fmt::Formatter) -> fmt::Result {
        match self {
            Source::Standard => out.write_str("standard input"),
            Source::File(path) => write!(out, "{}", path.display()),
        }
    }
}

impl Source {
    /// `-` is standard input.
    pub fn of(operand: &OsStr) -> Source {
        if operand == "-" {
            Source::Standard
        } else {
            Source::File(PathBuf::from(operand))
        }
    }

    /// All bytes of it.
    pub fn bytes(&self) -> Result<Vec<u8>, Failure> {
        self.bytes_up_to(u64::MAX)
    }

    /// So many bytes of it, or all.
    fn bytes_up_to(&self, most: u64) -> Result<Vec<u8>, Failure> {
        let mut bytes = Vec::new();
        let read = match self {
            Source::Standard if is_input_closed() => return Err(Failure::about(self, &"it is closed")),
            Source::Standard => std::io::stdin().take(most).read_to_end(&mut bytes),
            Source::File(path) => std::fs::File::open(path).and_then(|file| file.take(most).read_to_end(&mut bytes)),
        };
        read.map(|_| bytes).map_err(|error| Failure::about(self, &error))
    }

    /// The sheet that it holds, in whichever form.
    pub fn record(&self) -> Result<Record, Failure> {
        let bytes = self.bytes_up_to(MOST_BYTES + 1)?;
        if bytes.len() as u64 > MOST_BYTES {
            return Err(Failure::about(self, &format!("it is longer than {MOST_BYTES} bytes, so it is no sheet")));
        }
        sheet::read(&bytes).map_err(|error| Failure::about(self, &error))
    }
}

/// The largest sheet has 89 words; remarks and names may be long. What never ends is not read to its end.
const MOST_BYTES: u64 = 1 << 24;

/// The names of files in a folder that are taken for sheets.
pub const SHEET_ENDINGS: [&str; 4] = ["txt", "words", "bin", "json"];

/// The sheets that the operands name: a file as it is, of a folder and the folders in it every file with one of
/// the known endings, by name.
pub fn sources(operands: &[OsString]) -> Result<Vec<Source>, Failure> {
    if operands.iter().filter(|operand| *operand == "-").count() > 1 {
        return Err(Failure::WrongUse("standard input can be read once, and - is given twice".to_string()));
    }
    let mut sources = Vec::new();
    for operand in operands {
        let source = Source::of(operand);
        match &source {
            Source::File(path) if path.is_dir() => {
                let before = sources.len();
                add_folder(path, &mut sources)?;
                if sources.len() == before {
                    return Err(Failure::about(&source, &"no file in this folder ends in .txt, .words, .bin or .json"));
                }
            }
            _ => sources.push(source),
        }
    }
    Ok(sources)
}

fn add_folder(folder: &Path, sources: &mut Vec<Source>) -> Result<(), Failure> {
    let failed = |error: std::io::Error| Failure::about(&folder.display(), &error);
    let entries = std::fs::read_dir(folder).map_err(failed)?;
    let mut entries = entries.collect::<Result<Vec<_>, _>>().map_err(failed)?;
    entries.sort_by_key(|entry| entry.file_name());
    for entry in entries {
        let path = entry.path();
        if entry.file_type().map_err(failed)?.is_dir() {
            add_folder(&path, sources)?;
        } else if path.extension().is_some_and(|ending| SHEET_ENDINGS.iter().any(|known| ending == *known)) {
            sources.push(Source::File(path));
        }
    }
    Ok(())
}
