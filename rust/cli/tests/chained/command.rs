//! The command, run as a user runs it, and folders to run it in.

use std::path::{Path, PathBuf};
use std::process::Command;
use std::sync::atomic::{AtomicU32, Ordering};

/// How a run ended.
#[derive(Debug)]
pub struct Run {
    pub code: i32,
    pub out: String,
    pub said: String,
}

impl Run {
    /// The same run, with this exit code.
    pub fn ends(self, code: i32) -> Run {
        assert_eq!(self.code, code, "{}{}", self.out, self.said);
        self
    }
}

pub fn backbone(arguments: &[&str]) -> Run {
    let output = Command::new(env!("CARGO_BIN_EXE_backbone")).args(arguments).output().expect("the command runs");
    let text = |bytes: Vec<u8>| String::from_utf8(bytes).expect("UTF-8");
    Run { code: output.status.code().expect("an exit code"), out: text(output.stdout), said: text(output.stderr) }
}

/// The engine that rounds to this step, as a command.
pub fn rounding_engine(step: &str) -> String {
    format!("'{}' {step}", env!("CARGO_BIN_EXE_rounding-engine"))
}

/// A folder that is there as long as this value.
pub struct Folder {
    path: PathBuf,
}

impl Folder {
    pub fn new() -> Folder {
        static COUNT: AtomicU32 = AtomicU32::new(0);
        let name = format!("backbone-chained-{}-{}", std::process::id(), COUNT.fetch_add(1, Ordering::Relaxed));
        let path = std::env::temp_dir().join(name);
        std::fs::create_dir_all(&path).expect("a folder for the test");
        Folder { path }
    }

    pub fn at(&self, name: &str) -> String {
        self.path.join(name).display().to_string()
    }

    pub fn write(&self, name: &str, text: &str) -> String {
        std::fs::write(self.path.join(name), text).expect("a file for the test");
        self.at(name)
    }
}

impl Drop for Folder {
    fn drop(&mut self) {
        let _ = std::fs::remove_dir_all(&self.path);
    }
}

/// Every file below a folder by its name there, with what it holds.
pub fn files(folder: &str) -> Vec<(String, String)> {
    let mut found = Vec::new();
    let mut folders = vec![PathBuf::from(folder)];
    while let Some(next) = folders.pop() {
        for entry in std::fs::read_dir(&next).expect("a folder") {
            let path = entry.expect("an entry").path();
            if path.is_dir() {
                folders.push(path);
            } else {
                found.push((name_below(folder, &path), std::fs::read_to_string(&path).expect("a text")));
            }
        }
    }
    found.sort();
    found
}

fn name_below(folder: &str, path: &Path) -> String {
    path.strip_prefix(folder).expect("it is below").display().to_string()
}

/// The rows of tab-separated values after the first line, and the place of a name in that line.
pub fn rows(text: &str) -> (Vec<Vec<String>>, impl Fn(&str) -> usize) {
    let row = |line: &str| line.split('\t').map(str::to_string).collect::<Vec<_>>();
    let header = row(text.lines().next().expect("a first line"));
    let place = move |name: &str| header.iter().position(|known| known == name).expect("a known name");
    (text.lines().skip(1).map(row).collect(), place)
}
