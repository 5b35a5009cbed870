//! The words and the pictures that stand beside the texts in a folder of examples.

use crate::plan::sheet_and_layout;
use crate::{picture, rounded, Background, Options};
use model::rounding::Rounding;
use sheet::Record;
use std::fmt::Display;
use std::fs;
use std::path::{Path, PathBuf};

/// Each file that belongs beside the texts of a folder, with what it should hold.
pub fn files(folder: &Path) -> Result<Vec<(PathBuf, String)>, String> {
    let mut files = Vec::new();
    let entries = fs::read_dir(folder).map_err(|error| about(folder, &error))?;
    for entry in entries {
        let path = entry.map_err(|error| about(folder, &error))?.path();
        if path.extension().is_some_and(|extension| extension == "txt") {
            files.extend(beside(&path).map_err(|error| about(&path, &error))?);
        }
    }
    files.sort();
    Ok(files)
}

fn about(path: &Path, error: &dyn Display) -> String {
    format!("{}: {error}", path.display())
}

fn beside(text: &Path) -> Result<[(PathBuf, String); 2], String> {
    let lines = fs::read_to_string(text).map_err(|error| error.to_string())?;
    let record = sheet::parse(&lines).map_err(|error| error.to_string())?;
    let numbers = record.words.iter().map(|word| sheet::show_number(*word) + "\n").collect();
    let background = fs::read_to_string(text.with_extension("background.svg")).ok();
    let background = background.map(|inside| Background::parse(&inside)).transpose();
    let background = background.map_err(|error| error.to_string())?;
    let is_rounded = text.file_stem().is_some_and(|name| name == "rounding");
    let drawn = drawn(record, background, is_rounded)?;
    Ok([(text.with_extension("words"), numbers), (text.with_extension("svg"), drawn)])
}

fn drawn(record: Record, background: Option<Background>, is_rounded: bool) -> Result<String, String> {
    let (sheet, layout) = sheet_and_layout(&record.words).map_err(|refusal| refusal.to_string())?;
    let options = Options { names: record.names, background, ..Options::default() };
    if is_rounded {
        return rounded(&sheet, layout.as_ref(), Rounding::TenthMillimetre, &options)
            .map_err(|error| error.to_string());
    }
    picture(&sheet, layout.as_ref(), &options).map_err(|refusal| refusal.to_string())
}
