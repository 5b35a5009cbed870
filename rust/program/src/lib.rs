//! The program that rt proved, run as the system starts it, or again and again in one process.
//!
//! Nothing of it is prebuilt: `rt run` in crates/backbones proves, links and runs it. So its tests come after the proofs.

pub mod repeated;
pub mod started;

use std::path::{Path, PathBuf};

/// The program: crates/backbones/out/backbones, or what `BACKBONE_PROGRAM` names.
pub fn path() -> PathBuf {
    std::env::var_os("BACKBONE_PROGRAM").map_or_else(|| built("backbones"), PathBuf::from)
}

/// What rt wrote to the crate's out/.
fn built(name: &str) -> PathBuf {
    Path::new(env!("CARGO_MANIFEST_DIR")).join("../../crates/backbones/out").join(name)
}

/// The file, which has to be there.
fn found(path: PathBuf) -> PathBuf {
    assert!(path.exists(), "{} is missing: `rt run` in crates/backbones proves and builds it", path.display());
    path
}
