//! Links the proved library: prebuilt/x86_64-linux/libbackbone.a, or that of the folder that `BACKBONE_LIBRARY` names.

use std::path::{Path, PathBuf};
use std::process::exit;

/// The archive's name as it is kept, and as `rt lib` in crates/cabi writes it.
const NAMES: [&str; 2] = ["backbone", "cabi"];

fn fail(message: &str) -> ! {
    eprintln!("{message}");
    exit(1)
}

/// What cargo says of this build.
fn variable(name: &str) -> String {
    std::env::var(name).unwrap_or_else(|_| fail(&format!("cargo does not say what {name} is")))
}

fn folder() -> PathBuf {
    if let Some(folder) = std::env::var_os("BACKBONE_LIBRARY") {
        return PathBuf::from(folder);
    }
    let (processor, system) = (variable("CARGO_CFG_TARGET_ARCH"), variable("CARGO_CFG_TARGET_OS"));
    if (&processor[..], &system[..]) != ("x86_64", "linux") {
        fail(&format!("the proved library is for x86_64 Linux, not for {processor} {system}"));
    }
    PathBuf::from(variable("CARGO_MANIFEST_DIR")).join("../../prebuilt/x86_64-linux")
}

fn archive(folder: &Path, name: &str) -> PathBuf {
    folder.join(format!("lib{name}.a"))
}

fn main() {
    println!("cargo:rerun-if-env-changed=BACKBONE_LIBRARY");
    let folder = folder();
    let Some(name) = NAMES.into_iter().find(|name| archive(&folder, name).exists()) else {
        fail(&format!("there is no {}", archive(&folder, NAMES[0]).display()));
    };
    println!("cargo:rerun-if-changed={}", archive(&folder, name).display());
    println!("cargo:rustc-link-search=native={}", folder.display());
    println!("cargo:rustc-link-lib=static={name}");
}
