//! Links the verified side, libanalyser.a, from the folder that SHARING_LIB_DIR names. Without the
//! feature `library` nothing is linked, and no folder is needed.

use std::path::{Path, PathBuf};
use std::process::ExitCode;

const VARIABLE: &str = "SHARING_LIB_DIR";

const LIBRARY: &str = "analyser";

const ARCHIVE: &str = "libanalyser.a";

fn main() -> ExitCode {
    println!("cargo:rerun-if-env-changed={VARIABLE}");
    println!("cargo:rerun-if-changed=build.rs");
    if !cfg!(feature = "library") {
        return ExitCode::SUCCESS;
    }
    match archive_folder() {
        Ok(folder) => {
            link(&folder);
            ExitCode::SUCCESS
        }
        Err(message) => {
            eprintln!("{message}");
            ExitCode::FAILURE
        }
    }
}

/// The named folder, once it is seen to hold the archive: the linker's own message is unclear.
fn archive_folder() -> Result<PathBuf, String> {
    let named = std::env::var_os(VARIABLE)
        .ok_or_else(|| format!("{VARIABLE} is not set: name the folder that holds {ARCHIVE}"))?;
    let folder = PathBuf::from(named);
    if !folder.is_absolute() {
        return Err(format!("{VARIABLE} must be an absolute path"));
    }
    if !folder.join(ARCHIVE).is_file() {
        return Err(format!("{VARIABLE}: {} has no {ARCHIVE}", folder.display()));
    }
    Ok(folder)
}

/// Tells cargo what to link, and to link again where the archive is built anew.
fn link(folder: &Path) {
    println!("cargo:rustc-link-search=native={}", folder.display());
    println!("cargo:rerun-if-changed={}", folder.join(ARCHIVE).display());
    println!("cargo:rustc-link-lib=static={LIBRARY}");
}
