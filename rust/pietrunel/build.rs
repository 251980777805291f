//! Links libpietrunel.a: from PIETRUNEL_LIB_DIR, or from where `rt lib` in crates/pietrunel leaves it.

use std::path::{Path, PathBuf};
use std::process::ExitCode;
use std::{env, fs};

fn main() -> ExitCode {
    println!("cargo::rerun-if-env-changed=PIETRUNEL_LIB_DIR");
    let folder = folder();
    let library = folder.join("libpietrunel.a");
    println!("cargo::rerun-if-changed={}", library.display());
    if !library.is_file() {
        println!(
            "cargo::error={} is not there: run `rt lib` in crates/pietrunel, \
             or set PIETRUNEL_LIB_DIR to the library's folder",
            library.display()
        );
        return ExitCode::FAILURE;
    }
    println!("cargo::rustc-link-search=native={}", folder.display());
    println!("cargo::rustc-link-lib=static=pietrunel");
    ExitCode::SUCCESS
}

/// The library's folder. A relative PIETRUNEL_LIB_DIR begins where cargo was run.
fn folder() -> PathBuf {
    match env::var_os("PIETRUNEL_LIB_DIR") {
        None => PathBuf::from(env!("CARGO_MANIFEST_DIR")).join("../../crates/pietrunel/out"),
        Some(folder) if Path::new(&folder).is_absolute() => folder.into(),
        Some(folder) => {
            println!("cargo::rerun-if-env-changed=PWD");
            callers_folder().join(folder)
        }
    }
}

/// The folder that cargo was run in. This script runs in the crate's, and cargo is its parent.
/// Where that cannot be asked, PWD tells, which cargo hands on; it is stale if cargo was started in
/// another folder without a shell.
fn callers_folder() -> PathBuf {
    let cargo = std::os::unix::process::parent_id();
    fs::read_link(format!("/proc/{cargo}/cwd"))
        .unwrap_or_else(|_| env::var_os("PWD").unwrap_or_default().into())
}
