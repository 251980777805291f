//! Where the build script looks for the library. Each case builds the crate once more, by a cargo
//! of its own.

use std::fs;
use std::path::{Path, PathBuf};
use std::process::{Command, Output};

/// A folder with a library, which need not hold anything to be found.
fn folder_with_library(name: &str) -> PathBuf {
    let folder = Path::new(env!("CARGO_TARGET_TMPDIR")).join(name);
    fs::create_dir_all(folder.join("lib")).unwrap();
    fs::write(folder.join("lib/libpietrunel.a"), "!<arch>\n").unwrap();
    folder.canonicalize().unwrap()
}

/// Runs cargo in this folder, by a shell or by itself; it prints what its build scripts ask for.
fn check(folder: &Path, library: &Path, by_shell: bool) -> Output {
    let mut command = Command::new("sh");
    match by_shell {
        true => command.args(["-c", "cd \"$0\" && exec \"$@\""]).arg(folder).arg(env!("CARGO")),
        false => {
            command = Command::new(env!("CARGO"));
            command.current_dir(folder).env("PWD", "/")
        }
    };
    command
        .args(["check", "--offline", "--lib", "--message-format=json", "--manifest-path"])
        .arg(concat!(env!("CARGO_MANIFEST_DIR"), "/Cargo.toml"))
        .arg("--target-dir")
        .arg(Path::new(env!("CARGO_TARGET_TMPDIR")).join("target"))
        .env("PIETRUNEL_LIB_DIR", library)
        .output()
        .unwrap()
}

fn links(output: &Output, folder: &Path) -> bool {
    let told = String::from_utf8_lossy(&output.stdout);
    let wanted = format!("\"linked_paths\":[\"native={}\"]", folder.display());
    output.status.success() && told.contains(&wanted)
}

#[test]
fn a_relative_folder_begins_where_cargo_was_run() {
    let (here, there) = (folder_with_library("here"), folder_with_library("there"));
    for (folder, by_shell) in [(&here, true), (&there, true), (&here, false)] {
        let output = check(folder, Path::new("lib"), by_shell);
        assert!(links(&output, &folder.join("lib")), "{output:?}");
    }
    let output = check(&here, &there.join("lib"), true);
    assert!(links(&output, &there.join("lib")), "{output:?}");

    let output = check(&here, Path::new("none"), true);
    let missing = here.join("none/libpietrunel.a").display().to_string();
    assert!(!output.status.success());
    assert!(String::from_utf8_lossy(&output.stderr).contains(&missing), "{output:?}");
}
