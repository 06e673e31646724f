//! Where the engine's archive `libcapi.a` is missing, all can be checked, and whoever links a program is told what to do.

use std::fs;
use std::path::PathBuf;
use std::process::{Command, Output};

/// Runs cargo over this crate, with a folder for the archive that is empty.
fn cargo(arguments: &[&str]) -> (Output, PathBuf) {
    let folder = PathBuf::from(env!("CARGO_TARGET_TMPDIR")).join("no-archive");
    fs::create_dir_all(&folder).unwrap();
    let mut command = Command::new(env!("CARGO"));
    command.args(arguments).args(["--offline", "--manifest-path", concat!(env!("CARGO_MANIFEST_DIR"), "/Cargo.toml"), "--target-dir"]);
    let output = command.arg(folder.join("target")).env("TXINDURBE_LIB", &folder).output().unwrap();
    (output, folder)
}

#[test]
fn a_missing_archive_is_named() {
    for (arguments, linked) in [(&["check", "--all-targets"][..], false), (&["build", "--example", "portal"], true)] {
        let (output, folder) = cargo(arguments);
        let said = String::from_utf8_lossy(&output.stderr);
        assert_eq!(output.status.success(), !linked, "{said}");
        let message =
            format!("libcapi.a is not in {}: run `bash run` at the top of the project, or name its folder by TXINDURBE_LIB", folder.display());
        assert!(said.contains(&message), "{said}");
    }
}
