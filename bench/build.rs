//! Links SQLite where it is found: in the folder `SQLITE_LIB`, or where Debian and others put it (package libsqlite3-dev).

use std::env;
use std::path::{Path, PathBuf};

const FOLDERS: [&str; 5] = ["/usr/lib/x86_64-linux-gnu", "/usr/lib/aarch64-linux-gnu", "/usr/lib64", "/usr/lib", "/usr/local/lib"];

fn main() {
    println!("cargo:rustc-check-cfg=cfg(sqlite)");
    println!("cargo:rerun-if-env-changed=SQLITE_LIB");
    let named = env::var_os("SQLITE_LIB").map(PathBuf::from);
    let mut folders = named.into_iter().chain(FOLDERS.map(PathBuf::from));
    if let Some(folder) = folders.find(|folder| has_sqlite(folder)) {
        println!("cargo:rustc-cfg=sqlite");
        println!("cargo:rustc-link-search=native={}", folder.display());
        println!("cargo:rustc-link-lib=sqlite3");
    }
}

fn has_sqlite(folder: &Path) -> bool {
    ["libsqlite3.so", "libsqlite3.a"].iter().any(|file| folder.join(file).exists())
}
