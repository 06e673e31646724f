//! Says where the compiled library is: in the folder `TXINDURBE_LIB`, or where `bash library` writes it. It is needed only when a program is linked: without
//! it all can be checked and documented, and a warning says what the linker will miss.

use std::env;
use std::path::{Path, PathBuf};

const ARCHIVE: &str = "libcapi.a";

fn main() {
    let here = PathBuf::from(env::var_os("CARGO_MANIFEST_DIR").expect("cargo sets it"));
    let top = here.ancestors().nth(2).unwrap_or(Path::new("/"));
    let folder = env::var_os("TXINDURBE_LIB").map_or_else(|| top.join("target/staticlib"), PathBuf::from);
    println!("cargo:rerun-if-env-changed=TXINDURBE_LIB");
    println!("cargo:rerun-if-changed={}", folder.join(ARCHIVE).display());
    if !folder.join(ARCHIVE).exists() {
        println!(
            "cargo:warning={ARCHIVE} is not in {}: run `bash run` at the top of the project, or name its folder by TXINDURBE_LIB",
            folder.display()
        );
    }
    println!("cargo:rustc-link-search=native={}", folder.display());
    println!("cargo:rustc-link-lib=static:-bundle=capi");
}
