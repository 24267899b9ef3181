//! Searches for the static library in the folder `REGRESS_C_LIB`, if that variable is set, and otherwise in `c/out` of the
//! repository, where `make -C c` writes it.

use std::env;
use std::path::PathBuf;
use std::process;

const ARCHIVE: &str = "libregress_c.a";

/// Returns the folder of the library.
fn folder() -> PathBuf {
    match env::var_os("REGRESS_C_LIB") {
        Some(folder) => PathBuf::from(folder),
        None => {
            PathBuf::from(env::var_os("CARGO_MANIFEST_DIR").expect("set by cargo")).join("../c/out")
        }
    }
}

fn main() {
    let folder = folder();
    let archive = folder.join(ARCHIVE);
    if !archive.is_file() {
        eprintln!(
            "{} does not exist: run `make -C c` in the repository of regress_match, or set REGRESS_C_LIB to the folder of {ARCHIVE}",
            archive.display()
        );
        process::exit(1);
    }
    println!("cargo:rerun-if-env-changed=REGRESS_C_LIB");
    println!("cargo:rerun-if-changed={}", archive.display());
    println!("cargo:rustc-link-search=native={}", folder.display());
    println!("cargo:rustc-link-lib=static=regress_c");
}
