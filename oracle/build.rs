//! Tells the linker where the two archives of the library stand: in the folder that the variable
//! CJUMBRADI_LIB names, or else in the repository's target/host.

use std::path::PathBuf;
use std::{env, fs};

fn main() {
    println!("cargo:rerun-if-changed=build.rs");
    println!("cargo:rerun-if-env-changed=CJUMBRADI_LIB");
    let named = env::var_os("CJUMBRADI_LIB").map(PathBuf::from);
    let folder = named.unwrap_or_else(|| PathBuf::from("../target/host"));
    let folder = fs::canonicalize(&folder).unwrap_or_else(|_| {
        panic!(
            "no {}: build the library, or set CJUMBRADI_LIB",
            folder.display()
        )
    });
    for archive in ["libcjumbradi.a", "libknown.a"] {
        println!("cargo:rerun-if-changed={}", folder.join(archive).display());
    }
    println!("cargo:rustc-link-search=native={}", folder.display());
}
