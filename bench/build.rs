//! Tells the linker where the two archives of the library stand: in the folder that the variable
//! CJUMBRADI_LIB names.

use std::env;
use std::path::PathBuf;

fn main() {
    println!("cargo:rerun-if-changed=build.rs");
    println!("cargo:rerun-if-env-changed=CJUMBRADI_LIB");
    let folder = env::var_os("CJUMBRADI_LIB").expect("bench/run sets CJUMBRADI_LIB");
    let folder = PathBuf::from(folder);
    for archive in ["libcjumbradi.a", "libknown.a"] {
        println!("cargo:rerun-if-changed={}", folder.join(archive).display());
    }
    println!("cargo:rustc-link-search=native={}", folder.display());
}
