//! Tells the linker where `libcjumbradi.a` stands: in the folder that the variable CJUMBRADI_LIB names,
//! or else where `tools/host-lib` writes it.

use std::env;

fn main() {
    println!("cargo:rerun-if-env-changed=CJUMBRADI_LIB");
    let own = concat!(env!("CARGO_MANIFEST_DIR"), "/../../target/host");
    let folder = env::var("CJUMBRADI_LIB").unwrap_or_else(|_| own.to_string());
    println!("cargo:rerun-if-changed={folder}/libcjumbradi.a");
    println!("cargo:rustc-link-search=native={folder}");
}
