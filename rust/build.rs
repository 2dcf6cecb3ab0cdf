//! Says where the static library is: in CONIC_LIB, or where the repository builds it.
use std::env;

fn main() {
    let built = concat!(env!("CARGO_MANIFEST_DIR"), "/../target/staticlib");
    let folder = env::var("CONIC_LIB").unwrap_or(built.to_string());
    println!("cargo:rustc-link-search=native={folder}");
    println!("cargo:rerun-if-changed={folder}/libconic_c.a");
    println!("cargo:rerun-if-env-changed=CONIC_LIB");
}
