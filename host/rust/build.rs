//! Links libnovlizeb.a: from the folder that NOVLIZEB_LIB_DIR names, else from target/staticlib of the project.
use std::env;
use std::path::PathBuf;

fn main() {
    println!("cargo:rerun-if-env-changed=NOVLIZEB_LIB_DIR");
    let folder = env::var_os("NOVLIZEB_LIB_DIR").map_or_else(|| PathBuf::from(env::var_os("CARGO_MANIFEST_DIR").unwrap_or_default()).join("../../target/staticlib"), PathBuf::from);
    println!("cargo:rerun-if-changed={}", folder.join("libnovlizeb.a").display());
    println!("cargo:rustc-link-search=native={}", folder.display());
    println!("cargo:rustc-link-lib=static=novlizeb");
}
