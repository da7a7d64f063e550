//! Links this project's static libraries, `libstages.a` and `libnovlizeb.a`, which `tools/staticlib` makes of the crates stages_c and
//! novlizeb. Only their exports are seen from outside, and no two have one name. Their folder is the variable NOVLIZEB_LIB, or else
//! `target/staticlib` of the project.

use std::path::PathBuf;

fn main() {
    println!("cargo:rerun-if-env-changed=NOVLIZEB_LIB");
    let here = PathBuf::from(std::env::var("CARGO_MANIFEST_DIR").expect("cargo sets it"));
    let folder = std::env::var_os("NOVLIZEB_LIB").map_or_else(|| here.join("../target/staticlib"), PathBuf::from);
    println!("cargo:rustc-link-search=native={}", folder.display());
    for name in ["stages", "novlizeb"] {
        let archive = folder.join(format!("lib{name}.a"));
        if !archive.is_file() {
            panic!(
                "{} is not there: run compare/build first, or compare/run",
                archive.display()
            );
        }
        println!("cargo:rerun-if-changed={}", archive.display());
        println!("cargo:rustc-link-lib=static={name}");
    }
}
