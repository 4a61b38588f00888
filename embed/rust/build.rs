//! Finds the archive `librht.a`, and has it linked.
//!
//! It lies in the folder that the variable `RHT_LIB` names, and otherwise in `../out/lib`, where `embed/build`
//! puts it. A folder that isn't absolute is taken from this crate's own folder on.

use std::env;
use std::path::PathBuf;

fn main() {
    println!("cargo::rerun-if-env-changed=RHT_LIB");
    let crate_folder = PathBuf::from(env::var_os("CARGO_MANIFEST_DIR").unwrap_or_default());
    let named = env::var_os("RHT_LIB").filter(|name| !name.is_empty());
    let folder = crate_folder.join(named.unwrap_or_else(|| "../out/lib".into()));
    let archive = folder.join("librht.a");
    println!("cargo::rerun-if-changed={}", archive.display());
    if !archive.is_file() {
        println!(
            "cargo::error=there is no {}: run embed/build, or set RHT_LIB to a folder that has librht.a",
            archive.display()
        );
        return;
    }
    println!("cargo::rustc-link-search=native={}", folder.display());
    println!("cargo::rustc-link-lib=static=rht");
}
