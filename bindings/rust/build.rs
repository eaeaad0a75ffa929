//! Links the proved library: from the folder that SLOTSHEET_LIB names; else, in the repository, from `target/staticlib`, where `tools/build capi`
//! puts it; else from `lib` of the prefix that `tools/install` put this crate below. An installed archive is libslotsheet.a, the repository's own
//! is libcapi.a; they have the same proved functions.

use std::path::{Path, PathBuf};

fn main() {
    println!("cargo::rerun-if-env-changed=SLOTSHEET_LIB");
    let here = PathBuf::from(std::env::var_os("CARGO_MANIFEST_DIR").expect("cargo sets it"));
    let own = here.join(if here.join("../../crates.txt").is_file() { "../../target/staticlib" } else { "../../../lib" });
    let folder = std::env::var_os("SLOTSHEET_LIB").map_or(own, PathBuf::from);
    let Some(name) = ["slotsheet", "capi"].into_iter().find(|name| archive(&folder, name).is_file()) else {
        eprintln!("no libslotsheet.a and no libcapi.a in {}: set SLOTSHEET_LIB to the folder that has one", folder.display());
        std::process::exit(1);
    };
    println!("cargo::rerun-if-changed={}", archive(&folder, name).display());
    println!("cargo::rustc-link-search=native={}", folder.display());
    println!("cargo::rustc-link-lib=static={name}");
}

fn archive(folder: &Path, name: &str) -> PathBuf {
    folder.join(format!("lib{name}.a"))
}
