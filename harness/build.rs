//! Links the static library, by default the one that `bash tools/library`
//! leaves in the project's target folder.

use std::env;
use std::path::{Path, PathBuf};

fn main() {
    println!("cargo:rerun-if-env-changed=LONGWAVE_LIB_DIR");
    let folder = env::var_os("LONGWAVE_LIB_DIR").map_or_else(usual_folder, PathBuf::from);
    let archive = folder.join("liblongwave.a");
    println!("cargo:rerun-if-changed={}", archive.display());
    assert!(
        archive.is_file(),
        "{} is missing: run `bash tools/library` first, or name its folder in LONGWAVE_LIB_DIR",
        archive.display()
    );
    println!("cargo:rustc-link-search=native={}", folder.display());
    println!("cargo:rustc-link-lib=static=longwave");
}

fn usual_folder() -> PathBuf {
    let manifest = env::var_os("CARGO_MANIFEST_DIR").expect("cargo sets CARGO_MANIFEST_DIR");
    Path::new(&manifest).join("../target/staticlib")
}
