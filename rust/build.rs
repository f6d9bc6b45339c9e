//! Links libtongsvale.a, which `tools/build tongsvale` writes to target/staticlib of the repository. `TONGSVALE_LIBRARY` names
//! another folder.
use std::env;
use std::path::{Path, PathBuf};

const FOLDER: &str = "TONGSVALE_LIBRARY";

fn main() {
    println!("cargo::rerun-if-env-changed={FOLDER}");
    let folder = match env::var_os(FOLDER) {
        Some(folder) => PathBuf::from(folder),
        None => {
            let here = env::var("CARGO_MANIFEST_DIR").expect("cargo sets CARGO_MANIFEST_DIR");
            Path::new(&here).join("../target/staticlib")
        }
    };
    let archive = folder.join("libtongsvale.a");
    println!("cargo::rerun-if-changed={}", archive.display());
    if !archive.exists() {
        println!(
            "cargo::error=no {}: run `tools/build tongsvale` in the repository's root first, or name its folder in {FOLDER}",
            archive.display()
        );
        return;
    }
    println!("cargo::rustc-link-search=native={}", folder.display());
    println!("cargo::rustc-link-lib=static=tongsvale");
}
