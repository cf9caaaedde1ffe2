//! Links the static library and gives the tests the path of the program `panelshow`. SPS_ARCHIVE and PANELSHOW name others.

use std::path::{Path, PathBuf};

fn place(variable: &str, standard: &str) -> PathBuf {
    println!("cargo::rerun-if-env-changed={variable}");
    let here = Path::new(env!("CARGO_MANIFEST_DIR"));
    let path = std::env::var_os(variable).map_or(here.join(standard), PathBuf::from);
    println!("cargo::rerun-if-changed={}", path.display());
    path
}

fn main() {
    let archive = place("SPS_ARCHIVE", "../../target/staticlib/libsps.a");
    println!("cargo::rustc-link-search=native={}", archive.parent().unwrap().display());
    println!("cargo::rustc-link-lib=static:+verbatim={}", archive.file_name().unwrap().to_str().unwrap());
    println!("cargo::rustc-env=PANELSHOW={}", place("PANELSHOW", "../../target/bin/panelshow").display());
}
