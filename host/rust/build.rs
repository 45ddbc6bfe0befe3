//! Links the proved archive that `host/library` writes: from TANKWESHO_LIBRARY_FOLDER, else from the repository's target/native.
use std::env;
use std::path::PathBuf;

fn main() {
    let beside = || PathBuf::from(env::var_os("CARGO_MANIFEST_DIR").unwrap()).join("../../target/native");
    let folder = env::var_os("TANKWESHO_LIBRARY_FOLDER").map_or_else(beside, PathBuf::from);
    let archive = folder.join("libtankwesho.a");
    assert!(archive.is_file(), "{} is not there: `host/library` writes it", archive.display());
    println!("cargo:rustc-link-search=native={}", folder.display());
    println!("cargo:rustc-link-lib=static=tankwesho");
    println!("cargo:rerun-if-changed={}", archive.display());
    println!("cargo:rerun-if-env-changed=TANKWESHO_LIBRARY_FOLDER");
}
