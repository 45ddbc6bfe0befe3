//! Links the proved executive, if it is asked for: TANKWESHO_LIBRARY is the folder of its static libraries.

fn main() {
    println!("cargo:rerun-if-env-changed=TANKWESHO_LIBRARY");
    if std::env::var_os("CARGO_FEATURE_PROVED").is_some() {
        let folder = std::env::var("TANKWESHO_LIBRARY").expect("TANKWESHO_LIBRARY names the folder of libtankwesho.a and libreplay.a");
        println!("cargo:rustc-link-search=native={folder}");
        for library in ["tankwesho", "replay"] {
            println!("cargo:rerun-if-changed={folder}/lib{library}.a");
            println!("cargo:rustc-link-lib=static={library}");
        }
    }
}
