//! Links the engine's static library, which `make target/staticlib/libexports.a` writes. COREFUN_LIB names another folder that holds it.

use std::path::{Path, PathBuf};

fn main() {
    println!("cargo:rerun-if-env-changed=COREFUN_LIB");
    let folder = match std::env::var_os("COREFUN_LIB") {
        Some(folder) => PathBuf::from(folder),
        None => Path::new(env!("CARGO_MANIFEST_DIR")).join("../../target/staticlib"),
    };
    println!("cargo:rustc-link-search=native={}", folder.display());
    println!("cargo:rustc-link-lib=static=exports");
    println!("cargo:rerun-if-changed={}", folder.join("libexports.a").display());
}
