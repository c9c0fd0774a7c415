//! Links the proved library, libpelunziwa.a.

use std::env;
use std::path::PathBuf;

fn main() {
    println!("cargo:rerun-if-changed=build.rs");
    println!("cargo:rerun-if-env-changed=PELUNZIWA_LIB_DIR");
    let dir = lib_dir();
    println!(
        "cargo:rerun-if-changed={}",
        dir.join("libpelunziwa.a").display()
    );
    println!("cargo:rustc-link-search=native={}", dir.display());
    println!("cargo:rustc-link-lib=static=pelunziwa");
}

/// PELUNZIWA_LIB_DIR, or where the build of the whole product leaves the library.
fn lib_dir() -> PathBuf {
    match env::var_os("PELUNZIWA_LIB_DIR") {
        Some(dir) => PathBuf::from(dir),
        None => {
            let package = env::var_os("CARGO_MANIFEST_DIR").expect("set by cargo");
            PathBuf::from(package).join("../target/staticlib")
        }
    }
}
