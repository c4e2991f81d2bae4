//! Links libnurl.a from the folder that NURL_LIB_DIR names, or else from the
//! place where the repository's build writes it.

use std::path::PathBuf;

fn main() {
    println!("cargo:rerun-if-env-changed=NURL_LIB_DIR");
    let folder = match std::env::var_os("NURL_LIB_DIR") {
        Some(folder) => PathBuf::from(folder),
        None => PathBuf::from(env!("CARGO_MANIFEST_DIR")).join("../../target/staticlib"),
    };
    let archive = folder.join("libnurl.a");
    println!("cargo:rerun-if-changed={}", archive.display());
    if !archive.exists() {
        println!("cargo:warning=no libnurl.a: run `tools/build library` or set NURL_LIB_DIR");
    }
    println!("cargo:rustc-link-search=native={}", folder.display());
    println!("cargo:rustc-link-lib=static=nurl");
}
