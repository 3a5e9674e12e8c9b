//! For build scripts: links archives that `tools/build` writes at the top of the repository, or those in the folder that
//! `OSNMA_STATICLIB` names. Checking and documenting need none: where one is missing, only a warning says so here, and the
//! link fails.

use std::path::{Path, PathBuf};

/// Links each library by its name; `what` names them in the warning.
pub fn link_archives(what: &str, libraries: &[&str]) {
    println!("cargo:rerun-if-env-changed=OSNMA_STATICLIB");
    println!("cargo:rerun-if-changed=build.rs");
    let folder = std::env::var_os("OSNMA_STATICLIB").map_or_else(
        || Path::new(env!("CARGO_MANIFEST_DIR")).join("../../target/staticlib"),
        PathBuf::from,
    );
    for library in libraries {
        let archive = folder.join(format!("lib{library}.a"));
        println!("cargo:rerun-if-changed={}", archive.display());
        if !archive.exists() {
            println!(
                "cargo:warning={what}: {} is missing; `tools/build {library}` at the top of the repository makes it",
                archive.display()
            );
        }
        println!("cargo:rustc-link-lib=static={library}");
    }
    println!("cargo:rustc-link-search=native={}", folder.display());
}
