//! Links the proved library where the environment variable REKDEUY_LIB names its archive, and sets the
//! cfg `proved`. Without the variable the driver builds with the plain side alone.

use std::path::PathBuf;
use std::{env, fs, process};

fn main() {
    println!("cargo:rustc-check-cfg=cfg(proved)");
    println!("cargo:rerun-if-changed=build.rs");
    println!("cargo:rerun-if-env-changed=REKDEUY_LIB");
    let Some(archive) = env::var_os("REKDEUY_LIB").filter(|value| !value.is_empty()) else {
        return;
    };
    let archive = PathBuf::from(archive);
    let folder = PathBuf::from(env::var_os("OUT_DIR").expect("cargo sets OUT_DIR"));
    // A copy under a fixed name, so that the archive may have any.
    if let Err(error) = fs::copy(&archive, folder.join("librekdeuy_replayed.a")) {
        eprintln!("REKDEUY_LIB: {}: {error}", archive.display());
        process::exit(1);
    }
    println!("cargo:rerun-if-changed={}", archive.display());
    println!("cargo:rustc-link-search=native={}", folder.display());
    println!("cargo:rustc-link-lib=static=rekdeuy_replayed");
    println!("cargo:rustc-cfg=proved");
}
