//! Finds libbestore in the folder given by `BESTORE_LIB_DIR`, or otherwise through pkg-config.

use std::env;
use std::path::{Path, PathBuf};
use std::process::exit;

/// The lowest version of the library that has all the calls that this crate declares.
const LOWEST: &str = env!("CARGO_PKG_VERSION");

fn main() {
    println!("cargo:rerun-if-env-changed=BESTORE_LIB_DIR");
    println!("cargo:rerun-if-env-changed=BESTORE_STATIC");
    if env::var_os("DOCS_RS").is_some() {
        return;
    }
    match env::var_os("BESTORE_LIB_DIR").filter(|folder| !folder.is_empty()) {
        Some(folder) => link_from(&PathBuf::from(folder)),
        None => link_by_pkg_config(),
    }
}

fn link_from(folder: &Path) {
    let folder = folder
        .canonicalize()
        .unwrap_or_else(|error| fail(&format!("BESTORE_LIB_DIR names {}: {error}", folder.display())));
    let shared = folder.join("libbestore.so").exists();
    let archive = folder.join("libbestore.a").exists();
    if !shared && !archive {
        fail(&format!(
            "neither libbestore.so nor libbestore.a is in {}, the folder that BESTORE_LIB_DIR names",
            folder.display()
        ));
    }
    let as_archive = archive && (!shared || env::var_os("BESTORE_STATIC").is_some());
    let kind = if as_archive { "static" } else { "dylib" };
    println!("cargo:rerun-if-changed={}", folder.display());
    println!("cargo:rustc-link-search=native={}", folder.display());
    println!("cargo:rustc-link-lib={kind}=bestore");
}

fn link_by_pkg_config() {
    let found = pkg_config::Config::new().atleast_version(LOWEST).probe("bestore");
    if let Err(error) = found {
        fail(&format!(
            "libbestore {LOWEST} or later was not found.\n\
             Name the folder that has libbestore.so or libbestore.a by BESTORE_LIB_DIR,\n\
             or the folder that has bestore.pc by PKG_CONFIG_PATH.\n\n{error}"
        ));
    }
}

fn fail(message: &str) -> ! {
    eprintln!("bestore-sys: {message}");
    exit(1)
}
