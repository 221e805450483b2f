//! Names the shared library as programs look for it when they start.

fn main() {
    println!(
        "cargo:rustc-cdylib-link-arg=-Wl,-soname,libbestore-client.so.{}",
        env!("CARGO_PKG_VERSION_MAJOR")
    );
    println!("cargo:rerun-if-changed=build.rs");
}
