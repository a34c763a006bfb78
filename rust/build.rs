//! Finds the library: the folder that VRIKSHONEM_LIB names, or the one that tools/build made in this repository.

use std::path::Path;

fn main() {
    println!("cargo:rerun-if-env-changed=VRIKSHONEM_LIB");
    let named = std::env::var_os("VRIKSHONEM_LIB").filter(|named| !named.is_empty());
    // A path that is not whole begins here, wherever cargo was called; a warning shows it whole.
    let folder = Path::new(env!("CARGO_MANIFEST_DIR")).join(named.unwrap_or_else(|| "../target/host/lib".into()));
    let archive = folder.join("libvrikshonem.a");
    println!("cargo:rerun-if-changed={}", archive.display());
    if !archive.exists() {
        println!(
            "cargo:warning={} is not there: run tools/build, or set VRIKSHONEM_LIB to the library's folder",
            archive.display()
        );
    }
    println!("cargo:rustc-link-search=native={}", folder.display());
    println!("cargo:rustc-link-lib=static=vrikshonem");
}
