//! Links the static library that `host/library.sh` writes.

use std::path::Path;

fn main() {
    let folder = Path::new(env!("CARGO_MANIFEST_DIR")).join("../../target/staticlib");
    let library = folder.join("libreader.a");
    if !library.exists() {
        println!("cargo::error=target/staticlib/libreader.a is not there: run host/library.sh first");
        return;
    }
    println!("cargo::rustc-link-search=native={}", folder.display());
    println!("cargo::rustc-link-lib=static=reader");
    println!("cargo::rerun-if-changed={}", library.display());
}
