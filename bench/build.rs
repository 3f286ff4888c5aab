//! With the feature `proved` and without `served`, links the proved library: target/staticlib/libskriemelt.a, which host/library makes. The paths are
//! relative to this folder, so that a copied tree links its own library.

use std::path::Path;

fn main() {
    println!("cargo:rerun-if-changed=build.rs");
    let has = |feature| std::env::var_os(feature).is_some();
    if !has("CARGO_FEATURE_PROVED") || has("CARGO_FEATURE_SERVED") {
        return;
    }
    let folder = Path::new("../target/staticlib");
    let library = folder.join("libskriemelt.a");
    assert!(
        library.exists(),
        "{} is missing: run host/library",
        library.display()
    );
    println!("cargo:rerun-if-changed={}", library.display());
    println!("cargo:rustc-link-search=native={}", folder.display());
}
