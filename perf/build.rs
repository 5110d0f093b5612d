//! Finds the proved library that `rt lib` writes in the crate xr16.
use std::path::Path;

fn main() {
    let root = std::env::var("CARGO_MANIFEST_DIR").expect("cargo says where the package is");
    let folder = Path::new(&root).join("../crates/xr16/out");
    println!("cargo:rerun-if-changed={}", folder.join("libxr16.a").display());
    println!("cargo:rustc-link-search=native={}", folder.display());
    println!("cargo:rustc-link-lib=static=xr16");
}
