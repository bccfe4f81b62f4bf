// Links the proved library, which `rt lib` writes in the folder of the crate `exported`.
use std::path::Path;

fn main() {
    let folder = Path::new(env!("CARGO_MANIFEST_DIR")).join("../crates/exported/out");
    let library = folder.join("libexported.a");
    if !library.exists() {
        panic!("run `rt lib` in crates/exported first");
    }
    println!("cargo:rerun-if-changed={}", library.display());
    println!("cargo:rustc-link-search=native={}", folder.display());
    println!("cargo:rustc-link-lib=static=exported");
}
