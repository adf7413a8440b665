//! Links the static library of the exported call.

use std::path::Path;

fn main() {
    let library = Path::new(env!("CARGO_MANIFEST_DIR")).join("../../target/staticlib");
    println!("cargo:rustc-link-search=native={}", library.display());
    println!("cargo:rustc-link-lib=static=listing");
    println!(
        "cargo:rerun-if-changed={}",
        library.join("liblisting.a").display()
    );
}
