//! Links the setter, which the toolchain has built as a static library.

use std::path::Path;

fn main() {
    let folder = Path::new(env!("CARGO_MANIFEST_DIR")).join("../crates/exports/out");
    let library = folder.join("libexports.a");
    assert!(
        library.exists(),
        "{} is not there: build the setter first",
        library.display()
    );
    println!("cargo:rerun-if-changed={}", library.display());
    println!("cargo:rustc-link-search=native={}", folder.display());
    println!("cargo:rustc-link-lib=static=exports");
}
