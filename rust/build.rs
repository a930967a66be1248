//! Links the archive that `make lib` writes.
use std::path::Path;

fn main() {
    let here = std::env::var("CARGO_MANIFEST_DIR").expect("cargo sets it");
    let archives = Path::new(&here).join("../target/staticlib");
    println!("cargo:rustc-link-search=native={}", archives.display());
    println!("cargo:rustc-link-lib=static=wellcherry");
    println!("cargo:rerun-if-changed={}", archives.join("libwellcherry.a").display());
}
