//! Links the proved library, which `scripts/build` writes to target/staticlib.
use std::path::Path;

fn main() {
    let root = Path::new(env!("CARGO_MANIFEST_DIR")).join("../..");
    let archives = root.join("target/staticlib");
    println!(
        "cargo:rerun-if-changed={}",
        archives.join("libqoriwesh.a").display()
    );
    println!("cargo:rustc-link-search=native={}", archives.display());
    println!("cargo:rustc-link-lib=static=qoriwesh");
}
