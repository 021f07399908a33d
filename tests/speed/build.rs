//! Links the archive that `tools/native-archive` has made.

use std::path::Path;

fn main() {
    let here = std::env::var("CARGO_MANIFEST_DIR").expect("cargo names the package's folder");
    let folder = Path::new(&here).join("../../target/native");
    println!("cargo:rustc-link-search=native={}", folder.display());
    println!("cargo:rustc-link-lib=static=holmweder");
    println!(
        "cargo:rerun-if-changed={}",
        folder.join("libholmweder.a").display()
    );
}
