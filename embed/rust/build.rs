//! Links the archive that `embed/check build` made.
use std::{env, path::Path};

fn main() {
    let here = env::var("CARGO_MANIFEST_DIR").unwrap_or_default();
    let folder = Path::new(&here).join("../out");
    println!(
        "cargo:rerun-if-changed={}",
        folder.join("libdisplaymap.a").display()
    );
    println!("cargo:rustc-link-search=native={}", folder.display());
    println!("cargo:rustc-link-lib=static=displaymap");
}
