//! Links the archive: from the folder that `MAPDB_ARCHIVE` names, or from where `rt lib` builds it.

use std::env;
use std::path::PathBuf;

fn main() {
    let here = env::var("CARGO_MANIFEST_DIR").expect("cargo names the package's folder");
    let folder = env::var("MAPDB_ARCHIVE")
        .map(PathBuf::from)
        .unwrap_or_else(|_| PathBuf::from(here).join("../../crates/mapdb_c/out"));
    println!("cargo:rustc-link-search=native={}", folder.display());
    println!("cargo:rustc-link-lib=static=mapdb_c");
    println!("cargo:rerun-if-env-changed=MAPDB_ARCHIVE");
    println!(
        "cargo:rerun-if-changed={}",
        folder.join("libmapdb_c.a").display()
    );
}
