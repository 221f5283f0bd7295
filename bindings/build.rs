//! Links the archive that `rt lib` writes in `crates/vetrhoss`.

use std::path::Path;

fn main() {
    let folder = Path::new(env!("CARGO_MANIFEST_DIR")).join("../crates/vetrhoss/out");
    let archive = folder.join("libvetrhoss.a");
    println!("cargo::rerun-if-changed={}", archive.display());
    assert!(
        archive.exists(),
        "there is no crates/vetrhoss/out/libvetrhoss.a: run rt lib in crates/vetrhoss"
    );
    println!("cargo::rustc-link-search=native={}", folder.display());
    println!("cargo::rustc-link-lib=static=vetrhoss");
}
