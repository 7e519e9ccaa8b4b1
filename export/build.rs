//! Links the static library. `WALDIMU_ARCHIVE` names it; without that the one
//! that `rt lib` leaves in the folder of the crate `waldimu` is taken.

use std::env;
use std::path::PathBuf;

fn main() {
    println!("cargo::rerun-if-env-changed=WALDIMU_ARCHIVE");
    let here = PathBuf::from(env::var("CARGO_MANIFEST_DIR").expect("cargo sets it"));
    let archive = env::var("WALDIMU_ARCHIVE")
        .map_or_else(|_| here.join("../crates/waldimu/out/libwaldimu.a"), PathBuf::from);
    println!("cargo::rerun-if-changed={}", archive.display());
    let Ok(archive) = archive.canonicalize() else {
        println!(
            "cargo::error=there is no static library at {}: `examples/archive.sh` makes it, or WALDIMU_ARCHIVE names it",
            archive.display()
        );
        return;
    };
    let folder = archive.parent().expect("a file stands in a folder");
    let file = archive.file_name().expect("a file has a name").to_string_lossy();
    println!("cargo::rustc-link-search=native={}", folder.display());
    println!("cargo::rustc-link-lib=static:+verbatim={file}");
}
