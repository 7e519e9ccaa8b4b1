//! Points the library at luck's own files, which stay where they are.
//!
//! `LUCK_SRC` names the folder that holds `crates/`; without it luck is looked
//! for beside the repository, and a warning says where it was found.
//! `WALDIMU_ARCHIVE` names the static library to link, if any.

use std::path::{Path, PathBuf};
use std::{env, fs};

const FILES: [(&str, &str); 8] = [
    ("luck_semantic", "scope"),
    ("luck_semantic", "analysis"),
    ("luck_linter", "call"),
    ("luck_linter", "cfg"),
    ("luck_linter", "local_flow"),
    ("luck_linter", "node_type"),
    ("luck_linter", "rule"),
    ("luck_linter", "uninitialized"),
];

fn main() {
    println!("cargo::rerun-if-env-changed=LUCK_SRC");
    let here = PathBuf::from(env::var("CARGO_MANIFEST_DIR").unwrap());
    let out = PathBuf::from(env::var("OUT_DIR").unwrap());
    let root = env::var("LUCK_SRC").map_or_else(|_| beside(&here), PathBuf::from);
    let root = root.canonicalize().expect("LUCK_SRC names no folder");

    let mut modules = String::new();
    for (krate, name) in FILES {
        let file = root.join("crates").join(krate).join("src").join(format!("{name}.rs"));
        println!("cargo::rerun-if-changed={}", file.display());
        let taken = if name == "cfg" { with_child(&file, &here, &out) } else { file };
        modules += &format!("#[path = {taken:?}]\npub(crate) mod {name};\n");
    }
    fs::write(out.join("luck.rs"), modules).unwrap();
    link_archive();
}

/// Where luck stands beside the repository, as in `luck-src.sh`.
fn beside(here: &Path) -> PathBuf {
    for place in ["../luck", "../shared/docs/src"] {
        let root = here.join("..").join(place);
        if root.join("crates/luck_linter/src/cfg.rs").exists() {
            println!("cargo::warning=luck's files are taken from {place}, beside the repository");
            return root;
        }
    }
    panic!("luck's files are not at hand: LUCK_SRC names no place, nor are they beside us")
}

/// With the archive, `cfg(library)` holds and the program calls it.
fn link_archive() {
    println!("cargo::rustc-check-cfg=cfg(library)");
    println!("cargo::rerun-if-env-changed=WALDIMU_ARCHIVE");
    if let Ok(archive) = env::var("WALDIMU_ARCHIVE") {
        println!("cargo::rerun-if-changed={archive}");
        println!("cargo::rustc-link-arg-bins={archive}");
        println!("cargo::rustc-cfg=library");
    }
}

/// The graph's fields are private to its module, so a child module reads
/// them: luck's text whole, then the line that declares the child.
fn with_child(file: &Path, here: &Path, out: &Path) -> PathBuf {
    let text = fs::read_to_string(file).expect("luck's cfg.rs cannot be read");
    let child = here.join("luck/cells.rs");
    let taken = out.join("cfg.rs");
    let text = format!("{text}\n#[path = {child:?}]\npub(crate) mod cells;\n");
    fs::write(&taken, text).unwrap();
    taken
}
