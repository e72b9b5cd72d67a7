//! Makes the module tree of the Rust's own files in OUT_DIR; none of their text stands in this repository.
//! The files are read from ../../shared/docs/src/rust or from the folder named by RUST_FILES.

use std::path::{Path, PathBuf};
use std::{env, fs};

/// Files of the Rust, built unchanged.
const UNCHANGED: [&str; 5] = ["generator", "mir", "serializer", "symbol", "utils"];
/// Files that stand in for what those lean on.
const STUBS: [&str; 4] = ["code", "config", "machine", "strings"];
/// Stubs of the two modules inside mir.rs.
const INSIDE_MIR: [&str; 2] = ["interpreter", "peephole"];

fn main() {
    let here = PathBuf::from(env::var("CARGO_MANIFEST_DIR").unwrap());
    let tree = PathBuf::from(env::var("OUT_DIR").unwrap());
    let files = match env::var("RUST_FILES") {
        Ok(folder) => PathBuf::from(folder),
        Err(_) => here.join("../../shared/docs/src/rust"),
    };
    println!("cargo:rerun-if-env-changed=RUST_FILES");

    let mut text = String::new();
    for name in UNCHANGED {
        copy(&files, &tree, name);
        text += &module(&tree, name);
    }
    for name in STUBS {
        copy(&here.join("stubs"), &tree, name);
        text += &module(&tree, name);
    }
    for name in INSIDE_MIR {
        copy(&here.join("stubs"), &tree, name);
    }
    copy(&files, &tree, "complexify");
    copy(&here.join("stubs"), &tree, "behind");
    text += &with_more(&tree);
    fs::write(tree.join("tree.rs"), text).unwrap();

    link(&here);
}

/// Copies NAME.rs into the tree, where `mod` lines inside mir.rs find their stubs beside it.
fn copy(from: &Path, tree: &Path, name: &str) {
    let file = from.join(name).with_extension("rs");
    println!("cargo:rerun-if-changed={}", file.display());
    let text = fs::read(&file).unwrap_or_else(|e| panic!("{}: {e}", file.display()));
    fs::write(tree.join(name).with_extension("rs"), text).unwrap();
}

fn module(tree: &Path, name: &str) -> String {
    format!("#[path = {:?}]\npub mod {name};\n", tree.join(name).with_extension("rs"))
}

/// complexify.rs unchanged, and behind it functions of our own that read its private record of realness and call its methods.
fn with_more(tree: &Path) -> String {
    let [file, behind] = ["complexify.rs", "behind.rs"].map(|name| tree.join(name));
    format!("pub mod complexify {{\n    include!({file:?});\n    include!({behind:?});\n}}\n")
}

/// With the feature `linked`: the library of the C functions, from ../target/staticlib or the folder named by INTERFACE.
fn link(here: &Path) {
    println!("cargo:rerun-if-env-changed=INTERFACE");
    if env::var("CARGO_FEATURE_LINKED").is_err() {
        return;
    }
    let folder = match env::var("INTERFACE") {
        Ok(folder) => PathBuf::from(folder),
        Err(_) => here.join("../target/staticlib"),
    };
    println!("cargo:rustc-link-search=native={}", folder.display());
    println!("cargo:rerun-if-changed={}", folder.join("libtulipcricket.a").display());
    println!("cargo:rustc-link-lib=static=tulipcricket");
}
