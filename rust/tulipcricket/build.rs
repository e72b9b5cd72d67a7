//! Links libtulipcricket.a: of the folder that TULIPCRICKET_LIB_DIR names; else of an installed copy that pkg-config knows; else of the
//! repository around this package. Where it is in none of them, says what to do.

use std::env;
use std::path::{Path, PathBuf};
use std::process::{exit, Command};

const LIBRARY: &str = "libtulipcricket.a";

/// The folder of an installed copy of this version or a later one.
fn installed() -> Option<PathBuf> {
    let program = env::var("PKG_CONFIG").unwrap_or_else(|_| "pkg-config".to_string());
    let ask = |word: &str| Command::new(&program).args([word, "tulipcricket"]).output().ok();
    let wanted = format!("--atleast-version={}", env::var("CARGO_PKG_VERSION").unwrap());
    if !ask(&wanted)?.status.success() {
        return None;
    }
    let said = ask("--variable=libdir")?;
    let folder = PathBuf::from(String::from_utf8(said.stdout).ok()?.trim());
    folder.join(LIBRARY).is_file().then_some(folder)
}

/// The repository's folder, in which c/library makes the library.
fn repository() -> PathBuf {
    PathBuf::from(env::var("CARGO_MANIFEST_DIR").unwrap()).join("../../target/staticlib")
}

fn says_what_to_do(folder: &Path) -> ! {
    eprintln!("{} is not there.", folder.join(LIBRARY).display());
    eprintln!(
        "Run c/library in Tulipcricket's repository, which makes it, or name its folder by TULIPCRICKET_LIB_DIR."
    );
    eprintln!("An installed copy is found by pkg-config (PKG_CONFIG_PATH names the folder of its tulipcricket.pc).");
    exit(1);
}

fn main() {
    for variable in ["TULIPCRICKET_LIB_DIR", "PKG_CONFIG", "PKG_CONFIG_PATH", "PKG_CONFIG_LIBDIR"] {
        println!("cargo:rerun-if-env-changed={variable}");
    }
    let folder = match env::var("TULIPCRICKET_LIB_DIR") {
        Ok(folder) => PathBuf::from(folder),
        Err(_) => installed().unwrap_or_else(repository),
    };
    println!("cargo:rerun-if-changed={}", folder.join(LIBRARY).display());
    if !folder.join(LIBRARY).is_file() {
        says_what_to_do(&folder);
    }
    println!("cargo:rustc-link-search=native={}", folder.display());
    println!("cargo:rustc-link-lib=static=tulipcricket");
}
