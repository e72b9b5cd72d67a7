//! With the feature `linked`: the library of the C functions, from ../../target/staticlib or the folder named by FLOAT_CALLS.

use std::env;
use std::path::PathBuf;

fn main() {
    println!("cargo:rerun-if-env-changed=FLOAT_CALLS");
    if env::var("CARGO_FEATURE_LINKED").is_err() {
        return;
    }
    let folder = match env::var("FLOAT_CALLS") {
        Ok(folder) => PathBuf::from(folder),
        Err(_) => PathBuf::from(env::var("CARGO_MANIFEST_DIR").unwrap()).join("../../target/staticlib"),
    };
    println!("cargo:rustc-link-search=native={}", folder.display());
    println!("cargo:rerun-if-changed={}", folder.join("libfloat_calls.a").display());
    println!("cargo:rustc-link-lib=static=float_calls");
}
