//! The Rust's own files, unchanged, over the stubs of ../stubs (build.rs makes the tree).

#![allow(warnings)]

include!(concat!(env!("OUT_DIR"), "/tree.rs"));
