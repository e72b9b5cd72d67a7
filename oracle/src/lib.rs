//! The independent side of every comparison: the Rust's own lowering behind document 01's wrapper, and a player.

#![allow(uncommon_codepoints)] // a name in complexify.rs

pub mod boundary;
pub mod branches;
pub mod claim;
pub mod drawn;
pub mod encode;
#[cfg(feature = "linked")]
pub mod ffi;
pub mod flow;
pub mod format;
pub mod inputs;
pub mod lists;
pub mod look;
pub mod machine;
pub mod make;
pub mod marks;
pub mod meaning;
pub mod names;
pub mod nearest;
pub mod pages;
pub mod peak;
pub mod player;
pub mod points;
pub mod print;
pub mod randles;
pub mod random;
pub mod reference;
pub mod rust;
pub mod tidy;
pub mod value;
