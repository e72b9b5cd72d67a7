//! Stands in for config.rs: `is_complex` always holds, `stable_math` is the sheet's mode.

use std::collections::HashMap;

use super::code::Func;

pub const SPILL_AREA: usize = 16;
pub const COMPRESSED_ARGS_CAP: usize = 64;

#[derive(Clone, Debug, Default)]
pub struct Config {
    pub df: Option<Defuns>,
    stable: bool,
}

#[derive(Clone, Default)]
pub struct Defuns {
    pub funcs: HashMap<String, Func>,
}

impl std::fmt::Debug for Defuns {
    fn fmt(&self, f: &mut std::fmt::Formatter<'_>) -> std::fmt::Result {
        f.write_str("functions")
    }
}

impl Config {
    pub fn with_mode(stable: bool) -> Config {
        Config { df: None, stable }
    }

    pub fn is_complex(&self) -> bool {
        true
    }

    pub fn stable_math(&self) -> bool {
        self.stable
    }

    pub fn is_external_func(&self, op: &str) -> bool {
        op == "@self"
    }

    pub fn compress(&self) -> bool {
        false
    }

    pub fn num_args(&self) -> u32 {
        COMPRESSED_ARGS_CAP as u32
    }

    pub fn to_toml(&self, _path: &str) {}
}
