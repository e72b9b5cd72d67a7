//! Stands in for code.rs: the functions a formula may call. Sheets call none.

use anyhow::{anyhow, Result};

#[derive(Clone)]
pub enum Func {
    Unary(()),
    Binary(()),
    UnaryCplx(()),
    BinaryCplx(()),
    PairedUnary(()),
    Slice {},
    App(()),
    Recursive,
}

pub struct VirtualTable;

impl VirtualTable {
    pub fn from_str(op: &str) -> Result<Func> {
        Err(anyhow!("no function {}", op))
    }
}
