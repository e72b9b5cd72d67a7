//! Stands in for the interpreter of mir.rs, which the lowering never runs.

use super::Mir;

impl Mir {
    pub fn exec_instruction(&self, _mem: &mut [f64], _stack: &mut [f64], _regs: &mut [f64], _params: &[f64]) {
        unreachable!("nothing is executed here")
    }
}
