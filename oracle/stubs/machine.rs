//! Stands in for machine.rs: compiled machine code, which the lowering never makes.

pub struct MachineCode<T> {
    _values: std::marker::PhantomData<T>,
}
