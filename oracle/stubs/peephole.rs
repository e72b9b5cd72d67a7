//! Stands in for the peephole optimiser of mir.rs, which `complexify` does not call.
