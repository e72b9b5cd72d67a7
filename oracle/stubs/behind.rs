// Stands behind complexify.rs in its module, so that its private parts are at hand.

/// The record of realness.
pub fn realness(c: &Complexifier) -> (&[bool; 32], &HashSet<Loc>) {
    (&c.real_regs, &c.real_locs)
}

/// What methods of the Rust list, called one by one over these constants, as `complexify` gives it back.
pub fn listed_by(c: &mut Complexifier, constants: &[f64], methods: impl FnOnce(&mut Complexifier)) -> Mir {
    c.mir.consts = constants.to_vec();
    methods(c);
    let config = c.mir.config.clone();
    std::mem::replace(&mut c.mir, Mir::new(config))
}

/// Document 02, n): "Half lists its imaginary line only for a register recorded as complex, and for either record copies it to the
/// destination."
pub fn half_minding(c: &mut Complexifier, dst: Reg, s1: Reg) {
    if c.is_real_reg(s1) {
        c.mir.half(re(dst), re(s1));
    } else {
        c.half(dst, s1);
    }
    c.copy_real(dst, s1);
}

/// Document 02, n): "a Divide by a complex register into Temp is listed as one into Ret followed by a move to Temp".
pub fn divide_by_ret(c: &mut Complexifier, s1: Reg, s2: Reg) {
    c.stable_divide(Reg::Ret, s1, s2);
    c.fmov(Reg::Temp, Reg::Ret);
}
