//! The running peak, written from document 02, e): each window looked through anew.

/// "12 for w outside its range, a run too long, or an output shorter than the run".
pub const TURNED_AWAY: u32 = 12;
/// "w from 1 to 64".
pub const WINDOW_LIMIT: u64 = 64;
/// "a lent run of up to 4,096 answer words".
pub const RUN_LIMIT: usize = 4_096;
/// "a window of NaNs alone gives 7ff8000000000000".
const NAN: u64 = 0x7ff8_0000_0000_0000;

/// "Minus zero and zero count as equal, and the earlier bits are returned. A NaN is passed over".
fn largest(window: &[u64]) -> u64 {
    let mut found: Option<u64> = None;
    for &word in window {
        let x = f64::from_bits(word);
        let above = match found {
            None => !x.is_nan(),
            Some(best) => f64::from_bits(best) < x,
        };
        if above {
            found = Some(word);
        }
    }
    found.unwrap_or(NAN)
}

/// "Give for each position the largest in the window that ends there; early windows are shorter. .. Words of the output past the run are as
/// lent." The number.
pub fn peak(run: &[u64], w: u64, out: &mut [u64]) -> u32 {
    if !(1..=WINDOW_LIMIT).contains(&w) || run.len() > RUN_LIMIT || out.len() < run.len() {
        return TURNED_AWAY;
    }
    for i in 0..run.len() {
        let first = (i + 1).saturating_sub(w as usize);
        out[i] = largest(&run[first..=i]);
    }
    0
}
