//! The nearest reference point, written from document 02, g) and j) alone.

/// What comes back: 02's number, and the index of the nearest point where there is one.
#[derive(Clone, Copy, Debug, PartialEq, Eq)]
pub struct Found {
    pub number: u32,
    pub index: Option<usize>,
}

/// Five operations, each rounded once.
fn distance(answer: [f64; 2], point: [f64; 2]) -> f64 {
    let across = answer[0] - point[0];
    let up = answer[1] - point[1];
    let across = across * across;
    let up = up * up;
    across + up
}

/// The smallest distance is sought first, then the latest point that has it.
pub fn nearest(re: u64, im: u64, words: &[u64]) -> Found {
    if !words.len().is_multiple_of(2) || words.len() > 1024 {
        return Found { number: 13, index: None };
    }
    let answer = [f64::from_bits(re), f64::from_bits(im)];
    let point = |p: &[u64]| [f64::from_bits(p[0]), f64::from_bits(p[1])];
    let distances: Vec<f64> = words.chunks(2).map(|p| distance(answer, point(p))).collect();
    let smallest = distances.iter().copied().filter(|d| !d.is_nan()).reduce(f64::min);
    let index = smallest.and_then(|least| distances.iter().rposition(|d| *d == least));
    Found { number: 0, index }
}
