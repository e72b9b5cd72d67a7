//! speed-floats: the time of a call of each C function of `float_calls` beside the hardware's operation, in one run.
//!
//! Every operation works on the same operands, 4096 tuples of normal numbers about 1, none of them a NaN. "called" is the
//! hardware's operation in a C function of its own; it and the function of `float_calls` are called in the same way, through a
//! pointer. "inline" is the operation in the loop. Each is the least of 60 rounds, in nanoseconds for one operation; the ratios
//! are of `float` to each.

use oracle_float::calls::*;
use oracle_float::hardware;
use oracle_float::random::Rng;
use std::hint::black_box;
use std::time::Instant;

const TUPLES: usize = 4096;
const REPEATS: usize = 12;
const ROUNDS: usize = 60;

type Row = [u64; 4];

fn rows() -> Vec<Row> {
    let mut rng = Rng(7);
    // From 2^-8 to 2^8, either sign; the last operand is above 0, and Root is of that one.
    let mut word = |last| {
        let size = 0x3f70_0000_0000_0000 + rng.bits() % 0x0100_0000_0000_0000;
        if last {
            size
        } else {
            size | rng.bits() << 63
        }
    };
    (0..TUPLES).map(|_| [false, false, false, true].map(&mut word)).collect()
}

/// The time of one turn in nanoseconds, least of the rounds.
fn time(mut turn: impl FnMut()) -> f64 {
    let mut least = f64::MAX;
    for _ in 0..ROUNDS {
        let start = Instant::now();
        turn();
        least = least.min(start.elapsed().as_secs_f64());
    }
    least * 1e9 / (TUPLES * REPEATS) as f64
}

/// A loop over the tuples that hands each one to an operation and keeps its result.
macro_rules! turns {
    ($rows:ident, $r:ident => $call:expr) => {
        time(|| {
            for _ in 0..REPEATS {
                for $r in black_box(&$rows) {
                    black_box($call);
                }
            }
        })
    };
}

/// The type of a word, once for each operand.
macro_rules! word {
    ($word:ident) => {
        u64
    };
}

/// One line of the table: the C function and the hardware's operation called in the same way, and the latter in the loop.
macro_rules! line {
    ($rows:ident, $name:literal, $ours:ident, $hardware:expr, $($word:ident $at:literal),*) => {{
        unsafe extern "C" fn hardware($($word: u64),*) -> u64 {
            $hardware($($word),*)
        }
        type Call = unsafe extern "C" fn($(word!($word)),*) -> u64;
        let (ours, theirs): (Call, Call) = (black_box($ours), black_box(hardware));
        // SAFETY: both functions take words by value, ask nothing of them and touch no memory of ours.
        let float = turns!($rows, r => unsafe { ours($(r[$at]),*) });
        let called = turns!($rows, r => unsafe { theirs($(r[$at]),*) });
        let inline = turns!($rows, r => $hardware($(r[$at]),*));
        let (to_called, to_inline) = (float / called, float / inline);
        println!("| {} | {float:.2} | {called:.2} | {inline:.2} | {to_called:.1} | {to_inline:.1} |", $name);
    }};
}

/// The real word of a complex operation of the hardware.
macro_rules! real {
    ($f:ident) => {
        |x1, y1, x2, y2| hardware::$f([x1, y1], [x2, y2])[0]
    };
}

fn main() {
    let rows = rows();
    println!("| Operation | float, called | hardware, called | hardware, inline | to called | to inline |");
    println!("|---|---|---|---|---|---|");
    line!(rows, "Plus", tulipcricket_plus, hardware::plus, a 0, b 1);
    line!(rows, "Minus", tulipcricket_minus, hardware::minus, a 0, b 1);
    line!(rows, "Times", tulipcricket_times, hardware::times, a 0, b 1);
    line!(rows, "Divide", tulipcricket_divide, hardware::divide, a 0, b 1);
    line!(rows, "Half", tulipcricket_half, hardware::half, a 0);
    line!(rows, "Recip", tulipcricket_recip, hardware::recip, a 0);
    line!(rows, "GreaterThan", tulipcricket_greater_than, hardware::greater_than, a 0, b 1);
    line!(rows, "LittleThan", tulipcricket_little_than, hardware::little_than, a 0, b 1);
    line!(rows, "GreaterThanEqual", tulipcricket_greater_than_equal, hardware::greater_than_equal, a 0, b 1);
    line!(rows, "LittleThanEqual", tulipcricket_little_than_equal, hardware::little_than_equal, a 0, b 1);
    line!(rows, "Equal", tulipcricket_equal, hardware::equal, a 0, b 1);
    line!(rows, "NotEqual", tulipcricket_not_equal, hardware::not_equal, a 0, b 1);
    line!(rows, "IsZero", tulipcricket_is_zero, hardware::is_zero, a 0);
    line!(rows, "Neg", tulipcricket_neg, hardware::neg, a 0);
    line!(rows, "Abs", tulipcricket_abs, hardware::abs, a 0);
    line!(rows, "Not", tulipcricket_not, hardware::not, a 0);
    line!(rows, "And", tulipcricket_and, hardware::and, a 0, b 1);
    line!(rows, "Or", tulipcricket_or, hardware::or, a 0, b 1);
    line!(rows, "Xor", tulipcricket_xor, hardware::xor, a 0, b 1);
    line!(rows, "Sign", tulipcricket_sign, hardware::sign, a 0);
    line!(rows, "IfElse", tulipcricket_if_else, hardware::if_else, a 0, b 1, c 2);
    line!(rows, "Round", tulipcricket_round, hardware::round, a 0);
    line!(rows, "Floor", tulipcricket_floor, hardware::floor, a 0);
    line!(rows, "Ceiling", tulipcricket_ceiling, hardware::ceiling, a 0);
    line!(rows, "Trunc", tulipcricket_trunc, hardware::trunc, a 0);
    line!(rows, "Root", tulipcricket_root, hardware::root, a 3);
    line!(rows, "MulAdd", tulipcricket_mul_add, hardware::mul_add, a 0, b 1, c 2);
    line!(rows, "PlusComplex, one half", tulipcricket_complex_plus_re, real!(complex_plus), a 0, b 1, c 2, d 3);
    line!(rows, "MinusComplex, one half", tulipcricket_complex_minus_re, real!(complex_minus), a 0, b 1, c 2, d 3);
    line!(rows, "TimesComplex, one half", tulipcricket_complex_times_re, real!(complex_times), a 0, b 1, c 2, d 3);
    line!(rows, "DivideComplex, one half", tulipcricket_complex_divide_re, real!(complex_divide), a 0, b 1, c 2, d 3);
}
