//! What the Rust lists that a reader of its methods' names would not expect. Each is listed as it is, and played as listed.

use oracle::format::*;
use oracle::names::{bi, uni};
use oracle::player::play;
use oracle::reference::lower_with_points;
use oracle::{make, print};

/// The lines of the last instruction, after LoadConst of these registers, and the whole listing with its constants.
fn listed(stable: bool, real: &[u8], instruction: Vec<u8>) -> (Vec<String>, Vec<u8>, Vec<u64>) {
    let mut row: Vec<Vec<u8>> = real.iter().map(|r| make::load_const(*r, 0)).collect();
    row.push(instruction);
    let (mut listing, mut constants) = (vec![0; LISTING_LIMIT], vec![0; TABLE]);
    let sheet = make::sheet(stable, &[0; 64], &[6.0f64.to_bits()], &row);
    let (answer, points) = lower_with_points(&sheet, &mut listing, &mut constants);
    assert_eq!(answer.number, 0);
    let lines = records(&listing[points[real.len()].bytes..points[real.len() + 1].bytes]);
    let lines = lines.iter().map(|r| print::record(r)).collect();
    listing.truncate(answer.written as usize);
    (lines, listing, constants)
}

fn lines(real: &[u8], instruction: Vec<u8>) -> Vec<String> {
    listed(false, real, instruction).0
}

/// The pair of general register 2 after a play on these words.
fn result(real: &[u8], instruction: Vec<u8>, set: &[(usize, f64)]) -> (f64, f64) {
    let (_, listing, constants) = listed(false, real, instruction);
    let mut store = vec![0; STORE];
    for (index, value) in set {
        store[*index] = value.to_bits();
    }
    assert_eq!(play(&listing, &constants, &mut store, 0).number, 0);
    (f64::from_bits(store[8]), f64::from_bits(store[9]))
}

/// The divisor's real half lies in register 0, which takes the square of its size before it is read as a factor.
#[test]
fn plain_divide_of_real_by_a_complex_temp_or_place() {
    let stack_7 = 66 + 14;
    let (re, im) = result(&[0], make::load_math(3, 2, 0, STACK, 7), &[(stack_7, 1.0), (stack_7 + 1, 1.0)]);
    assert_eq!((re, im), (6.0, -3.0)); // 6 over (1 + i) is 3 - 3i
    let (re, im) = result(&[0], make::bi(bi::DIVIDE, 2, 0, TEMP), &[(0, 1.0), (1, 1.0)]);
    assert_eq!((re, im), (6.0, -3.0));
}

/// Temp is cleared first and compared with itself.
#[test]
fn is_not_zero_of_temp_never_holds() {
    assert_eq!(
        lines(&[], make::uni(uni::IS_NOT_ZERO, 2, TEMP)),
        ["Xor G1 G1 G1", "Xor G0 G0 G0", "NotEqual G9 G1 G1", "NotEqual G8 G0 G0", "Or G8 G8 G9"]
    );
    assert_eq!(result(&[], make::uni(uni::IS_NOT_ZERO, 2, TEMP), &[(0, 5.0)]).0.to_bits(), 0);
}

/// Likewise IsZero, which therefore always holds; it lists Equal, and never a Uni IsZero.
#[test]
fn is_zero_of_temp_always_holds() {
    assert_eq!(
        lines(&[], make::uni(uni::IS_ZERO, 2, TEMP)),
        ["Xor G1 G1 G1", "Xor G0 G0 G0", "Equal G9 G1 G1", "Equal G8 G0 G0", "And G8 G8 G9"]
    );
    assert_eq!(result(&[], make::uni(uni::IS_ZERO, 2, TEMP), &[(0, 5.0)]).0.to_bits(), u64::MAX);
}

/// The load into Temp comes before Temp is read.
#[test]
fn load_math_of_temp_reads_the_place_twice() {
    assert_eq!(
        lines(&[], make::load_math(1, 2, TEMP, MEM, 7)),
        ["LoadComplex G0 G1 Mem 7", "MinusComplex G8 G9 G0 G1 G0 G1"]
    );
    assert_eq!(lines(&[], make::load_const_math(1, 2, TEMP, 0)), ["LoadConst G0 0", "Minus G8 G0 G0"]);
}

/// And, Or and Xor take the real word of a real operand for its imaginary half.
#[test]
fn bit_operations_of_real_and_complex() {
    assert_eq!(lines(&[0], make::bi(bi::AND, 2, 0, 1)), ["And G9 G4 G7", "And G8 G4 G6"]);
    assert_eq!(lines(&[1], make::bi(bi::OR, 2, 0, 1)), ["Or G9 G5 G6", "Or G8 G4 G6"]);
    assert_eq!(lines(&[0], make::bi(bi::XOR, 2, 0, 1)), ["Xor G9 G4 G7", "Xor G8 G4 G6"]);
}

/// Only the rerun of a Mov leaves out equal registers; the moves inside Root are listed whatever they move.
#[test]
fn root_lists_moves_of_a_register_to_itself() {
    let found = lines(&[], make::uni(uni::ROOT, RET, TEMP));
    assert_eq!(found[..5], ["Mov G0 G0", "Mov G1 G1", "Call 1", "Mov Ret Ret", "Mov Temp Temp"]);
}

/// A Fused rounds twice: its product goes to Ret first.
#[test]
fn fused_is_not_fused() {
    assert_eq!(lines(&[0, 1, 3], make::fused(0, 2, 0, 1, 3)), ["Times Ret G4 G6", "Plus G8 Ret G10"]);
    assert_eq!(lines(&[0, 1, 3], make::fused(2, 2, 0, 1, 3)), ["Times Ret G4 G6", "Minus G8 G10 Ret"]);
    assert_eq!(lines(&[0, 1, 3], make::fused(3, 2, 0, 1, 3)), ["Times Ret G4 G6", "Plus G8 Ret G10", "Neg G8 G8"]);
}

/// The real half of Ret is scratch of a stable Abs.
#[test]
fn stable_abs_overwrites_ret() {
    let (found, _, _) = listed(true, &[], make::uni(uni::ABS, 2, 0));
    assert!(found.contains(&"Times Ret G4 G3".to_string()));
}

/// Comparisons look at real halves alone; Not changes the real half alone. Both record the destination as real.
#[test]
fn comparisons_and_not_leave_the_imaginary_half() {
    assert_eq!(lines(&[], make::bi(bi::GREATER_THAN, 2, 0, 1)), ["GreaterThan G8 G4 G6"]);
    assert_eq!(lines(&[], make::bi(bi::LITTLE_THAN, 2, 0, 1)), ["LittleThan G8 G4 G6"]);
    assert_eq!(lines(&[], make::bi(bi::GREATER_THAN_EQUAL, 2, 0, 1)), ["GreaterThanEqual G8 G4 G6"]);
    assert_eq!(lines(&[], make::bi(bi::LITTLE_THAN_EQUAL, 2, 0, 1)), ["LittleThanEqual G8 G4 G6"]);
    assert_eq!(lines(&[], make::uni(uni::NOT, 2, 0)), ["Not G8 G4"]);
}

/// Equal looks at both halves, as NotEqual does, and clears that of a real operand first.
#[test]
fn equal_looks_at_both_halves() {
    assert_eq!(
        lines(&[0], make::bi(bi::EQUAL, 2, 0, 1)),
        ["Xor G5 G5 G5", "Equal G9 G5 G7", "Equal G8 G4 G6", "And G8 G8 G9"]
    );
}
