//! What sheets mean, by values worked out by hand from the tables of docs/SHEET.md, 2, where one may expect something else; each beside the
//! play of the Rust's listing too.

use oracle::format::*;
use oracle::make;
use oracle::meaning::{place, Sheet, State, STACK_2};
use oracle::names::{bi, uni};
use oracle::player::place_word;
use oracle::points::{compared, lowered, Met};
use oracle::tidy;
use oracle::value::Value::{self, C, R};

const ONES: u64 = u64::MAX;

fn r(x: f64) -> Value {
    R(x.to_bits())
}

fn c(x: f64, y: f64) -> Value {
    C(x.to_bits(), y.to_bits())
}

/// The constants of every sheet here: 6, -4 and 2.
const CONSTANTS: [f64; 3] = [6.0, -4.0, 2.0];

/// A sheet in which Stack 5 is real.
fn sheet(stable: bool, row: &[Vec<u8>]) -> Vec<u8> {
    make::sheet(stable, &make::real_places(&[(STACK, 5)]), &CONSTANTS.map(f64::to_bits), row)
}

/// A store of zeros but for 1 + i in Param 0, -4 - 0i in Param 1 and 3 + 5i in Param 2.
fn store() -> Vec<u64> {
    let mut store = vec![0; STORE];
    for (index, x, y) in [(0, 1.0, 1.0), (1, -4.0, -0.0), (2, 3.0f64, 5.0f64)] {
        let at = place_word(PARAM, index);
        store[at] = x.to_bits();
        store[at + 1] = y.to_bits();
    }
    store
}

/// The state at the end, by the meaning; at each point it is the play's.
fn end(stable: bool, row: &[Vec<u8>]) -> State {
    let (bytes, store) = (sheet(stable, row), store());
    let accepted = lowered(bytes.clone()).expect("an accepted sheet");
    assert_eq!(compared(&accepted, &store, &mut Met::default()), Ok(()));
    let sheet = Sheet::read(&bytes);
    let mut state = State::start(&sheet, &store);
    (0..row.len()).for_each(|at| assert_eq!(state.step(&sheet, at, 0), at + 1));
    state
}

#[test]
fn a_real_register_by_a_complex_place() {
    let row = [make::load_const(0, 0), make::load_math(bi::DIVIDE, 0, 0, PARAM, 0)];
    assert_eq!(end(false, &row).get(0), c(6.0, -3.0));
    let bytes = sheet(false, &row);
    let sheet = Sheet::read(&bytes);
    let mut state = State::start(&sheet, &store());
    (0..2).for_each(|at| assert_eq!(tidy::row(&mut state, &sheet, at), at + 1));
    assert_eq!(state.get(0), c(3.0, -3.0), "by the rows alone");
}

#[test]
fn a_stable_divide_into_temp() {
    let row = [make::load(0, PARAM, 2), make::load(1, PARAM, 0), make::bi(bi::DIVIDE, TEMP, 0, 1)];
    assert_eq!(end(true, &row).get(TEMP), c(1.0, 0.0));
}

#[test]
fn temp_is_zero() {
    let state = end(false, &[make::load(TEMP, PARAM, 0), make::uni(uni::IS_ZERO, 0, TEMP)]);
    assert_eq!((state.get(0), state.get(TEMP)), (R(ONES), c(0.0, 0.0)));
}

#[test]
fn a_half_stays_what_its_register_was() {
    let row = [make::load(0, PARAM, 2), make::load_const(1, 0), make::uni(uni::HALF, 1, 0)];
    assert_eq!(end(false, &row).get(1), r(1.5));
    let row = [make::load(0, PARAM, 2), make::load(1, PARAM, 0), make::uni(uni::HALF, 1, 0)];
    assert_eq!(end(false, &row).get(1), c(1.5, 2.5));
}

#[test]
fn roots_of_minus_four() {
    for stable in [false, true] {
        let state = end(stable, &[make::load_const(0, 1), make::uni(uni::ROOT, 1, 0)]);
        let (root, w) = (c(0.0, 2.0), c(0.0, 2.0));
        assert_eq!([state.get(1), state.get(RET), state.get(TEMP), state.get(0)], [root, root, w, c(-4.0, 0.0)]);
        let state = end(stable, &[make::load(0, PARAM, 1), make::uni(uni::REAL_ROOT, 1, 0)]);
        let (root, w) = (c(0.0, -2.0), c(-0.0, 2.0));
        assert_eq!([state.get(1), state.get(RET), state.get(TEMP), state.get(0)], [root, root, w, c(-4.0, -0.0)]);
        assert_eq!(state.places[STACK_2], c(0.0, 0.0));
    }
    let state = end(false, &[make::load_const(0, 0), make::uni(uni::ROOT, 1, 0)]);
    assert_eq!(state.places[STACK_2], C(ONES, 0));
}

#[test]
fn a_save_makes_wide() {
    let state = end(false, &[make::load_const(0, 2), make::save(0, STACK, 5)]);
    assert_eq!((state.get(0), state.places[place(STACK, 5)]), (c(2.0, 0.0), c(2.0, 0.0)));
    let state = end(false, &[make::load(0, STACK, 5)]);
    assert_eq!((state.get(0), state.places[place(STACK, 5)]), (r(0.0), r(0.0)));
}
