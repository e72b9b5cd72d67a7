//! Document 02's marks, l), typed from its sentences: registers filled, and drawn on before being filled. Listing registers by number: general r
//! of a sheet is 4 + 2r and 5 + 2r, Temp 0 and 1, Ret 64 and 65.

use oracle::boundary::every_instruction;
use oracle::drawn::{random_trial, Drawn};
use oracle::format::*;
use oracle::machine::{Machine, Reference};
use oracle::make::*;
use oracle::marks::{self, Marks};
use oracle::names::{bi, uni as op};
use oracle::player::Played;
use oracle::random::Rng;
use oracle::reference::{lower as lower_by_the_rust, Answer};

const TWO: u64 = 0x4000_0000_0000_0000;

/// What lowering answers of a sheet with one constant, in which Stack 7 is real, in so much room.
fn answered(mode: u8, room: usize, row: &[Vec<u8>]) -> Answer {
    let sheet = sheet(mode, &real_places(&[(STACK, 7)]), &[TWO], row);
    lower_by_the_rust(&sheet, &mut vec![0; room], &mut [0; TABLE])
}

/// The marks of an accepted sheet in plain mode.
fn of_sheet(row: &[Vec<u8>]) -> Marks {
    let answer = answered(PLAIN, LISTING_LIMIT, row);
    assert_eq!(answer.number, 0);
    answer.marks
}

fn drawn(row: &[Vec<u8>]) -> Vec<u8> {
    of_sheet(row).outside()
}

fn filled(marks: &Marks) -> Vec<u8> {
    (0..66).filter(|r| marks.filled[*r as usize]).collect()
}

/// The registers drawn on and the registers filled of listing records.
fn of_records(row: &[Vec<u8>]) -> (Vec<u8>, Vec<u8>) {
    let marks = marks::of(&row.concat());
    (marks.outside(), filled(&marks))
}

#[test]
fn a_xor_of_one_register_with_itself_draws_on_nothing() {
    assert_eq!(of_records(&[bi(bi::XOR, 9, 5, 5)]), (vec![], vec![9]));
    assert_eq!(of_records(&[bi(bi::XOR, 5, 5, 5)]), (vec![], vec![5]));
    assert_eq!(of_records(&[bi(bi::XOR, 9, 5, 6)]), (vec![5, 6], vec![9]));
    assert_eq!(of_records(&[bi(bi::OR, 9, 5, 5)]), (vec![5], vec![9]));
}

#[test]
fn each_kind_draws_on_what_it_reads_and_fills_what_it_writes() {
    assert_eq!(of_records(&[uni(op::NEG, 9, 5)]), (vec![5], vec![9]));
    assert_eq!(of_records(&[mov(65, 64)]), (vec![64], vec![65]));
    assert_eq!(of_records(&[load(9, MEM, 0)]), (vec![], vec![9]));
    assert_eq!(of_records(&[save(9, MEM, 0)]), (vec![9], vec![]));
    assert_eq!(of_records(&[load_const(9, 0)]), (vec![], vec![9]));
    assert_eq!(of_records(&[fused(0, 9, 5, 6, 7)]), (vec![5, 6, 7], vec![9]));
    assert_eq!(of_records(&[load_complex(8, 9, MEM, 0)]), (vec![], vec![8, 9]));
    assert_eq!(of_records(&[save_complex(8, 9, MEM, 0)]), (vec![8, 9], vec![]));
    assert_eq!(of_records(&[complex_bi(2, [8, 9, 4, 5, 6, 7])]), (vec![4, 5, 6, 7], vec![8, 9]));
    assert_eq!(of_records(&[branch_if(9, 3, 0), label(3)]), (vec![9], vec![]));
    assert_eq!(of_records(&[label(3), branch(4), label(4)]), (vec![], vec![]));
}

#[test]
fn an_if_else_draws_on_both_registers() {
    assert_eq!(of_records(&[if_else(8, 4, 6, STACK, 7)]), (vec![4, 6], vec![8]));
    assert_eq!(of_sheet(&[if_else(2, 0, 1, STACK, 7)]).outside(), [4, 5, 6, 7]);
}

#[test]
fn a_record_draws_before_it_fills() {
    assert_eq!(of_records(&[mov(5, 5)]), (vec![5], vec![5]));
    assert_eq!(of_records(&[load_const(5, 0), mov(5, 5)]), (vec![], vec![5]));
    // Root of Temp lists Mov G0 G0
    assert_eq!(drawn(&[uni(op::ROOT, 0, TEMP)]), [0, 1]);
}

#[test]
fn at_a_label_filled_is_what_is_filled_on_every_way_in() {
    let over = |branch: Vec<u8>| [branch, load(1, MEM, 0), label(3), save(1, MEM, 1)];
    assert_eq!(drawn(&over(branch_if(0, 3, 0))), [4, 6, 7]);
    assert_eq!(drawn(&over(branch(3))), [6, 7]);
    assert_eq!(drawn(&[&[load(1, MEM, 0)], &over(branch(3))[..]].concat()), []);
    assert_eq!(filled(&of_sheet(&[branch(3), load(1, MEM, 0), label(3)])), []);
    assert_eq!(filled(&of_sheet(&[load(1, MEM, 0), branch(3), label(3)])), [6, 7]);
    assert_eq!(filled(&of_sheet(&[load(1, MEM, 0), branch_if(1, 3, 0), load(2, MEM, 0), label(3)])), [6, 7]);
    // both branches to a label count, the one filled and the other not
    let two = [branch_if(0, 3, 0), load(1, MEM, 0), branch_if(1, 3, 1), label(3), save(1, MEM, 1)];
    assert_eq!(drawn(&two), [4, 6, 7]);
}

#[test]
fn the_record_after_a_branch_is_taken_as_reached_from_it() {
    assert_eq!(drawn(&[branch(3), save(0, MEM, 1), label(3)]), [4, 5]);
    assert_eq!(drawn(&[load(0, MEM, 0), branch(3), save(0, MEM, 1), label(3)]), []);
}

#[test]
fn label_2_has_the_one_way_by_branch_2() {
    assert_eq!(of_records(&[branch(2), mov(5, 6), label(2)]), (vec![], vec![]));
    assert_eq!(of_records(&[load_const(5, 0), branch(2), mov(7, 6), label(2)]), (vec![], vec![5]));
}

#[test]
fn each_call_goes_through_the_block_with_its_own_marks() {
    let block = [branch(2), label(1), mov(4, 6), branch(0), label(2)];
    assert_eq!(of_records(&block), (vec![], vec![]));
    assert_eq!(of_records(&[&[call(1)], &block[..]].concat()), (vec![6], vec![4]));
    assert_eq!(of_records(&[&[load_const(6, 0), call(1)], &block[..]].concat()), (vec![], vec![4, 6]));
    let later = [&block[..], &[load_const(6, 0), call(1)]].concat();
    assert_eq!(of_records(&later), (vec![], vec![4, 6]));
    assert_eq!(of_records(&[&later[..], &[save(4, MEM, 0)]].concat()), (vec![], vec![4, 6]));
    assert_eq!(of_records(&[&block[..], &[save(4, MEM, 0)]].concat()), (vec![4], vec![]));
    // the sheet's: what Root draws on is its operand
    assert_eq!(drawn(&[load(0, MEM, 0), uni(op::ROOT, 1, 0), uni(op::ROOT, 2, 1), save(2, MEM, 1)]), []);
    assert_eq!(drawn(&[load(0, MEM, 0), uni(op::ROOT, 1, 0), uni(op::ROOT, 2, 3), save(2, MEM, 1)]), [10, 11]);
}

#[test]
fn a_branch_if_draws_on_the_real_half_of_its_condition() {
    assert_eq!(drawn(&[branch_if(0, 3, 0), label(3)]), [4]);
    assert_eq!(drawn(&[branch_if(RET, 3, 1), label(3)]), [64]);
    assert_eq!(drawn(&[load_const(TEMP, 0), branch_if(TEMP, 3, 1), label(3)]), []);
}

#[test]
fn on_refusal_the_marks_are_those_of_the_instructions_before() {
    let refused = |number: u32, room: usize, row: &[Vec<u8>]| {
        let answer = answered(PLAIN, room, row);
        assert_eq!(answer.number, number);
        (answer.marks.outside(), filled(&answer.marks))
    };
    let saved = (vec![4, 5], vec![]);
    assert_eq!(refused(REGISTER, 100, &[save(0, MEM, 1), uni(0, 32, 1)]), saved);
    assert_eq!(refused(FULL, 17, &[save(0, MEM, 1), save(1, MEM, 2)]), saved);
    assert_eq!(refused(BARRED, 100, &[load(0, MEM, 0), fused(0, 1, 2, 3, RET)]), (vec![], vec![4, 5]));
    // before its label stands, a branch has the way below alone
    let open = [load(0, MEM, 0), branch(3), load(1, MEM, 0), raw(CALL, &[0]), label(3)];
    assert_eq!(refused(UNKNOWN, 100, &open), (vec![], vec![4, 5, 6, 7]));
    let mut headless = sheet(PLAIN, &[0; 64], &[], &[save(0, MEM, 1)]);
    headless[0] = 70;
    assert_eq!(lower_by_the_rust(&headless, &mut [0; 100], &mut [0; TABLE]).marks, Marks::none());
    assert_eq!(answered(PLAIN, LISTING_LIMIT + 1, &[save(0, MEM, 1)]).marks, Marks::none());
}

#[test]
fn these_marks_earn_no_11() {
    assert_eq!(answered(PLAIN, 100, &[branch_if(0, 3, 0), load(1, MEM, 0), label(3)]).number, 0);
}

#[test]
fn loading_a_place_fills_whatever_it_held() {
    let saved = of_sheet(&[load(0, MEM, 0), save(0, MEM, 1)]);
    assert_eq!((saved.outside(), filled(&saved)), (vec![], vec![4, 5]));
    assert_eq!(drawn(&[save(0, MEM, 0), load(1, MEM, 0), save(1, MEM, 1)]), [4, 5]);
    // a real place fills the real half
    assert_eq!(filled(&of_sheet(&[load(0, STACK, 7)])), [4]);
}

#[test]
fn a_half_of_a_real_register_draws_on_its_imaginary_half() {
    let row = [load_const(0, 0), uni(op::HALF, 0, 0)];
    let drawn = [PLAIN, STABLE, MINDING].map(|mode| answered(mode, 100, &row).marks.outside());
    assert_eq!(drawn, [vec![5], vec![5], vec![]]);
}

#[test]
fn scratch_is_never_drawn_on_before_being_filled() {
    for instruction in every_instruction(&[0, 1, RET, TEMP]) {
        for mode in MODES {
            for real in 0..4 {
                let loads = [0, 1].map(|r| if real >> r & 1 == 1 { load_const(r, 0) } else { load(r, MEM, 0) });
                let marks = answered(mode, 1024, &[&loads[..], std::slice::from_ref(&instruction)].concat()).marks;
                assert!(!marks.drawn[2] && !marks.drawn[3], "{instruction:?}");
            }
        }
    }
}

/// The reference with other marks.
struct Marking(fn(&mut Marks));

impl Machine for Marking {
    fn lower(&self, sheet: &[u8], listing: &mut [u8], constants: &mut [u64]) -> Answer {
        let mut answer = Reference.lower(sheet, listing, constants);
        self.0(&mut answer.marks);
        answer
    }

    fn play(&self, listing: &[u8], constants: &[u64], store: &mut [u64], start: u64) -> Played {
        Reference.play(listing, constants, store, start)
    }
}

/// The reference, but a play that also draws on register 3 for the last place.
struct Drawing;

impl Machine for Drawing {
    fn lower(&self, sheet: &[u8], listing: &mut [u8], constants: &mut [u64]) -> Answer {
        Reference.lower(sheet, listing, constants)
    }

    fn play(&self, listing: &[u8], constants: &[u64], store: &mut [u64], start: u64) -> Played {
        let word = store[3];
        let played = Reference.play(listing, constants, store, start);
        store[STORE - 1] = word;
        played
    }
}

/// Of 400 random trials, those that fail.
fn failures(machine: &impl Machine) -> usize {
    let mut rng = Rng(11);
    (0..400).filter(|turn| matches!(random_trial(machine, &MODES, turn % 2 == 0, &mut rng).1, Drawn::Fails(_))).count()
}

#[test]
fn the_comparison_fails_where_it_should() {
    assert_eq!(failures(&Reference), 0);
    assert!(failures(&Marking(|marks| std::mem::swap(&mut marks.filled, &mut marks.drawn))) > 200);
    assert!(failures(&Marking(|marks| marks.drawn[65] = false)) > 10);
    assert!(failures(&Drawing) > 200);
}
