//! Document 02's labels and branches: examples with the answers that its text gives, and sheets and listings at every limit.

use crate::boundary::{each_field, rows, two_faults};
use crate::format::*;
use crate::make::{self, branch, branch_if, call, label, load, load_const, mov, nop, raw, save, uni};
use crate::names::{bi, uni as op};
use crate::player::Played;
use crate::random::{ToLower, ToPlay, SPECIAL};

const TWO: u64 = 0x4000_0000_0000_0000;
const ONE: u64 = 0x3ff0_0000_0000_0000;

/// A sheet with one constant, in which Stack 7 is real.
fn sheet(stable: bool, row: &[Vec<u8>]) -> ToLower {
    let sheet = make::sheet(stable, &make::real_places(&[(STACK, 7)]), &[TWO], row);
    ToLower { sheet, room: LISTING_LIMIT, table: TABLE }
}

fn in_room(room: usize, row: &[Vec<u8>]) -> ToLower {
    ToLower { room, ..sheet(false, row) }
}

/// A sheet, and the number and index that it earns.
pub type SheetExample = (ToLower, u32, u64);

/// What a sheet's instructions earn in plain mode.
fn earns(number: u32, index: u64, row: &[Vec<u8>]) -> SheetExample {
    (sheet(false, row), number, index)
}

/// 10, and what is tested before it.
fn misplaced() -> Vec<SheetExample> {
    let cut = &label(3)[..4];
    vec![
        earns(0, 1, &[label(3)]),
        earns(0, 2, &[branch(255), label(255)]),
        earns(0, 4, &[branch(3), branch_if(TEMP, 4, 1), label(4), label(3)]),
        earns(MISPLACED, 0, &[branch(3)]),
        earns(MISPLACED, 0, &[branch(3), label(4)]),
        earns(MISPLACED, 0, &[branch_if(1, 3, 0), branch(3)]),
        earns(MISPLACED, 1, &[label(3), branch(3)]),
        earns(MISPLACED, 1, &[label(3), branch(3), label(3)]),
        earns(MISPLACED, 1, &[label(3), branch_if(1, 3, 0), label(3)]),
        earns(MISPLACED, 1, &[label(3), label(3)]),
        earns(MISPLACED, 2, &[branch(3), label(3), label(3)]),
        earns(MISPLACED, 3, &[branch(3), label(3), load_const(0, 0), label(3)]),
        earns(MISPLACED, 0, &[label(0)]),
        earns(MISPLACED, 1, &[nop(), label(1)]),
        earns(MISPLACED, 0, &[label(2)]),
        earns(MISPLACED, 0, &[branch(0)]),
        earns(MISPLACED, 0, &[branch(1), label(1)]),
        earns(MISPLACED, 0, &[branch(2), label(2)]),
        earns(MISPLACED, 0, &[branch_if(1, 2, 0), label(2)]),
        earns(0, 2, &[branch_if(1, 3, 1), label(3)]),
        earns(MISPLACED, 0, &[branch_if(1, 3, 2), label(3)]),
        earns(MISPLACED, 0, &[branch_if(1, 3, 255), label(3)]),
        earns(REGISTER, 0, &[branch_if(32, 3, 2)]),
        earns(REGISTER, 0, &[branch_if(255, 2, 0)]),
        earns(TORN, 0, &[raw(17, &[1, 3]), label(3)]),
        earns(TORN, 0, &[raw(17, &[1, 3, 0, 0]), label(3)]),
        earns(TORN, 0, &[raw(14, &[])]),
        earns(UNKNOWN, 0, &[call(3), label(3)]),
        earns(UNKNOWN, 0, &[raw(18, &[1, 3, 0]), label(3)]),
        // looking ahead
        earns(REGISTER, 1, &[branch(3), uni(0, 32, 0), label(3)]),
        earns(PLACE, 1, &[branch(3), load(1, 3, 0), label(3)]),
        earns(MISSING, 1, &[branch(3), load_const(1, 1), label(3)]),
        earns(BARRED, 1, &[branch(3), make::fused(0, 1, 2, 3, RET), label(3)]),
        earns(MISPLACED, 1, &[branch(3), label(2), label(3)]),
        earns(UNKNOWN, 1, &[branch(3), raw(11, &[0]), label(3)]),
        earns(UNKNOWN, 1, &[branch(3), raw(16, &[0; 40]), label(3)]),
        earns(UNKNOWN, 1, &[branch(3), uni(20, 1, 2), label(3)]),
        earns(MISPLACED, 0, &[branch(3), raw(0, &[0]), label(3)]),
        earns(MISPLACED, 0, &[branch(3), raw(14, &[3, 3]), label(3)]),
        earns(MISPLACED, 0, &[branch(3), vec![3, 0, 0, 0], label(3)]),
        earns(MISPLACED, 0, &[branch(3), cut.to_vec()]),
        earns(MISPLACED, 0, &[branch(3), vec![0, 0], label(3)]),
        earns(TORN, 2, &[branch(3), label(3), vec![0]]),
    ]
}

/// 11, and what is tested before and after it.
fn unequal() -> Vec<SheetExample> {
    let differs = [branch(3), load_const(0, 0), label(3)];
    let same = [branch(3), nop(), label(3)];
    let roots = [branch_if(1, 3, 0), uni(op::ROOT, 2, 1), label(3), uni(op::ROOT, 4, 1)];
    vec![
        earns(UNEQUAL, 2, &differs),
        (in_room(17, &differs), UNEQUAL, 2),
        (in_room(12, &differs), UNEQUAL, 2),
        (in_room(11, &differs), FULL, 1),
        (in_room(4, &differs), FULL, 0),
        (in_room(5, &same), FULL, 2),
        (in_room(10, &same), 0, 3),
        earns(UNEQUAL, 2, &[branch_if(0, 3, 0), load_const(0, 0), label(3)]),
        earns(UNEQUAL, 2, &[branch(3), load_const(RET, 0), label(3)]),
        earns(UNEQUAL, 2, &[branch(3), load_const(TEMP, 0), label(3)]),
        earns(UNEQUAL, 2, &[branch(3), save(1, STACK, 7), label(3)]),
        earns(0, 3, &[branch(3), save(1, STACK, 8), label(3)]),
        earns(0, 4, &[branch_if(1, 3, 1), load_const(1, 0), load(1, MEM, 0), label(3)]),
        earns(0, 4, &[load_const(1, 0), branch(3), load_const(1, 0), label(3)]),
        // a label that nothing branches to, and one that others branch to
        earns(0, 3, &[label(3), load_const(1, 0), label(4)]),
        earns(UNEQUAL, 4, &[branch(4), branch(3), label(3), load_const(1, 0), label(4)]),
        // a branch that no play reaches
        earns(UNEQUAL, 5, &[branch(3), load_const(1, 0), branch(4), load(1, MEM, 0), label(3), label(4)]),
        // two branches that differ, the first or the second as the label
        earns(UNEQUAL, 3, &[branch(3), load_const(1, 0), branch(3), label(3)]),
        earns(UNEQUAL, 4, &[branch(3), load_const(1, 0), branch(3), load(1, MEM, 0), label(3)]),
        // neither the block of Root nor appended constants are recorded
        earns(0, 4, &roots),
        (sheet(true, &roots), 0, 4),
        (sheet(true, &[branch_if(1, 3, 0), uni(op::ABS, 2, 1), label(3)]), 0, 3),
    ]
}

/// Every sheet example.
pub fn sheet_examples() -> Vec<SheetExample> {
    [misplaced(), unequal()].concat()
}

/// Instructions whose rows tell the rules apart: register 1 and Stack 7 are real or complex, a Call is passed in looking ahead, a Label of
/// four bytes ends it.
fn alphabet() -> Vec<Vec<u8>> {
    vec![
        label(3),
        label(4),
        branch(3),
        branch_if(1, 3, 0),
        branch_if(1, 4, 1),
        load_const(1, 0),
        load(1, MEM, 0),
        save(2, STACK, 7),
        uni(0, 32, 0),
        call(3),
        raw(14, &[]),
    ]
}

/// All labels, behind a branch to each.
fn every_label() -> Vec<Vec<u8>> {
    (3..=255).map(branch).chain((3..=255).map(label)).collect()
}

/// Every limit of a sheet with labels and branches.
pub fn sheets() -> Vec<ToLower> {
    let mut found: Vec<ToLower> = sheet_examples().into_iter().map(|(case, _, _)| case).collect();
    found.extend((1..=4).flat_map(|count| rows(&alphabet(), count)).map(|row| sheet(false, &row)));
    for n in 0..=255 {
        for first in [branch(n), branch_if(1, n, 1), nop()] {
            found.push(sheet(n % 2 == 0, &[first, label(n)]));
        }
    }
    let records = [label(3), branch(3), branch_if(1, 3, 0)];
    for record in each_field(&records).into_iter().chain(two_faults(&records)) {
        found.push(sheet(false, &[record.clone(), label(3), label(4)]));
        found.push(sheet(true, &[branch(4), record, label(4)]));
    }
    for register in 0..32 {
        found.push(sheet(false, &[branch(3), load_const(register, 0), label(3)]));
        found.push(sheet(
            false,
            &[load_const(register, 0), branch_if(register, 3, 0), load(register, STACK, 7), label(3)],
        ));
    }
    for index in 0..256 {
        let row = [branch(3), save(1, STACK, index), label(3)].concat();
        found.push(ToLower {
            sheet: [make::header(true, &[255; 64]), row].concat(),
            room: LISTING_LIMIT,
            table: TABLE,
        });
    }
    for room in 0..=36 {
        found.push(in_room(
            room,
            &[branch_if(1, 3, 1), load_const(1, 0), load(1, MEM, 0), label(3), branch(4), label(4)],
        ));
    }
    found.push(sheet(true, &every_label()));
    found.push(sheet(false, &[vec![branch(3); 3000], vec![label(3)]].concat()));
    found.push(sheet(false, &[vec![branch_if(1, 3, 0); 2000], vec![label(4)]].concat()));
    found
}

/// A store of zeros but for words 4, 5 and 6: -0, all ones and a number.
fn on_conditions(row: &[Vec<u8>], start: u64) -> ToPlay {
    let mut store = vec![0; STORE];
    store[4..7].copy_from_slice(&[1 << 63, u64::MAX, ONE]);
    ToPlay { listing: row.concat(), constants: Vec::new(), store, start }
}

/// A play, and its answer.
pub type PlayExample = (ToPlay, Played);

fn plays_as(index: u64, played: u64, start: u64, row: &[Vec<u8>]) -> PlayExample {
    (on_conditions(row, start), Played { number: 0, index, played })
}

fn refused(number: u32, index: u64, row: &[Vec<u8>]) -> PlayExample {
    (on_conditions(row, 0), Played { number, index, played: 0 })
}

/// What the player refuses.
fn refused_plays() -> Vec<PlayExample> {
    vec![
        refused(UNKNOWN, 0, &[branch_if(66, 3, 2)]),
        refused(UNKNOWN, 1, &[mov(1, 2), branch_if(4, 3, 255), label(3)]),
        refused(REGISTER, 0, &[branch_if(66, 3, 1), label(3)]),
        refused(TORN, 0, &[raw(17, &[4, 3]), label(3)]),
        refused(UNKNOWN, 0, &[raw(18, &[4, 3, 0]), label(3)]),
        refused(STRAY, 0, &[branch_if(4, 0, 0)]),
        refused(STRAY, 1, &[label(1), branch_if(4, 1, 0), branch(0)]),
        refused(STRAY, 2, &[label(1), branch(0), branch_if(4, 1, 0), label(2)]),
        refused(STRAY, 0, &[branch_if(4, 2, 0), label(2)]),
        refused(STRAY, 0, &[branch(3)]),
        refused(STRAY, 0, &[branch(3), label(4)]),
        refused(STRAY, 0, &[branch_if(4, 255, 1)]),
        refused(STRAY, 1, &[label(3), branch(3)]),
        refused(STRAY, 1, &[label(3), branch(3), label(3)]),
        refused(STRAY, 1, &[label(3), branch_if(4, 3, 0), label(3)]),
        refused(STRAY, 2, &[label(2), branch(2), label(2)]),
        refused(STRAY, 2, &[branch(3), label(3), label(3)]),
        refused(STRAY, 1, &[label(255), label(255)]),
        refused(STRAY, 1, &[label(3), call(3)]),
        refused(STRAY, 0, &[call(255), label(255)]),
        refused(STRAY, 1, &[label(1), label(3), branch(0)]),
        refused(STRAY, 1, &[label(1), branch(3), branch(0), label(3)]),
        refused(STRAY, 1, &[label(1), branch_if(4, 3, 0), branch(0), label(3)]),
        refused(STRAY, 0, &[label(1), branch(3), label(3)]),
    ]
}

/// What the player plays.
fn accepted_plays() -> Vec<PlayExample> {
    let over = |cond: u8, is_else: u8| [branch_if(cond, 3, is_else), mov(1, 2), label(3)];
    let past_block = [branch(3), label(1), branch(0), label(3), call(1)];
    let crossing =
        [branch_if(5, 3, 0), mov(1, 2), branch_if(5, 4, 1), label(3), mov(2, 1), label(4), branch(255), label(255)];
    vec![
        plays_as(1, 1, 0, &[label(3)]),
        plays_as(2, 2, 0, &[branch(3), label(3)]),
        plays_as(2, 2, 0, &[branch_if(0, 3, 0), label(3)]),
        plays_as(2, 2, 0, &[branch_if(0, 3, 1), label(3)]),
        plays_as(3, 3, 0, &over(0, 0)), // zero
        plays_as(3, 2, 0, &over(0, 1)),
        plays_as(3, 2, 0, &over(4, 0)), // -0 is not all zero
        plays_as(3, 3, 0, &over(4, 1)),
        plays_as(3, 2, 0, &over(5, 0)), // all ones
        plays_as(3, 3, 0, &over(5, 1)),
        plays_as(3, 2, 0, &over(6, 0)), // a number
        plays_as(3, 3, 0, &over(6, 1)),
        plays_as(3, 2, 1, &over(4, 0)), // a start behind the branch
        plays_as(5, 5, 0, &past_block),
        plays_as(5, 2, 1, &past_block), // a start in the block, which ends at its Branch 0
        plays_as(8, 6, 0, &crossing),
        plays_as(8, 7, 1, &crossing),
        plays_as(4, 4, 0, &[branch(3), label(3), label(1), branch(0)]), // into the block without a call
        plays_as(506, 254, 0, &every_label()),                          // Branch 3 and every label
        plays_as(506, 2, 252, &every_label()),                          // Branch 255 and Label 255
    ]
}

/// Every play example.
pub fn play_examples() -> Vec<PlayExample> {
    [refused_plays(), accepted_plays()].concat()
}

/// Every limit of a listing with labels and branches.
pub fn plays() -> Vec<ToPlay> {
    let mut found: Vec<ToPlay> = play_examples().into_iter().map(|(case, _)| case).collect();
    for n in 0..=255 {
        for first in [branch(n), branch_if(4, n, 0), call(n), mov(4, 5)] {
            found.push(on_conditions(&[first.clone(), label(n)], 0));
            found.push(on_conditions(&[first, label(n), label(n ^ 1)], 0));
        }
    }
    let records = [label(3), branch(3), branch_if(1, 3, 0)];
    for record in each_field(&records).into_iter().chain(two_faults(&records)) {
        found.push(on_conditions(&[mov(4, 5), record, label(3), label(4)], 0));
    }
    for word in SPECIAL {
        for is_else in [0, 1] {
            let row = [branch_if(64, 9, is_else), make::bi(bi::PLUS, 1, 6, 6), label(9)];
            let mut case = on_conditions(&row, 0);
            case.store[64] = word;
            found.push(case);
        }
    }
    let far = [vec![branch(3)], vec![mov(3, 4); 10_920], vec![label(3)]].concat();
    let many = [vec![branch_if(0, 3, 0); 9_000], vec![label(3)]].concat();
    found.extend([0, 1, 9_001].map(|start| on_conditions(&many, start)));
    found.push(on_conditions(&far, 0));
    found
}

/// Every row of up to `length` jumps with labels 0, 1, 3 and 4, from every start.
pub fn jump_rows(length: usize) -> Vec<ToPlay> {
    let mut alphabet = vec![make::bi(bi::PLUS, 0, 0, 6), label(1), branch(0), call(1), call(3)];
    alphabet.extend([label(3), branch(3), branch_if(0, 3, 0), branch_if(0, 3, 1), label(4), branch_if(4, 4, 0)]);
    let mut found = Vec::new();
    for row in (0..=length).flat_map(|count| rows(&alphabet, count)) {
        found.extend((0..=row.len() as u64 + 1).map(|start| on_conditions(&row, start)));
    }
    found
}
