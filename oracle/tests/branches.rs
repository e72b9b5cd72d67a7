//! Document 02's branches: every example with its typed answer, on the unchanged Rust behind the rules and on the independent player.

use oracle::branches::{play_examples, plays, sheet_examples, sheets};
use oracle::format::*;
use oracle::make::{self, branch, branch_if, label, load, load_const, nop};
use oracle::names::uni;
use oracle::player::{play, Played};
use oracle::print;
use oracle::random::{self, Rng};
use oracle::reference::{lower, lower_with_points};

#[test]
fn sheets_earn_their_numbers() {
    for (at, (case, number, index)) in sheet_examples().into_iter().enumerate() {
        let (mut listing, mut constants) = (vec![9; case.room], vec![9; case.table]);
        let answer = lower(&case.sheet, &mut listing, &mut constants);
        assert_eq!((answer.number, answer.index), (number, index), "sheet {at}");
        assert!(listing[answer.written as usize..].iter().all(|b| *b == 9));
        assert!(constants[answer.count as usize..].iter().all(|w| *w == 9));
    }
}

#[test]
fn plays_have_their_answers() {
    for (at, (case, answer)) in play_examples().into_iter().enumerate() {
        let mut store = case.store.clone();
        assert_eq!(play(&case.listing, &case.constants, &mut store, case.start), answer, "play {at}");
        if answer.number != 0 {
            assert_eq!(store, case.store);
        }
    }
}

/// The lines of a sheet that is accepted, with the realness at each point.
fn lines(row: &[Vec<u8>]) -> (Vec<String>, Vec<[bool; 32]>) {
    let mut listing = vec![0; LISTING_LIMIT];
    let sheet = make::sheet(false, &[0; 64], &[7], row);
    let (answer, points) = lower_with_points(&sheet, &mut listing, &mut [0; TABLE]);
    assert_eq!(answer.number, 0);
    let lines = records(&listing[..answer.written as usize]).iter().map(|r| print::record(r)).collect();
    (lines, points.iter().map(|p| p.realness.registers).collect())
}

/// The condition is the real half, be the register real or complex; nothing is cleared and no record changes.
#[test]
fn branches_list_themselves() {
    let (found, _) = lines(&[branch_if(2, 255, 1), branch(3), label(3), label(255)]);
    assert_eq!(found, ["BranchIf G8 255 1", "Branch 3", "Label 3", "Label 255"]);
    let (found, _) = lines(&[branch_if(RET, 3, 0), branch_if(TEMP, 3, 0), branch_if(29, 3, 1), label(3)]);
    assert_eq!(found, ["BranchIf Ret 3 0", "BranchIf G0 3 0", "BranchIf G62 3 1", "Label 3"]);
    let (found, realness) = lines(&[load_const(2, 0), branch_if(2, 3, 0), label(3), nop()]);
    assert_eq!(found, ["LoadConst G8 0", "BranchIf G8 3 0", "Label 3"]);
    assert!(realness[1][2] && realness[1] == realness[2] && realness[2] == realness[3]);
    let (found, realness) = lines(&[load(2, MEM, 0), branch_if(2, 3, 0), label(3)]);
    assert_eq!(found[1..], ["BranchIf G8 3 0", "Label 3"]);
    assert!(!realness[3][2]);
}

/// A Root in a part that is jumped over has its block there, and a later one calls it.
#[test]
fn a_root_that_is_jumped_over_keeps_its_block() {
    let row = [branch_if(2, 3, 0), make::uni(uni::ROOT, 1, 0), label(3), make::uni(uni::ROOT, 1, 0)];
    let mut listing = vec![0; LISTING_LIMIT];
    let sheet = make::sheet(false, &[0; 64], &[], &row);
    let answer = lower(&sheet, &mut listing, &mut [0; TABLE]);
    assert_eq!(answer.number, 0);
    listing.truncate(answer.written as usize);
    let played = |condition: u64| {
        let mut store = vec![0; STORE];
        (store[4], store[8]) = (16.0f64.to_bits(), condition);
        let played = play(&listing, &[], &mut store, 0);
        assert_eq!((played.number, f64::from_bits(store[6])), (0, 4.0));
        played.played
    };
    // BranchIf, Label 3; two moves, the call of 21 records, two moves; not jumped over: the same, and Branch 2 and Label 2
    assert_eq!((played(1), played(0)), (2 + 26, 2 + 26 + 26 + 2));
}

/// Of random sheets a good share is accepted, and 10 and 11 are among the others; the same of plays.
#[test]
fn random_cases_tell() {
    let mut rng = Rng(41);
    let mut numbers = [0; 15];
    for _ in 0..2000 {
        let case = random::branching_to_lower(&mut rng);
        let answer = lower(&case.sheet, &mut vec![0; case.room], &mut vec![0; case.table]);
        numbers[answer.number as usize] += 1;
    }
    assert!(numbers[0] > 600 && numbers[10] > 60 && numbers[11] > 30, "{numbers:?}");
    let (mut numbers, mut jumped) = ([0; 15], 0);
    for _ in 0..2000 {
        let case = random::branching_to_play(&mut rng);
        let count = records(&case.listing).len() as u64;
        let played = play(&case.listing, &case.constants, &mut case.store.clone(), case.start);
        numbers[played.number as usize] += 1;
        jumped += u64::from(played.number == 0 && played.played < count - case.start.min(count));
    }
    assert!(numbers[0] > 600 && numbers[9] > 200 && jumped > 200, "{numbers:?}, {jumped}");
}

/// The count is at most all records plus calls times block records, with branches too.
#[test]
fn the_bound_on_records_played() {
    let mut rng = Rng(43);
    for _ in 0..1000 {
        let case = random::branching_to_play(&mut rng);
        let played: Played = play(&case.listing, &case.constants, &mut case.store.clone(), case.start);
        let found = records(&case.listing);
        let calls = found.iter().filter(|r| two(r, 2) == CALL).count();
        let from = found.iter().position(|r| **r == label(1));
        let block = from.map_or(0, |from| found[from..].iter().position(|r| **r == branch(0)).map_or(0, |n| n + 1));
        assert!(played.played <= (found.len() + calls * block) as u64);
    }
}

/// Every case at the limits is answered: nothing that the rules let through makes the Rust fail.
#[test]
fn limits_are_answered() {
    let mut numbers = [0; 15];
    for case in sheets() {
        numbers[lower(&case.sheet, &mut vec![0; case.room], &mut vec![0; case.table]).number as usize] += 1;
    }
    assert!([0, 1, 2, 3, 7, 10, 11].iter().all(|n| numbers[*n] > 0), "{numbers:?}");
    let mut numbers = [0; 15];
    for case in plays() {
        numbers[play(&case.listing, &case.constants, &mut case.store.clone(), case.start).number as usize] += 1;
    }
    assert!([0, 1, 2, 3, 9].iter().all(|n| numbers[*n] > 0), "{numbers:?}");
}
