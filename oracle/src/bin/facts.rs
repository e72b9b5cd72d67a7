//! Checks, over every instruction on general registers, Ret and Temp, every realness and mode, what a proof of the claim
//! about leftovers leans on, and prints what instructions write besides their destination.

use std::collections::{BTreeMap, BTreeSet};
use std::process::ExitCode;

use oracle::boundary::every_instruction;
use oracle::claim::{destination_and_operands, half_of_real, leftovers, pair};
use oracle::flow;
use oracle::format::*;
use oracle::make;
use oracle::names::{uni, ARITH, BI, CLASSES, FUSED, KINDS, UNI};
use oracle::reference::{lower_with_points, Realness};

/// Four general registers are enough for any aliasing of the parts of an instruction.
const REGISTERS: [u8; 6] = [0, 1, 2, 3, RET, TEMP];

/// One instruction in one state: what it plays, and the realness before and after.
struct Case {
    played: Vec<Vec<u8>>,
    before: Realness,
    after: Realness,
}

/// `None` where the instruction is refused.
fn case(mode: u8, real_place: bool, rooted: bool, real: &[u8], instruction: &[u8]) -> Option<Case> {
    let places = if real_place { make::real_places(&[(STACK, 7), (STACK, 2), (PARAM, 7)]) } else { [0; 64] };
    let mut row = Vec::new();
    if rooted {
        row.push(make::uni(uni::ROOT, 9, 9));
    }
    row.extend(real.iter().map(|r| make::load_const(*r, 0)));
    let before = row.len();
    row.push(instruction.to_vec());
    let mut listing = [0; 1024];
    let (answer, points) = lower_with_points(&make::sheet(mode, &places, &[7], &row), &mut listing, &mut [0; TABLE]);
    if answer.number != 0 {
        return None;
    }
    let listed = records(&listing[..answer.written as usize]);
    let played = flow::played(&listed, points[before].records).into_iter().map(|r| r.to_vec()).collect();
    Some(Case { played, before: points[before].realness.clone(), after: answer.realness })
}

/// The registers whose realness matters: those named, Ret and Temp.
fn relevant(instruction: &[u8]) -> Vec<u8> {
    let (destination, operands) = destination_and_operands(instruction);
    let mut found: BTreeSet<u8> = operands.iter().copied().chain(destination).collect();
    found.extend([RET, TEMP]);
    found.into_iter().collect()
}

/// What was found wrong, and what each kind of instruction writes besides its destination.
#[derive(Default)]
struct Facts {
    cases: u64,
    lost: BTreeMap<String, u64>,
    unknown_reads: BTreeMap<String, u64>,
    also: BTreeMap<String, BTreeSet<String>>,
    strange: u64,
}

fn title(instruction: &[u8], mode: u8) -> String {
    let mode = ["plain", "stable", "minding"][mode as usize];
    let op = instruction.get(4).map_or(0, |byte| *byte as usize);
    let name = match two(instruction, 2) {
        1 => UNI[op],
        2 => BI[op],
        7 => FUSED[op],
        9 | 10 => ARITH[op],
        _ => "",
    };
    format!("{mode} {} {name}", KINDS[two(instruction, 2) as usize])
}

/// Known words along the instruction: what two stores agree on that differ in the leftovers only.
fn follow(facts: &mut Facts, name: &str, case: &Case) -> BTreeSet<usize> {
    let free: BTreeSet<usize> = leftovers(&case.before).into_iter().collect();
    let mut known: BTreeSet<usize> = (0..STORE).filter(|i| !free.contains(i)).collect();
    for record in &case.played {
        let writes = flow::writes(record);
        let sure: Vec<bool> = writes.iter().map(|w| w.reads.iter().all(|r| known.contains(r))).collect();
        for (write, sure) in writes.iter().zip(sure) {
            if sure {
                known.insert(write.word);
                continue;
            }
            *facts.unknown_reads.entry(name.to_string()).or_default() += 1;
            if known.remove(&write.word) {
                *facts.lost.entry(name.to_string()).or_default() += 1;
            }
        }
    }
    known
}

/// Words written besides the destination's pair, the scratch and cleared halves of real operands.
fn also_writes(case: &Case, instruction: &[u8]) -> BTreeSet<usize> {
    let (destination, operands) = destination_and_operands(instruction);
    let mut free: BTreeSet<usize> = [2, 3].into();
    if let Some(register) = destination {
        free.extend([pair(register).0, pair(register).1]);
    }
    free.extend(operands.iter().filter(|r| case.before.registers[**r as usize]).map(|r| pair(*r).1));
    case.played.iter().flat_map(|r| flow::writes(r)).map(|w| w.word).filter(|w| !free.contains(w)).collect()
}

/// A store word's name in a listing.
fn name_of(word: usize) -> String {
    match word {
        64 => "Ret".to_string(),
        65 => "Temp".to_string(),
        0..=63 => format!("G{word}"),
        _ => {
            let (class, rest) = ((word - 66) / 512, (word - 66) % 512);
            format!("{} {} {}", CLASSES[class], rest / 2, ["real", "imaginary"][rest % 2])
        }
    }
}

fn examine(facts: &mut Facts, instruction: &[u8], mode: u8, case: &Case) {
    facts.cases += 1;
    let name = title(instruction, mode);
    let known = follow(facts, &name, case);
    let free: BTreeSet<usize> = leftovers(&case.after).into_iter().collect();
    let excepted = mode != MINDING && half_of_real(instruction, &case.before);
    if !excepted && (0..STORE).any(|i| !known.contains(&i) && !free.contains(&i)) {
        facts.strange += 1;
        println!("unknown afterwards: {name} {instruction:?} {:?}", case.before.registers);
    }
    let saved = matches!(two(instruction, 2), 5) && instruction[5] < PARAM;
    let also = also_writes(case, instruction).into_iter().filter(|w| !saved || *w < 66);
    facts.also.entry(name).or_default().extend(also.map(name_of));
}

fn main() -> ExitCode {
    let mut facts = Facts::default();
    for instruction in every_instruction(&REGISTERS) {
        let relevant = relevant(&instruction);
        let root = two(&instruction, 2) == 1 && matches!(instruction[4], uni::ROOT | uni::REAL_ROOT);
        for bits in 0..1u32 << relevant.len() {
            let real: Vec<u8> = (0..relevant.len()).filter(|i| bits >> i & 1 == 1).map(|i| relevant[i]).collect();
            for (mode, choice) in MODES.iter().flat_map(|mode| (0..4u8).map(|choice| (*mode, choice))) {
                let (real_place, rooted) = (choice & 1 == 1, choice & 2 == 2);
                if rooted && !root {
                    continue;
                }
                if let Some(case) = case(mode, real_place, rooted, &real, &instruction) {
                    examine(&mut facts, &instruction, mode, &case);
                }
            }
        }
    }
    println!("{} cases, {} with an unknown word afterwards that is kept", facts.cases, facts.strange);
    println!("reads of an unknown word: {:?}", facts.unknown_reads);
    println!("known words lost: {:?}", facts.lost);
    println!("written besides the destination, the scratch and cleared operands:");
    for (name, words) in facts.also.iter().filter(|(_, words)| !words.is_empty()) {
        println!("  {name}: {}", words.iter().cloned().collect::<Vec<_>>().join(", "));
    }
    if facts.strange == 0 {
        ExitCode::SUCCESS
    } else {
        ExitCode::FAILURE
    }
}
