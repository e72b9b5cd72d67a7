//! Prints what each instruction lists: every operation of a sheet, every realness of what it reads, every mode.
//! Operands stand in registers 0, 1 (and 3), the destination is 2; then again with Ret and Temp in their places.
//! Constant 0 is the sheet's own, 4000000000000000. Records of Ret and Temp that an instruction does not name are printed
//! where it sets them, else they stay; `any` is a register whose record before makes no difference.

use std::collections::BTreeSet;

use oracle::format::*;
use oracle::names::{ARITH, BI, CLASSES, FUSED, SHEET_BI, SHEET_UNI, UNI};
use oracle::reference::{lower_with_points, Realness};
use oracle::{make, names, print};

/// An instruction, its name and the registers it names, destination first where it has one.
struct Case {
    title: String,
    record: Vec<u8>,
    registers: Vec<u8>,
    place: Option<(u8, u16)>,
}

fn name(register: u8) -> String {
    match register {
        RET => "Ret".to_string(),
        TEMP => "Temp".to_string(),
        general => general.to_string(),
    }
}

fn row(registers: &[u8]) -> String {
    registers.iter().map(|r| format!(" {}", name(*r))).collect()
}

/// The instruction alone after LoadConst of each register that is to be real.
struct Outcome {
    refused: u32,
    lines: Vec<String>,
    constants: Vec<u64>,
    after: Realness,
}

fn play_out(case: &Case, mode: u8, real: &[u8], real_place: bool, rooted: bool) -> Outcome {
    let places = match case.place {
        Some(place) if real_place => make::real_places(&[place]),
        _ => [0; 64],
    };
    let mut instructions: Vec<Vec<u8>> = Vec::new();
    if rooted {
        instructions.push(make::uni(names::uni::ROOT, 9, 9));
    }
    // Ret and Temp start complex; a Root leaves them so.
    instructions.extend(real.iter().map(|r| make::load_const(*r, 0)));
    let before = instructions.len();
    instructions.push(case.record.clone());
    let sheet = make::sheet(mode, &places, &[0x4000_0000_0000_0000], &instructions);
    let mut listing = vec![0; LISTING_LIMIT];
    let mut constants = vec![0; TABLE];
    let (answer, points) = lower_with_points(&sheet, &mut listing, &mut constants);
    let from = points[before].bytes;
    let own = if rooted { constants_after_root(mode) } else { 1 };
    Outcome {
        refused: answer.number,
        lines: records(&listing[from..answer.written as usize]).iter().map(|r| print::record(r)).collect(),
        constants: constants[own.min(answer.count as usize)..answer.count as usize].to_vec(),
        after: answer.realness,
    }
}

fn constants_after_root(mode: u8) -> usize {
    let sheet = make::sheet(mode, &[0; 64], &[0x4000_0000_0000_0000], &[make::uni(names::uni::ROOT, 9, 9)]);
    let mut constants = vec![0; TABLE];
    let (answer, _) = lower_with_points(&sheet, &mut vec![0; 1024], &mut constants);
    answer.count as usize
}

/// What is recorded afterwards: the registers named, Ret and Temp where that does not depend on what it was, and the place.
fn recorded(case: &Case, outcome: &Outcome, with_real: &Outcome) -> String {
    let word = |real: bool| if real { "real" } else { "complex" };
    let mut parts = Vec::new();
    for number in 0..32u8 {
        let now = outcome.after.registers[number as usize];
        let settled = number >= RET && now == with_real.after.registers[number as usize];
        if case.registers.contains(&number) || settled {
            parts.push(format!("{} {}", name(number), word(now)));
        }
    }
    if let Some((class, index)) = case.place {
        parts.push(format!("place {}", word(outcome.after.real_place(class, index))));
    }
    parts.join(", ")
}

/// The instruction's lines, constants and records; also played with those of Ret and Temp real that are not named.
fn body(case: &Case, mode: u8, real: &[u8], real_place: bool, rooted: bool) -> String {
    let outcome = play_out(case, mode, real, real_place, rooted);
    if outcome.refused != 0 {
        return format!("    refused {}\n", outcome.refused);
    }
    let unnamed = [RET, TEMP].into_iter().filter(|r| !case.registers.contains(r));
    let more: Vec<u8> = real.iter().copied().chain(unnamed).collect();
    let with_real = play_out(case, mode, &more, real_place, rooted);
    assert_eq!(outcome.lines, with_real.lines, "{}", case.title);
    let mut text = String::new();
    for line in &outcome.lines {
        text += &format!("    {line}\n");
    }
    if outcome.lines.is_empty() {
        text += "    (nothing)\n";
    }
    if !outcome.constants.is_empty() {
        let bits: Vec<String> = outcome.constants.iter().map(|c| format!("{c:016x}")).collect();
        text += &format!("    appends {}\n", bits.join(" "));
    }
    text + &format!("    after: {}\n", recorded(case, &outcome, &with_real))
}

/// Every mode; equal ones once.
fn modes(case: &Case, real: &[u8], real_place: bool, rooted: bool) -> Vec<(&'static str, String)> {
    let [plain, stable, minding] = MODES.map(|mode| body(case, mode, real, real_place, rooted));
    match (plain == stable, stable == minding) {
        (true, true) => vec![("every mode", plain)],
        (true, false) => vec![("modes 0 and 1", plain), ("mode 2", minding)],
        (false, true) => vec![("plain", plain), ("modes 1 and 2", stable)],
        (false, false) => vec![("plain", plain), ("stable", stable), ("mode 2", minding)],
    }
}

/// What the registers with these bits, and the place, are recorded as.
fn heading(distinct: &[u8], bits: u32, any: Option<u8>, place: Option<bool>) -> String {
    let mut parts = Vec::new();
    for (i, register) in distinct.iter().enumerate() {
        let word = if Some(*register) == any {
            "any"
        } else if bits >> i & 1 == 1 {
            "real"
        } else {
            "complex"
        };
        parts.push(format!("{} {}", name(*register), word));
    }
    if let Some(real) = place {
        parts.push(format!("place {}", if real { "real" } else { "complex" }));
    }
    parts.join(", ")
}

/// Every realness of the registers named and of the place. Where a destination's own record makes no difference it is `any`.
fn show(case: &Case, rooted: bool) {
    println!("== {}{}", case.title, if rooted { " (a later one)" } else { "" });
    let distinct: Vec<u8> = case.registers.iter().copied().collect::<BTreeSet<u8>>().into_iter().collect();
    let places: &[Option<bool>] = match case.place {
        Some((class, _)) if class != MEM => &[Some(false), Some(true)],
        _ => &[None],
    };
    let dst = distinct.iter().position(|r| *r == case.registers[0]).unwrap();
    for place in places {
        for bits in 0..1u32 << distinct.len() {
            let real = |bits: u32| -> Vec<u8> {
                (0..distinct.len()).filter(|i| bits >> i & 1 == 1).map(|i| distinct[i]).collect()
            };
            let now = modes(case, &real(bits), *place == Some(true), rooted);
            let other = modes(case, &real(bits ^ 1 << dst), *place == Some(true), rooted);
            let any = if now == other { Some(distinct[dst]) } else { None };
            if any.is_some() && bits >> dst & 1 == 1 {
                continue;
            }
            for (mode, text) in &now {
                print!("  {}; {mode}\n{text}", heading(&distinct, bits, any, *place));
            }
        }
    }
}

fn uni(op: u8, dst: u8, s1: u8) -> Case {
    // IsZero and IsNotZero compare with Temp, after a Xor that goes by the record of Temp.
    let registers =
        if matches!(op, names::uni::IS_ZERO | names::uni::IS_NOT_ZERO) { vec![dst, s1, TEMP] } else { vec![dst, s1] };
    Case {
        title: format!("{}{}", UNI[op as usize], row(&[dst, s1])),
        record: make::uni(op, dst, s1),
        registers,
        place: None,
    }
}

fn bi(op: u8, dst: u8, s1: u8, s2: u8) -> Case {
    Case {
        title: format!("{}{}", BI[op as usize], row(&[dst, s1, s2])),
        record: make::bi(op, dst, s1, s2),
        registers: vec![dst, s1, s2],
        place: None,
    }
}

fn mov(dst: u8, s1: u8) -> Case {
    let title = format!("Mov{}", row(&[dst, s1]));
    Case { title, record: make::mov(dst, s1), registers: vec![dst, s1], place: None }
}

fn load(dst: u8, class: u8) -> Case {
    let title = format!("Load{} {} 7", row(&[dst]), CLASSES[class as usize]);
    Case { title, record: make::load(dst, class, 7), registers: vec![dst], place: Some((class, 7)) }
}

fn save(src: u8, class: u8) -> Case {
    let title = format!("Save{} {} 7", row(&[src]), CLASSES[class as usize]);
    Case { title, record: make::save(src, class, 7), registers: vec![src], place: Some((class, 7)) }
}

fn fused(op: u8, r: [u8; 4]) -> Case {
    Case {
        title: format!("{}{}", FUSED[op as usize], row(&r)),
        record: make::fused(op, r[0], r[1], r[2], r[3]),
        registers: r.to_vec(),
        place: None,
    }
}

fn if_else(dst: u8, t: u8, f: u8) -> Case {
    Case {
        title: format!("IfElse{} Stack 7", row(&[dst, t, f])),
        record: make::if_else(dst, t, f, STACK, 7),
        registers: vec![dst, t, f],
        place: Some((STACK, 7)),
    }
}

fn load_math(op: u8, dst: u8, s1: u8, class: u8) -> Case {
    Case {
        title: format!("LoadMath {}{} {} 7", ARITH[op as usize], row(&[dst, s1]), CLASSES[class as usize]),
        record: make::load_math(op, dst, s1, class, 7),
        registers: vec![dst, s1],
        place: Some((class, 7)),
    }
}

fn load_const_math(op: u8, dst: u8, s1: u8) -> Case {
    Case {
        title: format!("LoadConstMath {}{} constant 0", ARITH[op as usize], row(&[dst, s1])),
        record: make::load_const_math(op, dst, s1, 0),
        registers: vec![dst, s1],
        place: None,
    }
}

fn show_uni(op: u8, dst: u8, s1: u8) {
    let case = uni(op, dst, s1);
    show(&case, false);
    if op == names::uni::ROOT || op == names::uni::REAL_ROOT {
        show(&case, true);
    }
}

/// Registers 0, 1, 2.
fn general() {
    println!("# General registers\n");
    for op in SHEET_UNI {
        show_uni(op, 2, 0);
        show_uni(op, 0, 0);
    }
    for op in SHEET_BI {
        show(&bi(op, 2, 0, 1), false);
    }
    show(&mov(2, 0), false);
    show(&mov(2, 2), false);
    for class in [STACK, MEM, PARAM] {
        show(&load(2, class), false);
    }
    for class in [STACK, MEM] {
        show(&save(0, class), false);
    }
    let load_const = Case {
        title: "LoadConst 2 constant 0".to_string(),
        record: make::load_const(2, 0),
        registers: vec![2],
        place: None,
    };
    show(&load_const, false);
    for op in 0..4 {
        show(&fused(op, [2, 0, 1, 3]), false);
    }
    show(&if_else(2, 0, 1), false);
    for op in 0..4 {
        show(&load_math(op, 2, 0, STACK), false);
        show(&load_math(op, 2, 0, MEM), false);
    }
    for op in 0..4 {
        show(&load_const_math(op, 2, 0), false);
    }
}

/// Ret and Temp as destination and operands.
fn set_aside() {
    println!("\n# Ret and Temp\n");
    for (dst, s1) in pairs() {
        for op in SHEET_UNI {
            show_uni(op, dst, s1);
        }
        show(&mov(dst, s1), false);
    }
    for s1 in [RET, TEMP] {
        show(&save(s1, STACK), false);
        show(&save(s1, MEM), false);
        show(&load(s1, STACK), false);
    }
    for (dst, s1) in pairs() {
        for op in 0..4 {
            show(&load_math(op, dst, s1, STACK), false);
            show(&load_const_math(op, dst, s1), false);
        }
    }
    for dst in [2, RET, TEMP] {
        for s1 in [0, RET, TEMP] {
            for s2 in [1, RET, TEMP] {
                if (dst, s1, s2) != (2, 0, 1) {
                    triples(dst, s1, s2);
                }
            }
        }
    }
    for op in 0..4 {
        for at in 0..4 {
            for register in [RET, TEMP] {
                let mut row = [2, 0, 1, 3];
                row[at] = register;
                show(&fused(op, row), false);
            }
        }
    }
}

fn triples(dst: u8, s1: u8, s2: u8) {
    show(&bi(names::bi::DIVIDE, dst, s1, s2), false);
    show(&bi(names::bi::TIMES, dst, s1, s2), false);
    show(&bi(names::bi::NOT_EQUAL, dst, s1, s2), false);
    show(&if_else(dst, s1, s2), false);
}

fn pairs() -> Vec<(u8, u8)> {
    let mut found = Vec::new();
    for dst in [2, RET, TEMP] {
        for s1 in [0, RET, TEMP] {
            if (dst, s1) != (2, 0) {
                found.push((dst, s1));
            }
        }
    }
    found
}

/// An operand that is the destination, or both operands equal.
fn aliased() {
    println!("\n# One register twice\n");
    for (dst, s1, s2) in [(0, 0, 1), (1, 0, 1), (2, 0, 0), (0, 0, 0)] {
        for op in SHEET_BI {
            show(&bi(op, dst, s1, s2), false);
        }
        show(&if_else(dst, s1, s2), false);
    }
}

fn main() {
    general();
    set_aside();
    aliased();
}
