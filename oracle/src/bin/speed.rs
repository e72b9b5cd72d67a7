//! Times lowering beside the Rust's `complexify` and playing beside the independent player, by size and mode, on the same inputs in one
//! run. Usage: speed [ROUNDS] [SEED]. A figure is that of the fastest round; the rounds of both sides alternate.

use std::hint::black_box;
use std::time::Instant;

use oracle::format::*;
use oracle::names::{bi, uni};
use oracle::random::{parts, Rng};
use oracle::reference::{complexify, decode, lower, real_set};
use oracle::rust::complexify::Complexifier;
use oracle::rust::config::Config;
use oracle::rust::mir::Instruction;
use oracle::{ffi, make, player};

/// Instructions of a sheet, up to the most, and how many sheets are timed together.
const SIZES: [(usize, usize); 4] = [(1, 128), (10, 32), (100, 8), (INSTRUCTIONS, 2)];

fn mode(stable: bool) -> &'static str {
    if stable {
        "stable"
    } else {
        "plain"
    }
}

/// Seconds of the fastest round of each of N works, which take turns.
fn fastest<const N: usize>(rounds: u64, mut works: [&mut dyn FnMut(); N]) -> [f64; N] {
    let mut least = [f64::INFINITY; N];
    for _ in 0..rounds {
        for (work, least) in works.iter_mut().zip(&mut least) {
            let start = Instant::now();
            work();
            *least = least.min(start.elapsed().as_secs_f64());
        }
    }
    least
}

/// A row: size, mode, millions per second for so much work on each side, ours last, and ours to each other side's.
fn row<const N: usize>(name: &str, stable: bool, work: usize, seconds: [f64; N]) {
    let ours = seconds[N - 1];
    let speeds = seconds.iter().map(|s| format!("{:.1}", work as f64 / s / 1e6));
    let ratios = seconds[..N - 1].iter().map(|s| format!("{:.2}", s / ours));
    let cells: Vec<_> = speeds.chain(ratios).collect();
    println!("| {name} | {} | {} |", mode(stable), cells.join(" | "));
}

fn accepted(sheet: &[u8]) -> bool {
    lower(sheet, &mut vec![0; LISTING_LIMIT], &mut [0; TABLE]).number == 0
}

/// A random sheet of this mode and size that is accepted and has at most five constants.
fn random_sheet(rng: &mut Rng, stable: bool, size: usize) -> Vec<u8> {
    loop {
        let parts = parts(rng, size);
        let sheet = parts.sheet();
        let wanted = parts.head.len() <= HEADER_LENGTH + 5 * CONSTANT_LENGTH && sheet[4] == stable as u8;
        if wanted && accepted(&sheet) {
            return sheet;
        }
    }
}

/// A sheet as the Rust takes it: its real places, constants and instructions.
struct Decoded {
    sheet: Vec<u8>,
    constants: Vec<u64>,
    instructions: Vec<Instruction>,
}

fn decoded(sheet: Vec<u8>) -> Decoded {
    let row = records(&sheet[HEADER_LENGTH..]);
    let own = row.iter().take_while(|r| two(r, 2) == CONSTANT).count();
    let constants = row[..own].iter().map(|r| word(r, 4)).collect();
    let instructions = row[own..].iter().map(|r| decode(r, own).unwrap().0).collect();
    Decoded { sheet, constants, instructions }
}

/// The Rust from its own instructions to its own `Mir`; ours from the sheet's bytes to the listing's.
fn lowering(rounds: u64, stable: bool, size: usize, sheets: &[Decoded]) {
    let work: usize = sheets.iter().map(|d| d.instructions.len()).sum();
    let reals: Vec<_> = sheets.iter().map(|d| real_set(&d.sheet[5..69].try_into().unwrap())).collect();
    let mut unchanged = || {
        for (d, reals) in sheets.iter().zip(&reals) {
            let mut complexifier = Complexifier::new(reals, Config::with_mode(stable));
            black_box(complexify(&mut complexifier, stable, &d.constants, &d.instructions));
        }
    };
    let (mut listing, mut constants, mut answer) =
        (vec![0; LISTING_LIMIT], vec![0; 8 * TABLE], vec![0; ffi::LOWER_ANSWER]);
    let mut origins = [0; ffi::ORIGINS];
    let mut ours = || {
        for d in sheets {
            black_box(ffi::lower(&d.sheet, &mut listing, &mut constants, &mut origins, &mut answer));
        }
    };
    row(&size.to_string(), stable, work, fastest(rounds, [&mut unchanged, &mut ours]));
}

/// Sums, differences and products over the general registers, with fresh loads that keep the values in range, and saves; every tenth
/// instruction, and the only one of a sheet of one, is `other`.
fn calm_sheet(stable: bool, size: usize, other: impl Fn(u8, u8, u8) -> Vec<u8>) -> Vec<u8> {
    let mut sheet = make::sheet(stable, &[0; 64], &[], &[]);
    for i in 0..size {
        let (a, b, d) = ((i * 7 % 28) as u8, (i * 11 % 28) as u8, (i * 5 % 28) as u8);
        let record = match i % 10 {
            0 => other(d, a, b),
            1 | 3 | 6 => make::load(d, MEM, (i % 200) as u16),
            2 | 8 => make::bi(bi::PLUS, d, a, b),
            4 => make::bi(bi::TIMES, d, a, b),
            5 => make::bi(bi::MINUS, d, a, b),
            7 => make::uni(uni::NEG, d, a),
            _ => make::save(a, STACK, (100 + i % 100) as u16),
        };
        sheet.extend(record);
    }
    sheet
}

fn to_bytes(words: &[u64]) -> Vec<u8> {
    words.iter().flat_map(|w| w.to_le_bytes()).collect()
}

fn put_words(words: &mut [u64], bytes: &[u8]) {
    for (word, eight) in words.iter_mut().zip(bytes.chunks_exact(8)) {
        *word = u64::from_le_bytes(eight.try_into().unwrap());
    }
}

fn put_bytes(bytes: &mut [u8], words: &[u64]) {
    for (eight, word) in bytes.chunks_exact_mut(8).zip(words) {
        eight.copy_from_slice(&word.to_le_bytes());
    }
}

/// Both players on the listing of a sheet, `times` in a round; each play is on a fresh store. `player.rs` is lent words, and then, as ours
/// is, the store's bytes.
fn playing(rounds: u64, name: &str, stable: bool, times: usize, sheet: &[u8]) -> Vec<u8> {
    let (mut listing, mut table) = (vec![0; LISTING_LIMIT], vec![0; TABLE]);
    let answer = lower(sheet, &mut listing, &mut table);
    assert_eq!(answer.number, 0);
    listing.truncate(answer.written as usize);
    table.truncate(answer.count as usize);
    let words: Vec<u64> = (0..STORE).map(|i| (1.0 + i as f64 / 977.0).to_bits()).collect();
    let (bytes, constants) = (to_bytes(&words), to_bytes(&table));
    let (mut store, mut held, mut given) = (words.clone(), words.clone(), vec![0; 24]);
    let (mut lent, mut taken) = (bytes.clone(), bytes.clone());
    let played = player::play(&listing, &table, &mut store, 0).played as usize;
    let mut on_words = || {
        for _ in 0..times {
            store.copy_from_slice(&words);
            black_box(player::play(&listing, &table, &mut store, 0));
        }
    };
    let mut on_bytes = || {
        for _ in 0..times {
            taken.copy_from_slice(&bytes);
            put_words(&mut held, black_box(&taken));
            black_box(player::play(&listing, &table, &mut held, 0));
            put_bytes(&mut taken, &held);
        }
    };
    let mut ours = || {
        for _ in 0..times {
            lent.copy_from_slice(&bytes);
            black_box(ffi::play(&listing, &constants, &mut lent, 0, &mut given));
        }
    };
    let seconds = fastest(rounds, [&mut on_words, &mut on_bytes, &mut ours]);
    row(&format!("{name} | {played}"), stable, played * times, seconds);
    assert_eq!(taken, lent);
    listing
}

/// Whether a listing has a Root or a MulAdd.
fn roots_or_fuses(listing: &[u8]) -> bool {
    records(listing).iter().any(|r| two(r, 2) == 7 || two(r, 2) == 1 && r[4] == uni::ROOT)
}

fn main() {
    let mut words = std::env::args().skip(1).map(|w| w.parse::<u64>().expect("a number"));
    let rounds = words.next().unwrap_or(200);
    let mut rng = Rng(words.next().unwrap_or(1));

    println!("Lowering: random sheets of every instruction, millions of instructions per second\n");
    println!(
        "| Instructions | Mode | `complexify` of the unchanged Rust | `tulipcricket_lower` | Ours to the Rust's |"
    );
    println!("|---|---|---|---|---|");
    for (size, times) in SIZES {
        for stable in [false, true] {
            let sheets: Vec<_> = (0..times).map(|_| decoded(random_sheet(&mut rng, stable, size))).collect();
            lowering(rounds, stable, size, &sheets);
        }
    }

    println!("\nPlaying: every tenth instruction as named, millions of records per second\n");
    println!(
        "| Instructions | Every tenth | Records | Mode | `player.rs` on words | on bytes | `tulipcricket_play` | Ours to words | to bytes |"
    );
    println!("|---|---|---|---|---|---|---|---|---|");
    for (size, times) in SIZES {
        for stable in [false, true] {
            let sheet = calm_sheet(stable, size, |d, a, b| make::bi(bi::DIVIDE, d, a, b));
            let name = format!("{size} | Divide");
            assert!(!roots_or_fuses(&playing(rounds, &name, stable, times, &sheet)));
        }
    }
    for (op, name) in [(uni::RECIP, "612 | Recip (MulAdd)"), (uni::ROOT, "612 | Root")] {
        for stable in [false, true] {
            let sheet = calm_sheet(stable, INSTRUCTIONS, |d, a, _| make::uni(op, d, a));
            assert!(roots_or_fuses(&playing(rounds, name, stable, 2, &sheet)));
        }
    }
}
