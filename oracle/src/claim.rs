//! The claim about leftovers, tried on one sheet, store, point and change: document 01's section Leftovers, with document 02's branches. In mode
//! 2 it has no condition about Half.

use crate::format::*;
use crate::machine::Machine;
use crate::make;
use crate::names::uni;
use crate::player::{place_word, Played};
use crate::random::{self, Parts, Rng};
use crate::reference::{Answer, Realness};

/// The store indices of a sheet register's real and imaginary half.
pub fn pair(register: u8) -> (usize, usize) {
    match register {
        RET => (64, 65),
        TEMP => (0, 1),
        general => (4 + 2 * general as usize, 5 + 2 * general as usize),
    }
}

/// The store indices that may be changed: scratch, imaginary halves and words of what is recorded as real.
pub fn leftovers(realness: &Realness) -> Vec<usize> {
    let mut found = vec![2, 3];
    found.extend((0..32).filter(|r| realness.registers[*r as usize]).map(|r| pair(r).1));
    for class in [STACK, PARAM] {
        found.extend((0..256).filter(|i| realness.real_place(class, *i)).map(|i| place_word(class, i) + 1));
    }
    found
}

/// Where the listing of the first instructions ends, with what holds there.
struct Stage {
    bytes: usize,
    records: u64,
    realness: Realness,
}

/// An accepted sheet's listing, a stage for each of its points, and a place in Mem that it does not name.
struct Lowered {
    listing: Vec<u8>,
    constants: Vec<u64>,
    stages: Vec<Stage>,
    spare: u16,
}

/// The word of the spare place, which a register holds at most by chance.
const SPARE: u64 = 0x9e37_79b9_7f4a_7c15;

/// The answer, and the listing and constants written.
fn lower(machine: &impl Machine, sheet: &[u8]) -> (Answer, Vec<u8>, Vec<u64>) {
    let (mut listing, mut constants) = (vec![0; LISTING_LIMIT], vec![0; TABLE]);
    let answer = machine.lower(sheet, &mut listing, &mut constants);
    listing.truncate(answer.written as usize);
    constants.truncate(answer.count as usize);
    (answer, listing, constants)
}

/// The lowering of a sheet and of each row of its first instructions; `None` where the sheet is refused.
fn lowered(machine: &impl Machine, parts: &Parts) -> Result<Option<Lowered>, String> {
    let (answer, listing, constants) = lower(machine, &parts.sheet());
    if answer.number != 0 {
        return Ok(None);
    }
    let mut stages = Vec::new();
    for count in 0..=parts.instructions.len() {
        let (cut, first, _) = lower(machine, &parts.cut(count));
        let number = if count < INSTRUCTIONS { UNKNOWN } else { LONG };
        if (cut.number, cut.index) != (number, count as u64) || !listing.starts_with(&first) {
            return Err(format!("the first {count} instructions are not lowered as in the sheet: {cut:?}"));
        }
        stages.push(Stage { bytes: first.len(), records: records(&first).len() as u64, realness: cut.realness });
    }
    if stages.last().map(|s| (s.bytes, &s.realness)) != Some((listing.len(), &answer.realness)) {
        return Err("the last point is not the sheet's end".to_string());
    }
    let named = random::indices_of(&listing);
    let spare = (0..256).find(|i| !named.contains(i)).ok_or("the listing names every place")?;
    Ok(Some(Lowered { listing, constants, stages, spare }))
}

/// A Half that reads a register recorded as real into one recorded as complex, by the realness before it.
pub fn half_of_real(record: &[u8], before: &Realness) -> bool {
    let real = |r: u8| before.registers[r as usize];
    two(record, 2) == 1 && record[4] == uni::HALF && real(record[6]) && !real(record[5])
}

/// The destination of an instruction and its operands.
pub fn destination_and_operands(record: &[u8]) -> (Option<u8>, &[u8]) {
    let f = &record[4..];
    match two(record, 2) {
        1 | 2 | 7 => (Some(f[1]), &f[2..]),
        3 => (Some(f[0]), &f[1..]),
        4 | 6 => (Some(f[0]), &[]),
        5 | BRANCH_IF => (None, &f[..1]),
        8 => (Some(f[0]), &f[1..3]),
        9 | 10 => (Some(f[1]), &f[2..3]),
        _ => (None, &[]),
    }
}

/// What an instruction changed that it may not.
fn broken_frame(record: &[u8], realness: &Realness, before: &[u64], after: &[u64]) -> Option<String> {
    let (destination, operands) = destination_and_operands(record);
    for register in (0..30u8).filter(|r| Some(*r) != destination) {
        let (re, im) = pair(register);
        let cleared = operands.contains(&register) && realness.registers[register as usize] && after[im] == 0;
        if after[re] != before[re] || after[im] != before[im] && !cleared {
            return Some(format!("register {register} changed by {record:?}"));
        }
    }
    None
}

/// The label of a record that stands as one, or that branches to one of the sheet's own.
fn label_of(record: &[u8], branch: bool) -> Option<u8> {
    match (two(record, 2), branch) {
        (LABEL, false) => Some(record[4]),
        (BRANCH, true) if record[4] >= OWN_LABEL => Some(record[4]),
        (BRANCH_IF, true) => Some(record[5]),
        _ => None,
    }
}

/// The listing up to a stage, the Label that stands there too; a Save to a place that the listing does not name, and a Branch 0, which ends
/// a play that stands there; and the labels to which branches jump over both.
fn stopped(lowered: &Lowered, stage: &Stage) -> Vec<u8> {
    let (before, behind) = lowered.listing.split_at(stage.bytes);
    let mut row = records(before);
    row.extend(first(behind).filter(|r| label_of(r, false).is_some()));
    let stands = |label: u8| row.iter().any(|r| label_of(r, false) == Some(label));
    let mut awaited: Vec<u8> = row.iter().filter_map(|r| label_of(r, true)).filter(|l| !stands(*l)).collect();
    awaited.sort();
    awaited.dedup();
    let mut bytes = row.concat();
    bytes.extend([make::save(0, MEM, lowered.spare), make::branch(0)].concat());
    awaited.into_iter().for_each(|label| bytes.extend(make::label(label)));
    bytes
}

/// A play from point `from`: the stores at each point from it on where it stands there, then its end.
struct Walk {
    stores: Vec<Option<Vec<u64>>>,
    end: Vec<u64>,
    last: Played,
}

/// Plays a listing of lowered records, which must be accepted.
fn accepted(
    machine: &impl Machine,
    listing: &[u8],
    constants: &[u64],
    store: &mut [u64],
    start: u64,
) -> Result<Played, String> {
    let played = machine.play(listing, constants, store, start);
    if played.number != 0 || played.index != records(listing).len() as u64 {
        return Err(format!("a lowered listing is refused: {played:?}"));
    }
    Ok(played)
}

/// Plays from one point on up to each later one. Whether the play stands there, the spare place tells: its word is SPARE, or it is not.
fn walk(machine: &impl Machine, lowered: &Lowered, from: usize, store: &[u64]) -> Result<Walk, String> {
    let Lowered { listing, constants, stages, spare } = lowered;
    let start = stages[from].records;
    let mut stores = Vec::new();
    for stage in &stages[from..] {
        let mut now = store.to_vec();
        accepted(machine, &stopped(lowered, stage), constants, &mut now, start)?;
        let stands = std::mem::replace(&mut now[place_word(MEM, *spare)], SPARE) != SPARE;
        stores.push(stands.then_some(now));
    }
    let mut end = store.to_vec();
    let last = accepted(machine, listing, constants, &mut end, start)?;
    if stores.last().unwrap().as_ref() != Some(&end) {
        return Err("a play does not end at the last point".to_string());
    }
    Ok(Walk { stores, end, last })
}

/// Each instruction's changes, up to the next higher point reached.
fn check_frames(parts: &Parts, stages: &[Stage], from: usize, walk: &Walk) -> Result<(), String> {
    let reached: Vec<(usize, &Vec<u64>)> =
        walk.stores.iter().enumerate().filter_map(|(step, store)| Some((from + step, store.as_ref()?))).collect();
    for pair in reached.windows(2) {
        let ((i, before), (_, after)) = (pair[0], pair[1]);
        if let Some(text) = broken_frame(&parts.instructions[i], &stages[i].realness, before, after) {
            return Err(format!("instruction {i}: {text}"));
        }
    }
    Ok(())
}

/// Both ways of playing on go the same way and end alike outside the last leftovers.
fn check_ends(stages: &[Stage], kept: &Walk, changed: &Walk) -> Result<(), String> {
    if kept.last != changed.last {
        return Err(format!("{:?} without and {:?} with the change", kept.last, changed.last));
    }
    if (0..kept.stores.len()).any(|i| kept.stores[i].is_some() != changed.stores[i].is_some()) {
        return Err("the change steers a branch".to_string());
    }
    let free = leftovers(&stages.last().unwrap().realness);
    match (0..STORE).find(|i| kept.end[*i] != changed.end[*i] && !free.contains(i)) {
        Some(i) => Err(format!("store word {i}: {:016x} and {:016x}", kept.end[i], changed.end[i])),
        None => Ok(()),
    }
}

/// What a trial came to.
#[derive(Debug, PartialEq)]
pub enum Trial {
    /// The sheet is refused, so the claim says nothing.
    Refused,
    /// The play does not stand at the point, so the claim says nothing.
    NotReached,
    /// A Half still to be played reads a real register into a complex one, in a mode in which that is a condition.
    Half,
    /// With the count of later points that the play passes over, and whether such a Half stands among what it passes over; in mode 2 one may
    /// still be to be played.
    Holds {
        passed: usize,
        past_half: bool,
        with_half: bool,
    },
    Fails(String),
}

/// The claim on one sheet and store at one point: the frames always, the ends unless a Half stands in the way.
pub fn try_one(machine: &impl Machine, parts: &Parts, store: &[u64], point: usize, rng: &mut Rng) -> Trial {
    let trial = match lowered(machine, parts) {
        Ok(None) => return Trial::Refused,
        Ok(Some(lowered)) => whole_claim(machine, parts, &lowered, store, point, rng),
        Err(text) => Err(text),
    };
    trial.unwrap_or_else(Trial::Fails)
}

fn whole_claim(
    machine: &impl Machine,
    parts: &Parts,
    lowered: &Lowered,
    store: &[u64],
    point: usize,
    rng: &mut Rng,
) -> Result<Trial, String> {
    let stages = &lowered.stages;
    let mut store = store.to_vec();
    store[place_word(MEM, lowered.spare)] = SPARE;
    let first = walk(machine, lowered, 0, &store)?;
    check_frames(parts, stages, 0, &first)?;
    let Some(standing) = &first.stores[point] else {
        return Ok(Trial::NotReached);
    };
    let kept = walk(machine, lowered, point, standing)?;
    if kept.stores[..] != first.stores[point..] {
        return Err("playing on differs from playing through".to_string());
    }
    let halves = |reached: bool| {
        (point..parts.instructions.len())
            .filter(|i| kept.stores[i - point].is_some() == reached)
            .any(|i| half_of_real(&parts.instructions[i], &stages[i].realness))
    };
    if halves(true) && parts.mode() != MINDING {
        return Ok(Trial::Half);
    }
    let mut altered = standing.clone();
    for i in leftovers(&stages[point].realness) {
        if !rng.once_in(4) {
            altered[i] = random::any_word(rng);
        }
    }
    let changed = walk(machine, lowered, point, &altered)?;
    check_frames(parts, stages, point, &changed)?;
    check_ends(stages, &kept, &changed)?;
    let passed = kept.stores.iter().filter(|s| s.is_none()).count();
    Ok(Trial::Holds { passed, past_half: halves(false), with_half: halves(true) })
}

/// One random trial, on a sheet in one of these modes with branches or without.
pub fn random_trial(machine: &impl Machine, modes: &[u8], branches: bool, rng: &mut Rng) -> (Parts, Trial) {
    let length = rng.below(16);
    let mode = rng.pick(modes);
    let parts = random::parts_in(mode, rng, length);
    let parts = if branches { random::woven(rng, &parts) } else { parts };
    let point = rng.below(parts.instructions.len() + 1);
    let indices: Vec<u16> = random::indices_of(&parts.instructions.concat());
    let store = if branches { random::store_of_conditions(rng, &indices) } else { random::any_store(rng, &indices) };
    let trial = try_one(machine, &parts, &store, point, rng);
    (parts, trial)
}
