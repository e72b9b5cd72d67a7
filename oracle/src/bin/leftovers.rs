//! Tries the claim about leftovers on random sheets, stores, points and changes: so many sheets without branches, so many with them, and so many
//! in mode 2, half of them with branches, where no Half is a condition. Then the claim about registers drawn on, on as many pairs of plays, half
//! of them of sheets with branches, in every mode; the marks of each sheet and of each row of its first instructions are compared.
//! Usage: leftovers [TRIALS] [SEED]. With the feature `linked` through the C functions, else through the reference.

use std::process::ExitCode;

use oracle::claim::{random_trial, Trial};
use oracle::drawn::{self, Drawn};
use oracle::format::{MINDING, MODES, PLAIN, STABLE};
use oracle::random::Rng;

#[cfg(feature = "linked")]
use oracle::ffi::Linked as Tried;
#[cfg(not(feature = "linked"))]
use oracle::machine::Reference as Tried;

/// The trials on sheets in these modes with branches or without: whether none fails, at least half hold, with branches a tenth jumps over
/// points, and in mode 2 a Half stops none and some hold with one still to be played.
fn tried(what: &str, modes: &[u8], branches: bool, trials: u64, rng: &mut Rng) -> bool {
    let (mut refused, mut not_reached, mut half, mut holds, mut fails) = (0, 0, 0, 0, 0);
    let (mut jumped, mut past_halves, mut with_halves) = (0, 0, 0);
    for trial in 0..trials {
        let (parts, outcome) = random_trial(&Tried, modes, branches, rng);
        match outcome {
            Trial::Refused => refused += 1,
            Trial::NotReached => not_reached += 1,
            Trial::Half => half += 1,
            Trial::Holds { passed, past_half, with_half } => {
                holds += 1;
                jumped += u64::from(passed > 0);
                past_halves += u64::from(past_half);
                with_halves += u64::from(with_half);
            }
            Trial::Fails(text) => {
                fails += 1;
                println!("trial {trial}: {text}\n  sheet {:?}", parts.sheet());
            }
        }
    }
    println!(
        "{what}: {trials} trials: {holds} hold ({jumped} with points jumped over, {past_halves} with a Half of a real register into a complex \
         one among them, {with_halves} with one still to be played), {half} stopped by such a Half, {not_reached} points not reached, \
         {refused} sheets refused, {fails} fail"
    );
    let minding = modes == [MINDING];
    fails == 0
        && 2 * holds >= trials
        && (!branches || 10 * jumped >= trials)
        && (!minding || half == 0 && 100 * with_halves >= trials)
}

/// The trials of the claim about registers drawn on: whether none fails, at least a sixth each holds with no mark and with some, and of the
/// latter a tenth ends apart where the marked registers differ too.
fn drawn_on(what: &str, branches: bool, trials: u64, rng: &mut Rng) -> bool {
    let (mut refused, mut unmarked, mut marked, mut aparts, mut fails) = (0, 0, 0, 0, 0);
    for trial in 0..trials {
        let (parts, outcome) = drawn::random_trial(&Tried, &MODES, branches, rng);
        match outcome {
            Drawn::Refused => refused += 1,
            Drawn::Holds { marks: 0, apart: false } => unmarked += 1,
            Drawn::Holds { marks, apart } => {
                marked += 1;
                aparts += u64::from(apart);
                fails += u64::from(marks == 0);
            }
            Drawn::Fails(text) => {
                fails += 1;
                println!("trial {trial}: {text}\n  sheet {:?}", parts.sheet());
            }
        }
    }
    println!(
        "{what}: {trials} pairs of plays: {unmarked} hold with no mark, {marked} with marks ({aparts} of these end apart where the marked \
         registers differ too), {refused} sheets refused, {fails} fail"
    );
    fails == 0 && 6 * unmarked >= trials && 6 * marked >= trials && 10 * aparts >= marked
}

fn main() -> ExitCode {
    let mut words = std::env::args().skip(1).map(|w| w.parse::<u64>().expect("a number"));
    let trials = words.next().unwrap_or(100_000);
    let mut rng = Rng(words.next().unwrap_or(1));
    let old = [PLAIN, STABLE];
    let outcomes = [
        tried("without branches", &old, false, trials, &mut rng),
        tried("with branches", &old, true, trials, &mut rng),
        tried("mode 2 without branches", &[MINDING], false, trials / 2, &mut rng),
        tried("mode 2 with branches", &[MINDING], true, trials / 2, &mut rng),
        drawn_on("registers drawn on, without branches", false, trials / 2, &mut rng),
        drawn_on("registers drawn on, with branches", true, trials / 2, &mut rng),
    ];
    if outcomes == [true; 6] {
        ExitCode::SUCCESS
    } else {
        ExitCode::FAILURE
    }
}
