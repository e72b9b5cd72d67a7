//! Lowers sheets in mode 2 by the reference, which has document 02's two differences by the Rust's own methods, and through the C function,
//! and prints every difference: every instruction over registers 0, 1, 29, Ret and Temp with every record of these and of its places, then
//! COUNT random sheets without branches and COUNT with them; every mode above 2. Usage: compare-minding [COUNT] [SEED].

use std::process::ExitCode;

use oracle::boundary::every_instruction;
use oracle::ffi::Linked;
use oracle::format::*;
use oracle::lists::lowered;
use oracle::machine::Reference;
use oracle::make;
use oracle::names::{bi, uni};
use oracle::random::{self, Rng, ToLower};

const REGISTERS: [u8; 5] = [0, 1, 29, RET, TEMP];

/// Cases by answer number, and differences.
#[derive(Default)]
struct Tally {
    numbers: [u64; 15],
    differences: u64,
}

impl Tally {
    fn compare(&mut self, case: &ToLower) -> u32 {
        let (expected, found) = (lowered(&Reference, case), lowered(&Linked, case));
        self.numbers[expected.0.number as usize] += 1;
        if expected != found {
            self.differences += 1;
            println!(
                "sheet {:?}\n  room {}\n  expected {:?}\n  found {:?}",
                case.sheet, case.room, expected.0, found.0
            );
        }
        expected.0.number
    }

    fn report(&self, what: &str) {
        let total: u64 = self.numbers.iter().sum();
        println!("{what}: {total} sheets, answers 0 to 14: {:?}, {} differences", self.numbers, self.differences);
    }
}

/// The sheet in which the registers with a bit in `reals` are recorded as real, and Stack 7 and Param 7 where `places`; then the instruction.
fn with_record(mode: u8, reals: usize, places: bool, instruction: &[u8]) -> ToLower {
    let real_places = if places { make::real_places(&[(STACK, 7), (PARAM, 7)]) } else { [0; 64] };
    let real = (0..REGISTERS.len()).filter(|i| reals >> i & 1 == 1);
    let row: Vec<Vec<u8>> = real.map(|i| make::load_const(REGISTERS[i], 0)).chain([instruction.to_vec()]).collect();
    ToLower { sheet: make::sheet(mode, &real_places, &[7], &row), room: 1024, table: TABLE }
}

/// Whether it is what mode 2 lists otherwise than mode 1.
fn otherwise(record: &[u8], reals: usize) -> bool {
    let complex = |register: u8| REGISTERS.iter().position(|r| *r == register).is_some_and(|i| reals >> i & 1 == 0);
    match two(record, 2) {
        1 => record[4] == uni::HALF,
        2 => record[4] == bi::DIVIDE && record[5] == TEMP && complex(record[7]),
        _ => false,
    }
}

/// Every instruction with every record; how many of the accepted ones mode 2 lists otherwise.
fn every_form(tally: &mut Tally) -> u64 {
    let mut count = 0;
    for instruction in every_instruction(&REGISTERS) {
        for reals in 0..1 << REGISTERS.len() {
            for places in [false, true] {
                let number = tally.compare(&with_record(MINDING, reals, places, &instruction));
                count += u64::from(number == 0 && otherwise(&instruction, reals));
            }
        }
    }
    count
}

/// A random sheet in mode 2; one in four has little room.
fn any_case(rng: &mut Rng, branches: bool) -> ToLower {
    let length = rng.below(20);
    let straight = random::parts_in(MINDING, rng, length);
    let parts = if branches { random::woven(rng, &straight) } else { straight };
    let room = if rng.once_in(4) { rng.below(600) } else { LISTING_LIMIT };
    ToLower { sheet: parts.sheet(), room, table: TABLE }
}

fn main() -> ExitCode {
    let mut words = std::env::args().skip(1).map(|w| w.parse::<u64>().expect("a number"));
    let count = words.next().unwrap_or(50_000);
    let mut rng = Rng(words.next().unwrap_or(1));
    let (mut forms, mut straight, mut branching, mut modes) =
        (Tally::default(), Tally::default(), Tally::default(), Tally::default());
    let other = every_form(&mut forms);
    forms.report(&format!("mode 2, every instruction, {other} of the accepted listed otherwise than in mode 1"));
    (0..count).for_each(|_| {
        straight.compare(&any_case(&mut rng, false));
    });
    straight.report("mode 2, random sheets");
    (0..count).for_each(|_| {
        branching.compare(&any_case(&mut rng, true));
    });
    branching.report("mode 2, random sheets with branches");
    (0..=255).for_each(|mode| {
        modes.compare(&with_record(mode, 0, false, &make::uni(uni::HALF, 1, 0)));
    });
    modes.report("every mode byte");
    let differences: u64 = [&forms, &straight, &branching, &modes].iter().map(|tally| tally.differences).sum();
    println!("mode 2: {differences} differences");
    if differences == 0 && modes.numbers[0] == 3 {
        ExitCode::SUCCESS
    } else {
        ExitCode::FAILURE
    }
}
