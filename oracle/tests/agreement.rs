//! The parts agree: points with prefixes, lists with their reader, and the claim about leftovers has teeth.

use oracle::claim::{pair, random_trial, try_one, Trial};
use oracle::format::*;
use oracle::machine::{Machine, Reference};
use oracle::names::uni;
use oracle::player::Played;
use oracle::random::{parts, woven, Parts, Rng};
use oracle::reference::{lower, lower_with_points, Answer};
use oracle::{boundary, lists, make, random};

#[test]
fn points_are_the_ends_of_prefixes() {
    let mut rng = Rng(5);
    for turn in 0..300 {
        let straight = parts(&mut rng, 10);
        let sheet = if turn % 2 == 0 { straight } else { woven(&mut rng, &straight) };
        let (mut listing, mut constants) = (vec![0; LISTING_LIMIT], vec![0; TABLE]);
        let (_, points) = lower_with_points(&sheet.sheet(), &mut listing, &mut constants);
        for (count, point) in points.iter().enumerate() {
            let mut shorter = vec![0; LISTING_LIMIT];
            let answer = lower(&sheet.cut(count), &mut shorter, &mut [0; TABLE]);
            assert_eq!((answer.number, answer.index), (UNKNOWN, count as u64));
            assert_eq!(answer.written as usize, point.bytes);
            assert_eq!(answer.realness, point.realness);
            assert_eq!(shorter[..point.bytes], listing[..point.bytes]);
            assert_eq!(records(&listing[..point.bytes]).len(), point.records);
        }
    }
}

#[test]
fn the_claim_holds_on_random_sheets() {
    let mut rng = Rng(11);
    let (mut jumped, mut past_halves, mut not_reached) = (0, 0, 0);
    for turn in 0..4000 {
        let (_, trial) = random_trial(&Reference, &MODES, turn % 4 != 0, &mut rng);
        match trial {
            Trial::Fails(text) => panic!("{text}"),
            Trial::NotReached => not_reached += 1,
            Trial::Holds { passed, past_half, .. } => {
                jumped += u64::from(passed > 0);
                past_halves += u64::from(past_half);
            }
            _ => {}
        }
    }
    assert!(jumped > 200 && past_halves > 0 && not_reached > 50, "{jumped}, {past_halves}, {not_reached}");
}

/// How many of some random trials fail.
fn failures(machine: &impl Machine) -> usize {
    let mut rng = Rng(17);
    (0..600).filter(|turn| matches!(random_trial(machine, &MODES, turn % 2 == 0, &mut rng).1, Trial::Fails(_))).count()
}

/// The reference, but every register is recorded as real.
struct AllReal;

impl Machine for AllReal {
    fn lower(&self, sheet: &[u8], listing: &mut [u8], constants: &mut [u64]) -> Answer {
        let mut answer = lower(sheet, listing, constants);
        answer.realness.registers = [true; 32];
        answer
    }

    fn play(&self, listing: &[u8], constants: &[u64], store: &mut [u64], start: u64) -> Played {
        Reference.play(listing, constants, store, start)
    }
}

/// The reference, but a register that nothing names is written too.
struct Untidy;

impl Machine for Untidy {
    fn lower(&self, sheet: &[u8], listing: &mut [u8], constants: &mut [u64]) -> Answer {
        lower(sheet, listing, constants)
    }

    fn play(&self, listing: &[u8], constants: &[u64], store: &mut [u64], start: u64) -> Played {
        let played = Reference.play(listing, constants, store, start);
        store[62] = store[62].wrapping_add(played.played);
        played
    }
}

#[test]
fn the_claim_fails_where_it_should() {
    assert_eq!(failures(&Reference), 0);
    assert!(failures(&AllReal) > 50, "{}", failures(&AllReal));
    assert!(failures(&Untidy) > 100, "{}", failures(&Untidy));
}

/// Lowering without 10 and 11: the other instructions by the reference, labels and branches put between as they list themselves.
struct NoLabelRules;

impl Machine for NoLabelRules {
    fn lower(&self, sheet: &[u8], listing: &mut [u8], constants: &mut [u64]) -> Answer {
        let mut straight = Parts { head: sheet[..HEADER_LENGTH].to_vec(), instructions: Vec::new() };
        let mut jumps: Vec<(usize, Vec<u8>)> = Vec::new();
        for record in records(&sheet[HEADER_LENGTH..]) {
            let own = straight.instructions.len();
            match two(record, 2) {
                CONSTANT if own == 0 => straight.head.extend(record),
                LABEL | BRANCH => jumps.push((own, record.to_vec())),
                BRANCH_IF => jumps.push((own, make::branch_if(pair(record[4]).0 as u8, record[5], record[6]))),
                _ => straight.instructions.push(record.to_vec()),
            }
        }
        let mut own = vec![0; LISTING_LIMIT];
        let (mut answer, points) = lower_with_points(&straight.sheet(), &mut own, constants);
        jumps.retain(|(at, _)| *at as u64 <= answer.index);
        let mut bytes = own[..answer.written as usize].to_vec();
        for (at, record) in jumps.iter().rev() {
            bytes.splice(points[*at].bytes..points[*at].bytes, record.iter().copied());
        }
        listing[..bytes.len()].copy_from_slice(&bytes);
        answer.index += jumps.len() as u64;
        answer.written = bytes.len() as u64;
        answer
    }

    fn play(&self, listing: &[u8], constants: &[u64], store: &mut [u64], start: u64) -> Played {
        Reference.play(listing, constants, store, start)
    }
}

/// Register 2 is real at the branch and complex at the label, where its imaginary half is saved.
#[test]
fn the_claim_needs_equal_records_at_labels() {
    let head = make::sheet(false, &[0; 64], &[7], &[]);
    let row = |second: Vec<u8>| {
        let instructions =
            vec![make::load_const(2, 0), make::branch_if(1, 3, 0), second, make::label(3), make::save(2, MEM, 1)];
        Parts { head: head.clone(), instructions }
    };
    let store = vec![3; STORE];
    let (unequal, equal) = (row(make::load(2, MEM, 0)), row(make::load_const(2, 0)));
    assert_eq!(try_one(&Reference, &unequal, &store, 1, &mut Rng(1)), Trial::Refused);
    assert!(matches!(try_one(&NoLabelRules, &unequal, &store, 1, &mut Rng(1)), Trial::Fails(_)));
    assert_eq!(
        try_one(&NoLabelRules, &unequal, &store, 3, &mut Rng(1)),
        Trial::Holds { passed: 0, past_half: false, with_half: false }
    );
    let holds = Trial::Holds { passed: 1, past_half: false, with_half: false };
    assert_eq!(try_one(&Reference, &equal, &store, 1, &mut Rng(1)), holds);
    assert_eq!(try_one(&NoLabelRules, &equal, &store, 1, &mut Rng(1)), holds);
}

/// What a taken branch jumps over is not reached: no claim is made there, and a Half there is none still to be played.
#[test]
fn points_and_halves_that_are_jumped_over() {
    let head = make::sheet(false, &[0; 64], &[7], &[]);
    let instructions = vec![
        make::load_const(0, 0),
        make::branch_if(1, 3, 1),
        make::nop(),
        make::uni(uni::HALF, 2, 0),
        make::label(3),
        make::save(2, MEM, 1),
    ];
    let sheet = Parts { head, instructions };
    let trial = |condition: u64, point| {
        let mut store = vec![3; STORE];
        store[pair(1).0] = condition;
        try_one(&Reference, &sheet, &store, point, &mut Rng(1))
    };
    assert_eq!(trial(0, 1), Trial::Holds { passed: 2, past_half: true, with_half: false });
    assert_eq!((trial(0, 2), trial(0, 3)), (Trial::NotReached, Trial::NotReached));
    assert_eq!(trial(0, 4), Trial::Holds { passed: 0, past_half: false, with_half: false });
    assert_eq!((trial(1, 1), trial(1 << 63, 3)), (Trial::Half, Trial::Half));
    assert_eq!(trial(1, 4), Trial::Holds { passed: 0, past_half: false, with_half: false });
}

#[test]
fn a_half_of_a_real_register_is_told_apart() {
    let head = make::sheet(false, &[0; 64], &[7], &[]);
    let instructions = vec![make::load_const(0, 0), make::uni(uni::HALF, 1, 0)];
    let sheet = Parts { head, instructions };
    let store = vec![3; STORE];
    let trial = |point| try_one(&Reference, &sheet, &store, point, &mut Rng(1));
    let holds = Trial::Holds { passed: 0, past_half: false, with_half: false };
    assert_eq!((trial(0), trial(1), trial(2)), (Trial::Half, Trial::Half, holds));
}

/// Mode 2 lowered as mode 1: its Half lists both lines of a real register.
struct NotMinding;

impl Machine for NotMinding {
    fn lower(&self, sheet: &[u8], listing: &mut [u8], constants: &mut [u64]) -> Answer {
        let mut other = sheet.to_vec();
        other[4] = other[4].min(STABLE);
        Reference.lower(&other, listing, constants)
    }

    fn play(&self, listing: &[u8], constants: &[u64], store: &mut [u64], start: u64) -> Played {
        Reference.play(listing, constants, store, start)
    }
}

/// "Here a user may change leftovers at any point without any condition on Half": of the same sheet in mode 2 the claim holds at every
/// point, and with the listing of mode 1 it fails.
#[test]
fn mode_2_needs_no_condition_about_half() {
    let head = make::sheet(MINDING, &[0; 64], &[7], &[]);
    let instructions = vec![make::load_const(0, 0), make::uni(uni::HALF, 1, 0), make::save(1, MEM, 3)];
    let sheet = Parts { head, instructions };
    let store = vec![3; STORE];
    let trial = |machine: &dyn Fn(usize) -> Trial| [0, 1, 2].map(machine);
    let holds = |with_half| Trial::Holds { passed: 0, past_half: false, with_half };
    let found = trial(&|point| try_one(&Reference, &sheet, &store, point, &mut Rng(1)));
    assert_eq!(found, [holds(true), holds(true), holds(false)]);
    assert!(matches!(try_one(&NotMinding, &sheet, &store, 1, &mut Rng(1)), Trial::Fails(_)));
    let mut rng = Rng(23);
    let mut fails =
        |machine: &dyn Fn(&mut Rng) -> Trial| (0..600).filter(|_| matches!(machine(&mut rng), Trial::Fails(_))).count();
    assert_eq!(fails(&|rng| random_trial(&Reference, &[MINDING], false, rng).1), 0);
    assert!(fails(&|rng| random_trial(&NotMinding, &[MINDING], false, rng).1) > 0);
}

/// Reads a list back: numbers and slices in turn.
struct Reader<'a>(&'a [u8]);

impl<'a> Reader<'a> {
    fn bytes(&mut self, count: usize) -> &'a [u8] {
        let (head, tail) = self.0.split_at(count);
        self.0 = tail;
        head
    }

    fn number(&mut self) -> usize {
        u32::from_le_bytes(self.bytes(4).try_into().unwrap()) as usize
    }

    fn word(&mut self) -> u64 {
        word(self.bytes(8), 0)
    }

    fn words(&mut self, count: usize) -> Vec<u64> {
        (0..count).map(|_| self.word()).collect()
    }

    fn indexed(&mut self, count: usize) -> Vec<(usize, u64)> {
        (0..count).map(|_| (self.number(), self.word())).collect()
    }
}

#[test]
fn the_list_of_sheets_says_what_the_reference_says() {
    let mut rng = Rng(23);
    let mut cases: Vec<random::ToLower> = boundary::sheets().into_iter().step_by(97).collect();
    cases.extend((0..100).map(|_| random::to_lower(&mut rng)));
    let list = lists::sheets(&cases);
    let mut r = Reader(&list);
    assert_eq!(r.number(), cases.len());
    for case in &cases {
        let [length, room, table, number, index, written, count] = std::array::from_fn(|_| r.number());
        let (realness, filled, drawn) = (r.bytes(96), r.bytes(66), r.bytes(66));
        assert_eq!((r.bytes(length), room, table), (&case.sheet[..], case.room, case.table));
        let mut listing = vec![lists::LENT; room];
        let mut constants = vec![lists::LENT_WORD; table];
        let answer = lower(&case.sheet, &mut listing, &mut constants);
        assert_eq!(
            [number, index, written, count].map(|n| n as u64),
            [answer.number as u64, answer.index, answer.written, answer.count]
        );
        assert_eq!(realness[..32], answer.realness.registers.map(|real| real as u8));
        assert_eq!(realness[32..], answer.realness.places);
        assert_eq!((filled, drawn), (&answer.marks.filled.map(u8::from)[..], &answer.marks.drawn.map(u8::from)[..]));
        assert_eq!(r.bytes(written), &listing[..written]);
        assert_eq!(r.words(count), constants[..count]);
        assert!(listing[written..].iter().all(|b| *b == lists::LENT));
        assert!(constants[count..].iter().all(|w| *w == lists::LENT_WORD));
    }
    assert!(r.0.is_empty());
}

#[test]
fn the_list_of_plays_says_what_the_player_says() {
    let mut rng = Rng(29);
    let cases: Vec<random::ToPlay> = (0..200).map(|_| random::to_play(&mut rng)).collect();
    let list = lists::plays(&cases);
    let mut r = Reader(&list);
    assert_eq!(r.number(), cases.len());
    for case in &cases {
        let [length, constants, store, set, changed] = std::array::from_fn(|_| r.number());
        let start = r.word();
        let number = r.number() as u32;
        let (index, played) = (r.word(), r.word());
        assert_eq!((r.bytes(length), start), (&case.listing[..], case.start));
        let constants = r.words(constants);
        let mut words = vec![r.word(); store];
        r.indexed(set).into_iter().for_each(|(i, w)| words[i] = w);
        assert_eq!((&constants, &words), (&case.constants, &case.store));
        let mut last = words.clone();
        let answer = Reference.play(&case.listing, &constants, &mut last, start);
        assert_eq!(answer, Played { number, index, played });
        r.indexed(changed).into_iter().for_each(|(i, w)| words[i] = w);
        assert_eq!(words, last);
    }
    assert!(r.0.is_empty());
}
