//! The wrapper on document 01's sheet on paper and on short runs: what it accepts, what it refuses, and what it leaves.

use tulipcricket::sheet::{Arith, Bi, Fused, Mode, Sheet, Uni, RET, TEMP};
use tulipcricket::{
    look, lower, nearest, pages, peak, play, shelf, Class, Looked, Lowered, Refused, Shelf, Store, Why, LISTING_LIMIT,
    PAGE,
};

fn paper() -> Vec<u8> {
    let mut sheet = Sheet::new(Mode::Plain);
    let two = sheet.constant(2.0);
    sheet.load_const(0, two).load(1, Class::Mem, 3).bi(Bi::Times, 0, 0, 1).save(0, Class::Mem, 4);
    sheet.bytes()
}

fn lowered() -> Lowered {
    lower(&paper(), LISTING_LIMIT).unwrap()
}

#[test]
fn the_paper_lists_five_records() {
    // LoadConst G4 0; LoadComplex G6 G7 Mem 3; Times G5 G4 G7; Times G4 G4 G6; SaveComplex G4 G5 Mem 4.
    let records: [&[u8]; 5] = [
        &[7, 0, 6, 0, 4, 0, 0],
        &[9, 0, 11, 0, 6, 7, 1, 3, 0],
        &[8, 0, 2, 0, 2, 5, 4, 7],
        &[8, 0, 2, 0, 2, 4, 4, 6],
        &[9, 0, 12, 0, 4, 5, 1, 4, 0],
    ];
    let found = lowered();
    assert_eq!(found.listing, records.concat());
    assert_eq!((found.constants, found.instructions), (vec![0x4000_0000_0000_0000], 4));
    assert_eq!((found.real_registers, found.real_places), ([false; 32], [0; 64]));
}

#[test]
fn what_a_listing_draws_on_before_filling_it() {
    assert_eq!((lowered().drawn(), lowered().filled()), (vec![], vec![4, 5, 6, 7]));
    let mut sheet = Sheet::new(Mode::Plain);
    sheet.save(0, Class::Mem, 1).load(0, Class::Mem, 2).save(RET, Class::Mem, 3).save(TEMP, Class::Mem, 4);
    let found = lower(&sheet.bytes(), LISTING_LIMIT).unwrap();
    assert_eq!((found.drawn(), found.filled()), (vec![0, 1, 4, 5, 64, 65], vec![4, 5]));
}

#[test]
fn where_each_constant_came_from() {
    assert_eq!(lowered().origins(), [None]);
    let mut sheet = Sheet::new(Mode::Stable);
    let infinity = sheet.constant(f64::INFINITY);
    sheet.load_const(1, infinity).uni(Uni::Abs, 2, 0).uni(Uni::Abs, 3, 0);
    let found = lower(&sheet.bytes(), LISTING_LIMIT).unwrap();
    // stable Abs asks for 2^-1021, 2^1023 and infinity
    assert_eq!(found.constants, [0x7ff0_0000_0000_0000, 0x0020_0000_0000_0000, 0x7fe0_0000_0000_0000]);
    assert_eq!(found.origins(), [None, Some(1), Some(1)]);
}

#[test]
fn forty_bytes_are_refused_by_7_at_3() {
    assert_eq!(lower(&paper(), 40), Err(Refused { why: Why::ListingFull, index: 3 }));
    assert_eq!(lower(&paper(), 41).unwrap().listing.len(), 41);
}

#[test]
fn wrong_setups_are_refused_by_8() {
    let setup = Refused { why: Why::WrongSetup, index: 0 };
    assert_eq!(lower(&[], LISTING_LIMIT), Err(setup));
    assert_eq!(lower(&paper(), LISTING_LIMIT + 1), Err(setup));
    assert_eq!(play(&[], &[0; 257], &mut Store::new(), 0), Err(setup));
}

#[test]
fn a_real_place_makes_a_real_register() {
    let mut sheet = Sheet::new(Mode::Stable);
    sheet.real(Class::Param, 9).load(7, Class::Param, 9).load(8, Class::Param, 8);
    let found = lower(&sheet.bytes(), LISTING_LIMIT).unwrap();
    assert_eq!((found.real_registers[7], found.real_registers[8], found.real_places[33]), (true, false, 2));
}

#[test]
fn a_play_writes_its_product() {
    let (found, mut store) = (lowered(), Store::new());
    store.set_place(Class::Mem, 3, (3.0, 4.0));
    let answer = play(&found.listing, &found.constants, &mut store, 0).unwrap();
    assert_eq!((answer.records, answer.played), (5, 5));
    assert_eq!(store.place(Class::Mem, 4), (6.0, 8.0));
}

#[test]
fn a_refused_play_leaves_the_store() {
    let (found, mut store) = (lowered(), Store::new());
    store.set_place(Class::Mem, 3, (3.0, 4.0));
    let before = store.clone();
    let stray = Refused { why: Why::StrayJump, index: 6 };
    assert_eq!(play(&found.listing, &found.constants, &mut store, 6), Err(stray));
    assert_eq!(play(&found.listing, &[], &mut store, 0), Err(Refused { why: Why::MissingConstant, index: 0 }));
    assert!(store == before);
    assert_eq!(stray.to_string(), "refused 9 6 (StrayJump)");
}

#[test]
fn a_look_shows_what_a_record_writes_and_what_follows() {
    let (found, mut store) = (lowered(), Store::new());
    store.set_place(Class::Mem, 3, (3.0, 4.0));
    let before = store.clone();
    let at = |record| look(&found.listing, &found.constants, &store, record);
    let shows = |follows, words: &[(usize, f64)]| {
        let words = words.iter().map(|(i, value)| (*i, value.to_bits())).collect();
        Ok(Looked { records: 5, follows, words })
    };
    assert_eq!(at(0), shows(1, &[(4, 2.0)])); // LoadConst G4 0
    assert_eq!(at(1), shows(2, &[(6, 3.0), (7, 4.0)])); // LoadComplex G6 G7 Mem 3
    assert_eq!(at(4), shows(5, &[(586, 0.0), (587, 0.0)])); // SaveComplex G4 G5 Mem 4, on what stands there now
    assert_eq!(at(5), shows(5, &[]));
    assert_eq!(at(6), Err(Refused { why: Why::StrayJump, index: 6 }));
    assert_eq!(look(&found.listing, &[], &store, 5), Err(Refused { why: Why::MissingConstant, index: 0 }));
    assert!(store == before);
}

#[test]
fn looking_and_writing_is_playing() {
    let found = lower(&above_a_corner(), LISTING_LIMIT).unwrap();
    let mut store = Store::new();
    store.set_place(Class::Mem, 3, (3.0, 4.0));
    store.set_place(Class::Mem, 5, (2.0, 0.0));
    let (mut played, mut record) = (store.clone(), 0);
    let answer = play(&found.listing, &found.constants, &mut played, 0).unwrap();
    let mut looks = 0;
    while record < answer.records {
        let looked = look(&found.listing, &found.constants, &store, record).unwrap();
        looked.words.iter().for_each(|(index, bits)| store.set_word(*index, *bits));
        record = looked.follows;
        looks += 1;
    }
    assert!(store == played);
    assert_eq!(looks, answer.played);
}

#[test]
fn the_paper_is_printed_on_one_page() {
    let found = lowered();
    let page = pages(&found.listing, &found.constants).unwrap();
    let lines: Vec<&str> = page.split_terminator('\n').collect();
    assert_eq!((page.len(), lines.len()), (PAGE, 60));
    let expected = [
        "    0 Constant         4000000000000000                                 ",
        "    0 LoadConst        G4 0                                             ",
        "    1 LoadComplex      G6 G7 Mem 3                                      ",
        "    2 Times            G5 G4 G7                                         ",
        "    3 Times            G4 G4 G6                                         ",
        "    4 SaveComplex      G4 G5 Mem 4                                      ",
    ];
    assert_eq!(lines[..6], expected);
    assert!(lines[6..].iter().all(|line| *line == " ".repeat(72)));
}

#[test]
fn pages_come_by_sixty_lines() {
    let record = [6, 0, 3, 0, 1, 2];
    let count = |records: usize, constants: usize| {
        pages(&record.repeat(records), &vec![0; constants]).map(|text| text.len() / PAGE)
    };
    assert_eq!((count(0, 0), count(1, 0), count(59, 1), count(60, 1)), (Ok(0), Ok(1), Ok(1), Ok(2)));
    assert_eq!(count(0, 257), Err(Refused { why: Why::WrongSetup, index: 0 }));
    assert_eq!(pages(&lowered().listing, &[]), Err(Refused { why: Why::MissingConstant, index: 0 }));
}

/// 6 / (1 + i), by instructions that divide register 0, recorded as real, by Mem 3 into register 2.
fn quotient(divide: impl Fn(&mut Sheet) -> &mut Sheet) -> (f64, f64) {
    let mut sheet = Sheet::new(Mode::Plain);
    let six = sheet.constant(6.0);
    divide(sheet.load_const(0, six)).save(2, Class::Mem, 4);
    let found = lower(&sheet.bytes(), LISTING_LIMIT).unwrap();
    let mut store = Store::new();
    store.set_place(Class::Mem, 3, (1.0, 1.0));
    play(&found.listing, &found.constants, &mut store, 0).unwrap();
    store.place(Class::Mem, 4)
}

#[test]
fn a_plain_load_math_divide_is_wrong_as_in_the_rust() {
    // LoadMath Divide 2, 0, Mem 3; and Load 1, Mem 3 with Divide 2, 0, 1.
    assert_eq!(quotient(|sheet| sheet.instruction(9, &[Bi::Divide as u8, 2, 0, Class::Mem as u8, 3, 0])), (6.0, -3.0));
    assert_eq!(quotient(|sheet| sheet.load(1, Class::Mem, 3).bi(Bi::Divide, 2, 0, 1)), (3.0, -3.0));
}

#[test]
fn the_peak_is_the_earliest_of_equals() {
    let (minus, zero, nan) = (0x8000_0000_0000_0000, 0, 0x7ff8_0000_0000_0000);
    assert_eq!(peak(&[minus, zero, zero], 2), Ok(vec![minus, minus, zero]));
    assert_eq!(peak(&[nan + 1, 1.0f64.to_bits(), nan], 1), Ok(vec![nan, 1.0f64.to_bits(), nan]));
    assert_eq!(peak(&[], 64), Ok(vec![]));
}

#[test]
fn windows_and_runs_out_of_range_are_refused_by_12() {
    let refused = Err(Refused { why: Why::WrongRun, index: 0 });
    assert_eq!(peak(&[0], 0), refused);
    assert_eq!(peak(&[0], 65), refused);
    assert_eq!(peak(&[0; 4097], 64), refused);
    assert_eq!(peak(&[0; 4096], 64), Ok(vec![0; 4096]));
}

#[test]
fn the_nearest_point_is_the_latest_of_equal_ones() {
    let points = [(f64::NAN, 0.0), (4.0, 1.0), (2.0, 1.0), (3.0, 0.0), (f64::NAN, 1.0), (5.0, 1.0)];
    assert_eq!(nearest((3.0, 1.0), &points), Ok(Some(3)));
    assert_eq!(nearest((3.0, 1.0), &points[..3]), Ok(Some(2)));
    assert_eq!(nearest((3.0, 1.0), &points[..1]), Ok(None));
    assert_eq!(nearest((3.0, 1.0), &[(0.0, 0.0); 513]), Err(Refused { why: Why::WrongPoints, index: 0 }));
}

#[test]
fn the_paper_takes_41_bytes_1_constant_and_5_records() {
    assert_eq!(shelf(&paper()), Ok(Shelf { instructions: 4, bytes: 41, constants: 1, records: 5 }));
    assert_eq!(shelf(&[]), Err(Refused { why: Why::WrongSetup, index: 0 }));
}

/// Mem 4 becomes Mem 3 where the real half of Mem 5 is above 1, else its square.
fn above_a_corner() -> Vec<u8> {
    let mut sheet = Sheet::new(Mode::Plain);
    let one = sheet.constant(1.0);
    sheet.load(0, Class::Mem, 3).load(1, Class::Mem, 5).load_const(2, one).bi(Bi::GreaterThan, 2, 1, 2);
    sheet.branch_if(2, 3, false).bi(Bi::Times, 0, 0, 0).label(3).save(0, Class::Mem, 4);
    sheet.bytes()
}

#[test]
fn a_formula_with_a_branch_goes_both_ways() {
    let found = lower(&above_a_corner(), LISTING_LIMIT).unwrap();
    let answer = |frequency: f64| {
        let mut store = Store::new();
        store.set_place(Class::Mem, 3, (3.0, 4.0));
        store.set_place(Class::Mem, 5, (frequency, 0.0));
        let played = play(&found.listing, &found.constants, &mut store, 0).unwrap();
        (store.place(Class::Mem, 4), played.played)
    };
    // LoadComplex twice, LoadConst, GreaterThan, BranchIf, TimesComplex, Label 3, SaveComplex
    assert_eq!((answer(2.0), answer(0.5)), (((3.0, 4.0), 7), ((-7.0, 24.0), 8)));
    assert_eq!(shelf(&above_a_corner()).unwrap().records, 8);
}

#[test]
fn labels_are_refused_by_10_and_11() {
    let refusal = |sheet: &Sheet| lower(&sheet.bytes(), LISTING_LIMIT).unwrap_err();
    let misplaced = |index| Refused { why: Why::MisplacedLabel, index };
    assert_eq!(refusal(Sheet::new(Mode::Plain).branch(3)), misplaced(0));
    assert_eq!(refusal(Sheet::new(Mode::Plain).label(3).branch_if(0, 3, true).label(3)), misplaced(1));
    assert_eq!(refusal(Sheet::new(Mode::Plain).branch(3).label(3).label(3)), misplaced(2));
    assert_eq!(refusal(Sheet::new(Mode::Plain).label(2)), misplaced(0));
    let mut sheet = Sheet::new(Mode::Plain);
    let two = sheet.constant(2.0);
    let unequal = refusal(sheet.branch(255).load_const(0, two).label(255));
    assert_eq!(unequal, Refused { why: Why::UnequalRecords, index: 2 });
    assert_eq!(unequal.to_string(), "refused 11 2 (UnequalRecords)");
}

#[test]
fn a_sheet_has_at_most_612_instructions() {
    let nops = |count: usize| {
        let mut sheet = Sheet::new(Mode::Plain);
        for _ in 0..count {
            sheet.instruction(0, &[]);
        }
        sheet.bytes()
    };
    assert_eq!(lower(&nops(612), LISTING_LIMIT).unwrap().instructions, 612);
    let refused = Refused { why: Why::SheetTooLong, index: 612 };
    assert_eq!(lower(&nops(613), LISTING_LIMIT), Err(refused));
    assert_eq!(shelf(&nops(613)), Err(refused));
    assert_eq!(refused.to_string(), "refused 14 612 (SheetTooLong)");
}

#[test]
fn the_block_is_played_once_for_each_root() {
    for mode in [Mode::Plain, Mode::Stable, Mode::Minding] {
        let mut sheet = Sheet::new(mode);
        sheet.load(0, Class::Mem, 3).uni(Uni::Root, 1, 0).uni(Uni::Root, 2, 1).save(2, Class::Mem, 4);
        let found = lower(&sheet.bytes(), LISTING_LIMIT).unwrap();
        let records = play(&found.listing, &found.constants, &mut Store::new(), 0).unwrap().played;
        let (bytes, constants) = (found.listing.len() as u64, found.constants.len() as u64);
        assert_eq!(shelf(&sheet.bytes()), Ok(Shelf { instructions: 4, bytes, constants, records }));
    }
}

#[test]
fn a_half_minds_the_record_in_mode_2() {
    // Half of a real 0 into 1: the real line, and in modes 0 and 1 the imaginary one before it, with 1 left complex
    let half = |mode| {
        let mut sheet = Sheet::new(mode);
        let two = sheet.constant(2.0);
        let found = lower(&sheet.load_const(0, two).uni(Uni::Half, 1, 0).bytes(), LISTING_LIMIT).unwrap();
        (found.listing[7..].to_vec(), found.real_registers[1])
    };
    let (imaginary, real) = ([7, 0, 1, 0, 13, 7, 5], [7, 0, 1, 0, 13, 6, 4]);
    assert_eq!(half(Mode::Minding), (real.to_vec(), true));
    assert_eq!(half(Mode::Stable), ([imaginary, real].concat(), false));
    assert_eq!(half(Mode::Plain), ([imaginary, real].concat(), false));
}

#[test]
fn a_dividend_survives_in_mode_2() {
    // 6 / 2 into Temp, both complex
    let quotient = |mode| {
        let mut sheet = Sheet::new(mode);
        sheet.load(0, Class::Mem, 0).load(1, Class::Mem, 1).bi(Bi::Divide, TEMP, 0, 1).save(TEMP, Class::Mem, 2);
        let found = lower(&sheet.bytes(), LISTING_LIMIT).unwrap();
        let mut store = Store::new();
        store.set_place(Class::Mem, 0, (6.0, 0.0));
        store.set_place(Class::Mem, 1, (2.0, 0.0));
        play(&found.listing, &found.constants, &mut store, 0).unwrap();
        store.place(Class::Mem, 2)
    };
    assert_eq!((quotient(Mode::Minding), quotient(Mode::Stable)), ((3.0, 0.0), (1.0, 0.0)));
}

#[test]
fn each_builder_gives_its_record() {
    // the bytes of each record, typed from the paper SHEET: length, kind, fields
    let mut sheet = Sheet::new(Mode::Plain);
    sheet.mov(1, RET).fused(Fused::NegMulSub, 1, 2, 3, 4).if_else(5, 6, 7, Class::Stack, 8);
    sheet.load_math(Arith::Minus, 9, 10, Class::Param, 255).load_const_math(Arith::Divide, 11, 12, 0x102);
    sheet.label(3).branch(4).branch_if(13, 5, true);
    let records: [&[u8]; 8] = [
        &[6, 0, 3, 0, 1, 30],
        &[9, 0, 7, 0, 3, 1, 2, 3, 4],
        &[10, 0, 8, 0, 5, 6, 7, 0, 8, 0],
        &[10, 0, 9, 0, 1, 9, 10, 2, 255, 0],
        &[9, 0, 10, 0, 3, 11, 12, 2, 1],
        &[5, 0, 14, 0, 3],
        &[5, 0, 15, 0, 4],
        &[7, 0, 17, 0, 13, 5, 1],
    ];
    assert_eq!(sheet.bytes()[69..], records.concat());
}

#[test]
fn builders_are_lowered_and_played() {
    // (6 - Param 1) * 2 + 6 at Mem 0, half of it at Mem 2
    let mut sheet = Sheet::new(Mode::Stable);
    let (six, two) = (sheet.constant(6.0), sheet.constant(2.0));
    sheet.real(Class::Param, 1).load_const(0, six).mov(1, 0).load_math(Arith::Minus, 1, 1, Class::Param, 1);
    sheet.load_const(2, two).fused(Fused::MulAdd, 3, 1, 2, 0).save(3, Class::Mem, 0);
    sheet.load_const_math(Arith::Divide, 3, 3, two).save(3, Class::Mem, 2);
    let found = lower(&sheet.bytes(), LISTING_LIMIT).unwrap();
    let mut store = Store::new();
    store.set_place(Class::Param, 1, (1.0, 0.0));
    play(&found.listing, &found.constants, &mut store, 0).unwrap();
    assert_eq!((store.place(Class::Mem, 0).0, store.place(Class::Mem, 2).0), (16.0, 8.0));
}

#[test]
fn a_store_goes_to_bytes_and_back() {
    let mut store = Store::new();
    store.set_word(1601, 0x0102_0304_0506_0708);
    let bytes = store.bytes().to_vec();
    assert_eq!((bytes.len(), &bytes[12_808..]), (12_816, &[8, 7, 6, 5, 4, 3, 2, 1][..]));
    assert_eq!(Store::from_bytes(&bytes), Some(store));
    assert_eq!(Store::from_bytes(&bytes[1..]), None);
}
