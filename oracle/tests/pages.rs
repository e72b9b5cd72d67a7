//! The printed page of listings, typed from document 02, i).

use oracle::format::*;
use oracle::make::*;
use oracle::names::{bi, uni};
use oracle::pages::{pages, text, Paged, LINE, PAGE};

const TWO: u64 = 0x4000_0000_0000_0000;

/// Document 01's listing on paper.
fn paper() -> Vec<u8> {
    let times = [bi(bi::TIMES, 5, 4, 7), bi(bi::TIMES, 4, 4, 6)].concat();
    [load_const(4, 0), load_complex(6, 7, MEM, 3), times, save_complex(4, 5, MEM, 4)].concat()
}

/// The answer, and so many lent bytes afterwards.
fn laid_out(listing: &[u8], constants: &[u64], room: usize) -> (Paged, Vec<u8>) {
    let mut out = vec![0xa5; room];
    (pages(listing, constants, &mut out), out)
}

#[test]
fn the_paper_on_one_page() {
    let (answer, out) = laid_out(&paper(), &[TWO], PAGE + 2);
    assert_eq!(answer, Paged { number: 0, index: 5, pages: 1 });
    let expected = [
        "    0 Constant         4000000000000000                                 ",
        "    0 LoadConst        G4 0                                             ",
        "    1 LoadComplex      G6 G7 Mem 3                                      ",
        "    2 Times            G5 G4 G7                                         ",
        "    3 Times            G4 G4 G6                                         ",
        "    4 SaveComplex      G4 G5 Mem 4                                      ",
    ];
    let page = String::from_utf8(out[..PAGE].to_vec()).unwrap();
    let lines: Vec<&str> = page.split_terminator('\n').collect();
    assert_eq!((lines.len(), &lines[..6]), (60, &expected[..]));
    let blank = "                                                                        ";
    assert_eq!(blank.len(), 72);
    assert!(lines[6..].iter().all(|line| *line == blank));
    assert_eq!(out[PAGE..], [0xa5; 2]); // "later bytes stay as lent"
}

#[test]
fn names_and_operands_of_every_kind() {
    let row = [
        bi(bi::GREATER_THAN_EQUAL, 64, 65, 63),
        uni(uni::RECIP, 0, 9),
        mov(10, 64),
        load(1, PARAM, 255),
        save(2, STACK, 0),
        fused(0, 65, 65, 65, 65),
        if_else(11, 12, 13, STACK, 100),
        complex_bi(3, [64, 65, 64, 65, 64, 65]),
        branch_if(65, 255, 1),
        branch(255),
        label(255),
        call(1),
        label(1),
        branch(0),
    ];
    let expected = [
        "    0 GreaterThanEqual Ret Temp G63                                     ",
        "    1 Recip            G0 G9                                            ",
        "    2 Mov              G10 Ret                                          ",
        "    3 Load             G1 Param 255                                     ",
        "    4 Save             G2 Stack 0                                       ",
        "    5 MulAdd           Temp Temp Temp Temp                              ",
        "    6 IfElse           G11 G12 G13 Stack 100                            ",
        "    7 DivideComplex    Ret Temp Ret Temp Ret Temp                       ",
        "    8 BranchIf         Temp 255 1                                       ",
        "    9 Branch           255                                              ",
        "   10 Label            255                                              ",
        "   11 Call             1                                                ",
        "   12 Label            1                                                ",
        "   13 Branch           0                                                ",
    ];
    assert_eq!(laid_out(&row.concat(), &[], PAGE).0, Paged { number: 0, index: 14, pages: 1 });
    let page = text(&row.concat(), &[]);
    assert_eq!(page.lines().take(14).collect::<Vec<_>>(), expected);
}

#[test]
fn all_constants_come_first_used_or_not() {
    let page = text(&mov(1, 2), &[0, u64::MAX, 0xfff0_0000_0000_0abc]);
    let expected = [
        "    0 Constant         0000000000000000                                 ",
        "    1 Constant         ffffffffffffffff                                 ",
        "    2 Constant         fff0000000000abc                                 ",
        "    0 Mov              G1 G2                                            ",
    ];
    assert_eq!(page.lines().take(4).collect::<Vec<_>>(), expected);
}

#[test]
fn sixty_lines_are_a_page() {
    let lines = |records: usize, constants: usize| laid_out(&mov(1, 2).repeat(records), &vec![0; constants], 3 * PAGE);
    let count = |records, constants| lines(records, constants).0.pages;
    assert_eq!([count(0, 0), count(0, 1), count(1, 0), count(59, 1), count(60, 0), count(60, 1)], [0, 1, 1, 1, 1, 2]);
    assert_eq!([count(120, 0), count(0, 120), count(61, 60)], [2, 2, 3]);
    let (_, out) = lines(60, 1);
    assert_eq!(out[PAGE..PAGE + LINE], *b"   59 Mov              G1 G2                                            \n");
    assert!(out[2 * PAGE..].iter().all(|byte| *byte == 0xa5));
}

#[test]
fn no_line_is_no_page_and_needs_no_room() {
    assert_eq!(laid_out(&[], &[], 0).0, Paged { number: 0, index: 0, pages: 0 });
    assert_eq!(laid_out(&[], &[], 7), (Paged { number: 0, index: 0, pages: 0 }, vec![0xa5; 7]));
}

#[test]
fn the_longest_listing_has_223_pages() {
    let listing = branch(0).repeat(13_107);
    let (answer, out) = laid_out(&listing, &[TWO; TABLE], 976_740);
    assert_eq!(answer, Paged { number: 0, index: 13_107, pages: 223 });
    assert_eq!(out[73 * 255..73 * 256], *b"  255 Constant         4000000000000000                                 \n");
    assert_eq!(
        out[73 * 13_362..73 * 13_363],
        *b"13106 Branch           0                                                \n"
    );
    assert_eq!(laid_out(&listing, &[TWO; TABLE], 976_739).0, Paged { number: FULL, index: 0, pages: 0 });
}

#[test]
fn refusals_write_nothing_and_7_is_tested_last() {
    let refused = |number, index| Paged { number, index, pages: 0 };
    let tried = |listing: &[u8], constants: &[u64], room: usize| {
        let (answer, out) = laid_out(listing, constants, room);
        assert!(out.iter().all(|byte| *byte == 0xa5));
        answer
    };
    for room in [0, PAGE] {
        assert_eq!(tried(&mov(1, 2), &[0; TABLE + 1], room), refused(SETUP, 0));
        assert_eq!(tried(&mov(1, 2).repeat(10_923), &[], room), refused(SETUP, 0));
        assert_eq!(tried(&[mov(1, 2), vec![9]].concat(), &[], room), refused(TORN, 1));
        assert_eq!(tried(&nop(), &[], room), refused(UNKNOWN, 0));
        assert_eq!(tried(&[mov(1, 2), mov(66, 0)].concat(), &[], room), refused(REGISTER, 1));
        assert_eq!(tried(&save(0, PARAM, 0), &[], room), refused(PLACE, 0));
        assert_eq!(tried(&paper(), &[], room), refused(MISSING, 0));
        assert_eq!(tried(&[mov(1, 2), branch(1)].concat(), &[], room), refused(STRAY, 1));
    }
    for room in [0, 1, LINE, PAGE - 1] {
        assert_eq!(tried(&paper(), &[TWO], room), refused(FULL, 0));
    }
}
