/* Tulipcricket's entries as C functions: link target/staticlib/libtulipcricket.a, or libtulipcricket.so beside it, which c/library makes.
 *
 * Every slice is a pointer and a count of bytes; an empty one may have any pointer, NULL too. A slice that is written may not overlap
 * another. The functions keep no pointer, hold nothing between calls, take no memory but the stack's, and call only memcpy and memset.
 * Words are eight bytes, the lowest first; so are the numbers of an answer.
 *
 * Every answer has the same bits in whatever floating-point environment its caller runs (rounding, flushing to zero, traps, flags), and the
 * environment is afterwards as it was. guard.c sees to that and to NULL; what the proved functions below it ask, unguarded.h says.
 *
 * Lowering and playing return the number of documents 01 and 02, which is also the first number of the answer:
 *   0 accepted          1 torn record     2 unknown work      3 bad register    4 bad place
 *   5 missing constant  6 barred operand  7 listing full      8 wrong setup     9 stray jump
 *  10 misplaced label  11 unequal records (labels and branches)  14 sheet too long
 * Lowering never gives 9; playing never gives 6, 7, 10, 11 or 14. Of document 02 the running peak returns 0, 8 or
 * 12, the nearest point 0, 8 or 13, the shelf figures what lowering returns, looking at a record what playing returns,
 * pages that or 7.
 *
 * Lowering lists what the Rust lists, faults too. In plain mode a LoadMath Divide of a real register by a complex place gives a wrong
 * quotient: 6 / (1 + i) plays as 6 - 3i. Load the place into a general register and Divide by that. docs/DIFFERENCES.md has more.
 */
#ifndef TULIPCRICKET_H
#define TULIPCRICKET_H

#include <stddef.h>
#include <stdint.h>

#ifdef __cplusplus
extern "C" {
#endif

#define TULIPCRICKET_VERSION "0.1.0" /* of this header; of the library: tulipcricket_version() */

enum {
    TULIPCRICKET_INSTRUCTIONS_LIMIT = 612,  /* instructions of a sheet, which then has at most 9,201 bytes */
    TULIPCRICKET_LISTING_LIMIT = 65536,  /* bytes of a listing */
    TULIPCRICKET_CONSTANTS = 2048,       /* bytes of the constants: 256 words */
    TULIPCRICKET_ORIGINS = 512,          /* bytes of the constants' origins: 256 numbers of two */
    TULIPCRICKET_STORE = 12816,          /* bytes of a store: 1,602 words */
    TULIPCRICKET_LOWER_ANSWER = 260,
    TULIPCRICKET_PLAY_ANSWER = 24,
    TULIPCRICKET_POINTS_LIMIT = 8192,    /* bytes of the reference points: 512 of two words */
    TULIPCRICKET_NEAREST_ANSWER = 24,
    TULIPCRICKET_SHELF_ANSWER = 40,
    TULIPCRICKET_LOOK_ANSWER = 64,
    TULIPCRICKET_PAGE = 4380,            /* bytes of a page: 60 lines of 72 characters and a line feed */
    TULIPCRICKET_PAGES_LIMIT = 976740,   /* bytes of the pages of the longest listing with 256 constants: 223 pages */
    TULIPCRICKET_PAGES_ANSWER = 24
};

/* The library's version, such as "0.1.0". */
const char *tulipcricket_version(void);

/* The word of a number that a function returned, such as "torn record" for 1; "unknown number" for one that none returns. */
const char *tulipcricket_word(uint32_t number);

/* Lowers a sheet to a listing and its constants, with the origin of each constant.
 *
 * sheet      header (69 bytes), constants (12 bytes each, at most 251), instructions, at most 612: any byte behind these is 14 at index
 *            612, whatever it is. Labels are looked for past them, so that a sheet takes time in proportion to its bytes.
 * listing    the room for the listing, up to 65,536 bytes.
 * constants  2,048 bytes.
 * origins    512 bytes, two for each constant, the lower first: the index of the instruction that first appended it, or 65,535 of one from the
 *            sheet, also where an instruction asks for it.
 * answer     260 bytes:
 *              0  number
 *              8  index: of the refused instruction; accepted, the count of instructions
 *             16  bytes of the listing written
 *             24  count of constants
 *             32  32 bytes, 1 where the sheet's register of that number (30 Ret, 31 Temp) is recorded as real, else 0
 *             64  64 bytes of the places recorded as real, as in a header: bit i mod 8 of byte i div 8 for Stack i, then Param
 *            128  66 bytes, 1 where the listing's register of that number (64 Ret, 65 Temp) is filled at the end, else 0
 *            194  66 bytes, 1 where it is drawn on before being filled, else 0
 *
 * The last 66 are marks. Over the order of play from record 0, a record draws on the registers whose words it reads, and fills those that it
 * writes; a Xor of a register with itself draws on nothing. At a label from 3 up a register is filled only if it is on every way in, and the
 * record after a Branch to such a label counts as reached from it. Where no mark is set, two plays from record 0 on stores that agree in all
 * places end with equal places, however their registers began: only the places of the store before need be kept. Where marks are set, the
 * stores must agree in the marked registers too. A mark does not say that two plays differ: no play may go that way, or what it draws on may
 * not matter.
 *
 * Refused by 1 to 7, 10, 11 or 14: the listing, the constants and the origins of the instructions before the refused one are written, and the
 * answer is theirs, marks too. Such a listing is played only if it has the label of each of its branches.
 * Bytes of the listing past those written, and constants and origins past those counted, are always as lent.
 * Refused by 8: listing, constants and origins are as lent, and the answer is 8 and zeros; but where the answer is not 260 bytes, it is as lent
 * too. */
uint32_t tulipcricket_lower(const uint8_t *sheet, size_t sheet_len, uint8_t *listing, size_t listing_len,
                            uint8_t *constants, size_t constants_len, uint8_t *origins, size_t origins_len,
                            uint8_t *answer, size_t answer_len);

/* Plays a listing on a store, from the record `start` on.
 *
 * listing    up to 65,536 bytes.
 * constants  up to 256 words.
 * store      12,816 bytes: registers 0 to 63, Ret, Temp, a word each; then 256 places each of Stack, Mem and Param, two words each,
 *            real and imaginary. Real word of place i of class c (0, 1, 2): word 66 + 512 * c + 2 * i.
 * answer     24 bytes:
 *              0  number
 *              8  index: of the refused record; accepted, the count of records
 *             16  records played
 *
 * Refused: the store is as lent and 0 records are played. By 8 the index is 0; but where the answer is not 24 bytes, it is as lent
 * too. */
uint32_t tulipcricket_play(const uint8_t *listing, size_t listing_len, const uint8_t *constants, size_t constants_len,
                           uint8_t *store, size_t store_len, uint64_t start, uint8_t *answer, size_t answer_len);

/* For each position of a run, the largest word in the window that ends there; early windows are shorter.
 *
 * run        up to 4,096 words.
 * window     how many words a window has, 1 to 64.
 * out        as many words as the run at least; those past the run are as lent.
 *
 * Zeros of both signs are equal, and of equal words the earliest in the window is given. A NaN is passed over; a window of NaNs alone gives
 * 7ff8000000000000. The time for a position does not grow with the window.
 *
 * Returns 0; 12 for a window out of its range, too long a run or too short an output; 8 where run or output is no whole number of words. By 8
 * and 12 nothing is written. */
uint32_t tulipcricket_peak(const uint8_t *run, size_t run_len, uint64_t window, uint8_t *out, size_t out_len);

/* Finds the reference point nearest to an answer.
 *
 * re, im     the answer's real and imaginary word.
 * points     up to 512 points, two words each, real and imaginary.
 * answer     24 bytes:
 *              0  number
 *              8  1 where there is a nearest point, else 0
 *             16  its index; 0 where there is none
 *
 * A distance is the difference of the real words squared plus that of the imaginary words squared, each of the five operations rounded once.
 * Of equal distances the latest is nearest; a point whose distance is a NaN is passed over.
 * Refused by 13: an odd count of words, or more than 1,024. By 8: the points are no whole number of words. The answer is then the number and
 * zeros. Where the answer is not 24 bytes it is as lent, and the number 8. */
uint32_t tulipcricket_nearest(uint64_t re, uint64_t im, const uint8_t *points, size_t points_len, uint8_t *answer,
                              size_t answer_len);

/* How much shelf a sheet will take: what lowering with 65,536 bytes and playing from record 0 report, with no listing written. For a sheet
 * with a Branch or a BranchIf the records are the most that a play can run.
 *
 * sheet      as for lowering.
 * answer     40 bytes:
 *              0  number
 *              8  index: of the refused instruction; accepted, the count of instructions
 *             16  bytes of the listing
 *             24  count of constants
 *             32  records that a play from record 0 runs, on any store; with a Branch or a BranchIf all records plus calls times the
 *                 block's, which no play exceeds
 *
 * Refused: number and index are those of lowering with 65,536 bytes, and the figures 0. Where the answer is not 40 bytes it is as lent, and
 * the number 8. */
uint32_t tulipcricket_shelf(const uint8_t *sheet, size_t sheet_len, uint8_t *answer, size_t answer_len);

/* Looks at one record before it is played: which words it would write, and which record would follow.
 *
 * listing, constants, store  as for playing; the store is only read.
 * record     the record to look at; the count of records is the end, where nothing is written.
 * answer     64 bytes:
 *              0  number
 *              8  index: of the refused record; accepted, the count of records
 *             16  the record that follows; the count of records is the end
 *             24  how many words the record writes: 0, 1 or 2
 *             32  store index of the word written first; 0 where there is none
 *             40  the bits that it then holds; 0 where there is none
 *             48  store index of the other word, likewise
 *             56  its bits
 *
 * These words put into the store give what playing this one record outside a call gives. A word is told even where its bits stay; one that is
 * written twice is told once, with the later bits. Label, Branch, BranchIf and Call write none; after a Call follows Label 1, and after a
 * Branch 0, one in the block too, the end.
 * Refused: number and index are those of playing from this record, all else is 0. By 8 also where constants or store are no whole number of
 * words. Where the answer is not 64 bytes it is as lent, and the number 8. */
uint32_t tulipcricket_look(const uint8_t *listing, size_t listing_len, const uint8_t *constants, size_t constants_len,
                           const uint8_t *store, size_t store_len, uint64_t record, uint8_t *answer, size_t answer_len);

/* Lays a listing out on pages of text: a line for each constant, then one for each record.
 *
 * listing, constants  as for playing.
 * pages      the room for the pages, 4,380 bytes each; bytes past them are as lent.
 * answer     24 bytes:
 *              0  number
 *              8  index: of the refused record; accepted, the count of records
 *             16  pages written
 *
 * A page has 60 lines of 72 characters (ASCII) and a line feed: the index right-aligned in 5, a space, the operation's name, or Constant,
 * left-aligned in 16, a space, the operands as the program `listing` prints them, or the constant's 16 hexadecimal digits, left-aligned in 49.
 * Blank lines fill the last page. An empty listing without constants has no page.
 * Refused: number and index are those of playing from record 0, on a store of the right length; by 7 with index 0 where there is too little
 * room, which is tested last; by 8 also where the constants are no whole number of words. Then no page is written and 0 is their count. Where
 * the answer is not 24 bytes all is as lent, and the number 8. */
uint32_t tulipcricket_pages(const uint8_t *listing, size_t listing_len, const uint8_t *constants, size_t constants_len,
                            uint8_t *pages, size_t pages_len, uint8_t *answer, size_t answer_len);

#ifdef __cplusplus
}
#endif

#endif
