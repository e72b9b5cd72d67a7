/* Calls every function in floating-point environments of all kinds. Every answer is the one typed here, from documents 01 and 02 and IEEE 754, every
 * byte lent is as it is to be, and the environment afterwards is as it was. Prints what is not so, and then ends with 1. For x86-64.
 *
 * Usage: environment started   in the environment that the process started in
 *        environment NAME      in one of those named below
 *        environment every     in each of the 65,536 values of MXCSR
 *        environment empty     with empty slices at NULL
 *
 * Compiled with -DUNGUARDED it calls the proved functions themselves. */
#include <inttypes.h>
#include <stdio.h>
#include <string.h>
#include <xmmintrin.h>

#include "tulipcricket.h"
#include "unguarded.h"

#ifdef UNGUARDED
#define tulipcricket_lower tulipcricket_lower_unguarded
#define tulipcricket_play tulipcricket_play_unguarded
#define tulipcricket_nearest tulipcricket_nearest_unguarded
#define tulipcricket_peak tulipcricket_peak_unguarded
#define tulipcricket_shelf tulipcricket_shelf_unguarded
#define tulipcricket_look tulipcricket_look_unguarded
#define tulipcricket_pages tulipcricket_pages_unguarded
#endif

enum { USUAL = 0x1f80, X87_USUAL = 0x037f, LENT = 0xa5 };

/* MXCSR, and the control word of the x87 unit, which has no say in an answer but is to be kept. */
typedef struct {
    const char *name;
    unsigned int csr;
    uint16_t x87;
} Environment;

static const Environment named[] = {
    {"usual", USUAL, X87_USUAL},
    {"down", 0x3f80, 0x077f},         /* rounding toward minus infinity */
    {"up", 0x5f80, 0x0b7f},           /* toward plus infinity */
    {"zero", 0x7f80, 0x0c7f},         /* toward zero; the x87 unit in single precision */
    {"ftz", 0x9f80, X87_USUAL},       /* subnormal results are flushed to zero */
    {"daz", 0x1fc0, X87_USUAL},       /* subnormal operands are taken for zero */
    {"ftz-daz", 0x9fc0, X87_USUAL},
    {"traps", 0x0000, 0x0340},        /* every exception traps */
    {"flags", 0x1fbf, X87_USUAL},     /* every flag is raised */
};

static void set_x87(uint16_t word) { __asm__ volatile("fldcw %0" : : "m"(word)); }

static uint16_t x87(void) {
    uint16_t word;
    __asm__ volatile("fnstcw %0" : "=m"(word));
    return word;
}

static void enter(const Environment *e) {
    set_x87(e->x87);
    _mm_setcsr(e->csr);
}

/* Back to the usual environment; the one found. */
static Environment leave(void) {
    Environment found = {"", _mm_getcsr(), x87()};
    _mm_setcsr(USUAL);
    set_x87(X87_USUAL);
    return found;
}

static unsigned int differences;

static void holds(const Environment *e, const char *what, int fact) {
    if (fact) return;
    differences++;
    printf("%s: %s\n", e->name, what);
}

static void kept(const Environment *e, const char *function, Environment found) {
    if (found.csr == e->csr && found.x87 == e->x87) return;
    differences++;
    printf("%s: %s turns MXCSR %04x into %04x, x87 %04x into %04x\n", e->name, function, e->csr, found.csr,
           (unsigned int)e->x87, (unsigned int)found.x87);
}

/* Playing: one record over registers 0 to 3 into register 4, or 4 and 5, which are zero before. */
typedef struct {
    const char *what;
    uint8_t record[11];
    uint64_t given[4], expected[2];
} Case;

#define NAN_WORD 0x7ff8000000000000
#define ONES 0xffffffffffffffff

static const Case cases[] = {
    {"Half of 0000000000000003", {7, 0, 1, 0, 13, 4, 0}, {3}, {2}},
    {"Half of 0010000000000000", {7, 0, 1, 0, 13, 4, 0}, {0x0010000000000000}, {0x0008000000000000}},
    {"Recip of 7fe0000000000000", {7, 0, 1, 0, 5, 4, 0}, {0x7fe0000000000000}, {0x0008000000000000}},
    {"Times of 3ff0000000000001 and 3ff8000000000001", {8, 0, 2, 0, 2, 4, 0, 1},
     {0x3ff0000000000001, 0x3ff8000000000001}, {0x3ff8000000000003}},
    {"Times of 0000000000000001 and 4340000000000000", {8, 0, 2, 0, 2, 4, 0, 1},
     {0x0000000000000001, 0x4340000000000000}, {0x0020000000000000}},
    {"Plus of 3ff0000000000000 and 3c30000000000000", {8, 0, 2, 0, 0, 4, 0, 1},
     {0x3ff0000000000000, 0x3c30000000000000}, {0x3ff0000000000000}},
    {"Plus of 7fefffffffffffff and 7fefffffffffffff", {8, 0, 2, 0, 0, 4, 0, 1},
     {0x7fefffffffffffff, 0x7fefffffffffffff}, {0x7ff0000000000000}},
    {"Plus of fff0000000000001 and 3ff0000000000000", {8, 0, 2, 0, 0, 4, 0, 1},
     {0xfff0000000000001, 0x3ff0000000000000}, {0xfff8000000000001}},
    {"Minus of 3ff0000000000000 and 3ff0000000000000", {8, 0, 2, 0, 1, 4, 0, 1},
     {0x3ff0000000000000, 0x3ff0000000000000}, {0}},
    {"Divide of 3ff0000000000000 by 4008000000000000", {8, 0, 2, 0, 3, 4, 0, 1},
     {0x3ff0000000000000, 0x4008000000000000}, {0x3fd5555555555555}},
    {"Divide of 0000000000000000 by 0000000000000000", {8, 0, 2, 0, 3, 4, 0, 1}, {0, 0}, {NAN_WORD}},
    {"LittleThan of 0000000000000000 and 0000000000000001", {8, 0, 2, 0, 6, 4, 0, 1}, {0, 1}, {ONES}},
    {"GreaterThan of 0000000000000001 and 0000000000000000", {8, 0, 2, 0, 4, 4, 0, 1}, {1, 0}, {ONES}},
    {"GreaterThanEqual of 0000000000000000 and 0000000000000001", {8, 0, 2, 0, 5, 4, 0, 1}, {0, 1}, {0}},
    {"LittleThanEqual of 0000000000000001 and 0000000000000000", {8, 0, 2, 0, 7, 4, 0, 1}, {1, 0}, {0}},
    {"Equal of 0000000000000000 and 0000000000000001", {8, 0, 2, 0, 8, 4, 0, 1}, {0, 1}, {0}},
    {"IsZero of 0000000000000001", {7, 0, 1, 0, 14, 4, 0}, {1}, {0}},
    {"NotEqual of 7ff0000000000001 and 7ff0000000000001", {8, 0, 2, 0, 9, 4, 0, 1},
     {0x7ff0000000000001, 0x7ff0000000000001}, {ONES}},
    {"Root of 4000000000000000", {7, 0, 1, 0, 3, 4, 0}, {0x4000000000000000}, {0x3ff6a09e667f3bcd}},
    {"Root of 0000000000000001", {7, 0, 1, 0, 3, 4, 0}, {1}, {0x1e60000000000000}},
    {"Root of 8000000000000000", {7, 0, 1, 0, 3, 4, 0}, {0x8000000000000000}, {0x8000000000000000}},
    {"Root of bff0000000000000", {7, 0, 1, 0, 3, 4, 0}, {0xbff0000000000000}, {NAN_WORD}},
    {"Round of 4004000000000000", {7, 0, 1, 0, 6, 4, 0}, {0x4004000000000000}, {0x4000000000000000}},
    {"Round of bfe0000000000000", {7, 0, 1, 0, 6, 4, 0}, {0xbfe0000000000000}, {0x8000000000000000}},
    {"Floor of 8000000000000001", {7, 0, 1, 0, 7, 4, 0}, {0x8000000000000001}, {0xbff0000000000000}},
    {"Ceiling of 0000000000000001", {7, 0, 1, 0, 8, 4, 0}, {1}, {0x3ff0000000000000}},
    {"Trunc of bffc000000000000", {7, 0, 1, 0, 9, 4, 0}, {0xbffc000000000000}, {0xbff0000000000000}},
    {"MulAdd of 3ff0000000000001 twice and bff0000000000002", {9, 0, 7, 0, 0, 4, 0, 1, 2},
     {0x3ff0000000000001, 0x3ff0000000000001, 0xbff0000000000002}, {0x3970000000000000}},
    {"MulAdd of 7ff0000000000000, 0000000000000000 and 7ff0000000000003", {9, 0, 7, 0, 0, 4, 0, 1, 2},
     {0x7ff0000000000000, 0, 0x7ff0000000000003}, {0x7ff8000000000003}},
    {"TimesComplex of 3ff0000000000001 and 3ff8000000000001", {11, 0, 13, 0, 2, 4, 5, 0, 1, 2, 3},
     {0x3ff0000000000001, 0, 0x3ff8000000000001, 0}, {0x3ff8000000000003, 0}},
    {"DivideComplex of 3ff0000000000000 by 4008000000000000", {11, 0, 13, 0, 3, 4, 5, 0, 1, 2, 3},
     {0x3ff0000000000000, 0, 0x4008000000000000, 0}, {0x3fd5555555555555, 0}},
};

static void words(const Environment *e, const char *what, const uint64_t *found, const uint64_t *expected, size_t count) {
    for (size_t i = 0; i < count; i++) {
        if (found[i] == expected[i]) continue;
        differences++;
        printf("%s: %s: word %zu is %016" PRIx64 ", not %016" PRIx64 "\n", e->name, what, i, found[i], expected[i]);
    }
}

static void play(const Environment *e, const Case *c) {
    static uint64_t store[TULIPCRICKET_STORE / 8], after[TULIPCRICKET_STORE / 8];
    uint64_t answer[3], expected[3] = {0, 1, 1};
    uint8_t constants[1] = {0};
    memset(store, LENT, sizeof store);
    memcpy(store, c->given, sizeof c->given);
    memset(store + 4, 0, sizeof c->expected);
    memcpy(after, store, sizeof store);
    memcpy(after + 4, c->expected, sizeof c->expected);
    memset(answer, LENT, sizeof answer);
    enter(e);
    uint32_t number = tulipcricket_play(c->record, c->record[0], constants, 0, (uint8_t *)store, sizeof store, 0,
                                        (uint8_t *)answer, sizeof answer);
    kept(e, "tulipcricket_play", leave());
    holds(e, "a play's answer", number == 0 && memcmp(answer, expected, sizeof answer) == 0);
    words(e, c->what, store, after, TULIPCRICKET_STORE / 8);
}

/* Looking at the record of a case: the words that playing it writes, and the store as it was. */
static void look(const Environment *e, const Case *c) {
    static uint64_t store[TULIPCRICKET_STORE / 8], after[TULIPCRICKET_STORE / 8];
    uint64_t answer[8], expected[8] = {0, 1, 1, 1, 4, c->expected[0]};
    uint8_t constants[1] = {0};
    char what[100];
    snprintf(what, sizeof what, "looking at %s", c->what);
    if (c->record[2] == 13) {
        expected[3] = 2;
        expected[6] = 5;
        expected[7] = c->expected[1];
    }
    memset(store, LENT, sizeof store);
    memcpy(store, c->given, sizeof c->given);
    memcpy(after, store, sizeof store);
    memset(answer, LENT, sizeof answer);
    enter(e);
    uint32_t number = tulipcricket_look(c->record, c->record[0], constants, 0, (const uint8_t *)store, sizeof store, 0,
                                        (uint8_t *)answer, sizeof answer);
    kept(e, "tulipcricket_look", leave());
    holds(e, "a look's number", number == 0);
    holds(e, "a look at a store", memcmp(store, after, sizeof store) == 0);
    words(e, what, answer, expected, 8);
}

/* Lowering: document 01's sheet on paper, its listing, constants and answer. */
static const uint8_t sheet[] = {
    69, 0, 32, 0, 0, [69] = 12, 0, 33, 0, 0, 0, 0, 0, 0, 0, 0, 0x40,
    7, 0, 6, 0, 0, 0, 0, 8, 0, 4, 0, 1, 1, 3, 0, 8, 0, 2, 0, 2, 0, 0, 1, 8, 0, 5, 0, 0, 1, 4, 0};
static const uint8_t listed[] = {7, 0, 6, 0, 4, 0, 0, 9, 0, 11, 0, 6, 7, 1, 3, 0, 8, 0, 2, 0, 2, 5, 4, 7, 8, 0, 2, 0, 2, 4, 4, 6,
                                 9, 0, 12, 0, 4, 5, 1, 4, 0};

static void lower(const Environment *e) {
    uint8_t listing[64], listing_after[sizeof listing];
    uint64_t constants[TULIPCRICKET_CONSTANTS / 8], constants_after[TULIPCRICKET_CONSTANTS / 8];
    uint8_t origins[TULIPCRICKET_ORIGINS], origins_after[TULIPCRICKET_ORIGINS], answer[TULIPCRICKET_LOWER_ANSWER];
    static const uint8_t expected[TULIPCRICKET_LOWER_ANSWER] = {
        [8] = 4, [16] = sizeof listed, [24] = 1, [128 + 4] = 1, 1, 1, 1}; /* filled: G4 to G7; drawn on: nothing */
    memset(listing, LENT, sizeof listing);
    memset(constants, LENT, sizeof constants);
    memset(origins, LENT, sizeof origins);
    memset(answer, LENT, sizeof answer);
    memcpy(listing_after, listing, sizeof listing);
    memcpy(listing_after, listed, sizeof listed);
    memcpy(constants_after, constants, sizeof constants);
    constants_after[0] = 0x4000000000000000;
    memcpy(origins_after, origins, sizeof origins);
    memset(origins_after, 0xff, 2); /* the sheet's own */
    enter(e);
    uint32_t number = tulipcricket_lower(sheet, sizeof sheet, listing, sizeof listing, (uint8_t *)constants, sizeof constants,
                                         origins, sizeof origins, answer, sizeof answer);
    kept(e, "tulipcricket_lower", leave());
    holds(e, "the sheet's answer", number == 0 && memcmp(answer, expected, sizeof answer) == 0);
    holds(e, "the sheet's listing", memcmp(listing, listing_after, sizeof listing) == 0);
    holds(e, "the sheet's constants", memcmp(constants, constants_after, sizeof constants) == 0);
    holds(e, "the constants' origins", memcmp(origins, origins_after, sizeof origins) == 0);
}

/* The nearest of two points to an answer: each would be another one in some other environment. */
typedef struct {
    const char *what;
    uint64_t answer[2], points[4], expected;
} Nearest;

static const Nearest rows[] = {
    {"distances 2 ^ -1074 and 2 ^ -1072", {0, 0}, {0x1e60000000000000, 0, 0x1e70000000000000, 0}, 0},
    {"distances 1 and 1 + 2 ^ -60, rounded to 1", {0, 0}, {0x3ff0000000000000, 0, 0x3ff0000000000000, 0x3e10000000000000}, 1},
    {"a distance that rounds to 1 + 2 ^ -52, and 1 + 2 ^ -52", {0, 0},
     {0x3ff0000000000000, 0x3e4c000000000000, 0x3ff0000000000000, 0x3e50000000000000}, 1},
    {"a distance that is a NaN, and infinity", {0x7ff0000000000000, 0}, {0x7ff0000000000000, 0, 0, 0}, 1},
};

static void nearest(const Environment *e, const Nearest *row) {
    uint64_t answer[3], expected[3] = {0, 1, row->expected};
    memset(answer, LENT, sizeof answer);
    enter(e);
    uint32_t number = tulipcricket_nearest(row->answer[0], row->answer[1], (const uint8_t *)row->points, sizeof row->points,
                                           (uint8_t *)answer, sizeof answer);
    kept(e, "tulipcricket_nearest", leave());
    holds(e, row->what, number == 0 && memcmp(answer, expected, sizeof answer) == 0);
}

/* The running peak of -0, 0, the smallest number and two NaNs, in windows of two. */
static void peak(const Environment *e) {
    static const uint64_t run[] = {0x8000000000000000, 0, 1, 0x7ff0000000000001, 0x7ff0000000000001};
    uint64_t out[6], after[6] = {0x8000000000000000, 0x8000000000000000, 1, 1, NAN_WORD};
    memset(out, LENT, sizeof out);
    memset(after + 5, LENT, 8);
    enter(e);
    uint32_t number = tulipcricket_peak((const uint8_t *)run, sizeof run, 2, (uint8_t *)out, sizeof out);
    kept(e, "tulipcricket_peak", leave());
    holds(e, "a peak's number", number == 0);
    words(e, "Peak", out, after, 6);
}

/* The shelf figures of document 01's sheet: 41 bytes, 1 constant, 5 records. */
static void shelf(const Environment *e) {
    static const uint64_t expected[] = {0, 4, 41, 1, 5};
    uint64_t answer[5];
    memset(answer, LENT, sizeof answer);
    enter(e);
    uint32_t number = tulipcricket_shelf(sheet, sizeof sheet, (uint8_t *)answer, sizeof answer);
    kept(e, "tulipcricket_shelf", leave());
    holds(e, "the sheet's figures", number == 0 && memcmp(answer, expected, sizeof answer) == 0);
}

/* The page of document 01's listing. */
static void pages(const Environment *e) {
    static const char *const lines[] = {
        "    0 Constant         4000000000000000", "    0 LoadConst        G4 0",     "    1 LoadComplex      G6 G7 Mem 3",
        "    2 Times            G5 G4 G7",         "    3 Times            G4 G4 G6", "    4 SaveComplex      G4 G5 Mem 4"};
    static const uint64_t expected[] = {0, 5, 1}, constant = 0x4000000000000000;
    uint8_t page[TULIPCRICKET_PAGE + 8], after[TULIPCRICKET_PAGE + 8];
    uint64_t answer[3];
    memset(page, LENT, sizeof page);
    memset(answer, LENT, sizeof answer);
    memset(after, ' ', TULIPCRICKET_PAGE);
    memset(after + TULIPCRICKET_PAGE, LENT, 8);
    for (size_t i = 0; i < 60; i++) after[73 * i + 72] = '\n';
    for (size_t i = 0; i < sizeof lines / sizeof *lines; i++) memcpy(after + 73 * i, lines[i], strlen(lines[i]));
    enter(e);
    uint32_t number = tulipcricket_pages(listed, sizeof listed, (const uint8_t *)&constant, 8, page, sizeof page,
                                         (uint8_t *)answer, sizeof answer);
    kept(e, "tulipcricket_pages", leave());
    holds(e, "the pages' answer", number == 0 && memcmp(answer, expected, sizeof answer) == 0);
    holds(e, "the listing's page", memcmp(page, after, sizeof page) == 0);
}

static void in(const Environment *e) {
    for (size_t i = 0; i < sizeof rows / sizeof *rows; i++) nearest(e, rows + i);
    for (size_t i = 0; i < sizeof cases / sizeof *cases; i++) play(e, cases + i);
    for (size_t i = 0; i < sizeof cases / sizeof *cases; i += 5) look(e, cases + i); /* the first a Half, the last a ComplexBi */
    lower(e);
    peak(e);
    shelf(e);
    pages(e);
}

static void every(void) {
    char name[] = "MXCSR 0000";
    for (unsigned int csr = 0; csr <= 0xffff && differences < 20; csr++) {
        Environment e = {name, csr, X87_USUAL};
        snprintf(name, sizeof name, "MXCSR %04x", csr);
        in(&e);
    }
}

/* Empty slices at NULL. */
static void empty(void) {
    static const Environment e = {"empty", USUAL, X87_USUAL};
    static uint8_t store[TULIPCRICKET_STORE], constants[TULIPCRICKET_CONSTANTS], origins[TULIPCRICKET_ORIGINS], zeros[TULIPCRICKET_STORE];
    uint8_t *volatile nowhere = NULL;
    uint8_t *none = nowhere;
    static const uint8_t wrong[TULIPCRICKET_LOWER_ANSWER] = {8};
    uint8_t answer[TULIPCRICKET_LOWER_ANSWER], end[TULIPCRICKET_PLAY_ANSWER];
    memset(answer, LENT, sizeof answer);
    memset(end, LENT, sizeof end);
    holds(&e, "lower of nothing at all", tulipcricket_lower(none, 0, none, 0, none, 0, none, 0, none, 0) == 8);
    holds(&e, "play of nothing at all", tulipcricket_play(none, 0, none, 0, none, 0, 0, none, 0) == 8);
    holds(&e, "lower of no sheet",
          tulipcricket_lower(none, 0, none, 0, constants, sizeof constants, origins, sizeof origins, answer, sizeof answer) == 8 &&
              memcmp(answer, wrong, sizeof answer) == 0);
    holds(&e, "lower of a header into no room",
          tulipcricket_lower(sheet, 69, none, 0, constants, sizeof constants, origins, sizeof origins, answer, sizeof answer) == 0 &&
              memcmp(answer, zeros, sizeof answer) == 0);
    holds(&e, "lower with no constants",
          tulipcricket_lower(sheet, 69, none, 0, none, 0, origins, sizeof origins, answer, sizeof answer) == 8 &&
              memcmp(answer, wrong, sizeof answer) == 0);
    holds(&e, "lower with no origins",
          tulipcricket_lower(sheet, 69, none, 0, constants, sizeof constants, none, 0, answer, sizeof answer) == 8 &&
              memcmp(answer, wrong, sizeof answer) == 0);
    holds(&e, "play on no store",
          tulipcricket_play(none, 0, none, 0, none, 0, 0, end, sizeof end) == 8 && memcmp(end, wrong, sizeof end) == 0);
    holds(&e, "play of no records",
          tulipcricket_play(none, 0, none, 0, store, sizeof store, 0, end, sizeof end) == 0 &&
              memcmp(end, zeros, sizeof end) == 0);
    holds(&e, "nearest of nothing at all", tulipcricket_nearest(0, 0, none, 0, none, 0) == 8);
    holds(&e, "nearest of no points",
          tulipcricket_nearest(0, 0, none, 0, end, sizeof end) == 0 && memcmp(end, zeros, sizeof end) == 0);
    holds(&e, "peak of no run", tulipcricket_peak(none, 0, 1, none, 0) == 0 && tulipcricket_peak(none, 0, 0, none, 0) == 12);
    holds(&e, "shelf of nothing at all", tulipcricket_shelf(none, 0, none, 0) == 8);
    holds(&e, "look at nothing at all", tulipcricket_look(none, 0, none, 0, none, 0, 0, none, 0) == 8);
    holds(&e, "look at the end of no records",
          tulipcricket_look(none, 0, none, 0, store, sizeof store, 0, answer, TULIPCRICKET_LOOK_ANSWER) == 0 &&
              memcmp(answer, zeros, TULIPCRICKET_LOOK_ANSWER) == 0);
    holds(&e, "pages of nothing at all", tulipcricket_pages(none, 0, none, 0, none, 0, none, 0) == 8);
    holds(&e, "no page of no records",
          tulipcricket_pages(none, 0, none, 0, none, 0, end, sizeof end) == 0 && memcmp(end, zeros, sizeof end) == 0);
    holds(&e, "shelf of no sheet",
          tulipcricket_shelf(none, 0, answer, TULIPCRICKET_SHELF_ANSWER) == 8 && memcmp(answer, wrong, TULIPCRICKET_SHELF_ANSWER) == 0);
    holds(&e, "nothing else is written",
          memcmp(store, zeros, sizeof store) == 0 && memcmp(constants, zeros, sizeof constants) == 0 &&
              memcmp(origins, zeros, sizeof origins) == 0);
}

int main(int count, char **arguments) {
    const Environment started = {"started", _mm_getcsr(), x87()};
    const char *name = count == 2 ? arguments[1] : "";
    const Environment *found = NULL;
    for (size_t i = 0; i < sizeof named / sizeof *named; i++)
        if (strcmp(name, named[i].name) == 0) found = named + i;
    if (strcmp(name, "started") == 0) {
        found = &started;
        printf("started: in MXCSR %04x\n", started.csr);
    }
    if (strcmp(name, "every") == 0) {
        every();
    } else if (strcmp(name, "empty") == 0) {
        empty();
    } else if (found != NULL) {
        in(found);
    } else {
        fprintf(stderr, "environment: started, every, empty or the name of an environment\n");
        return 2;
    }
    return differences != 0;
}
