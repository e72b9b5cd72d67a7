/* The functions of tulipcricket.h: each calls the proved function below it with what unguarded.h asks, and leaves the caller's floating-point
 * environment as it was, its flags too. No floating-point operation stands in this file.
 *
 * A further function has three lines here, its declarations in both headers, its name in tulipcricket.map and in the Python package's
 * library.py, its crate in c/library, and cases in environment.c. */
#include "tulipcricket.h"
#include "unguarded.h"

#if defined(__x86_64__) && !defined(TULIPCRICKET_FENV) /* the gate compiles the other half on x86-64 too */

#include <xmmintrin.h>

/* MXCSR: all that the library's instructions obey. It is written only where it must be, which takes longer than reading it. */
typedef unsigned int Environment;

enum { USUAL = 0x1f80, FLAGS = 0x3f }; /* to nearest, no flushing, every exception masked; flags have no say in a result */

static Environment enter(void) {
    Environment callers = _mm_getcsr();
    if ((callers & ~(Environment)FLAGS) != USUAL) _mm_setcsr(USUAL);
    return callers;
}

static void leave(Environment callers) {
    if (_mm_getcsr() != callers) _mm_setcsr(callers);
}

#else

#include <fenv.h>
#include <stdlib.h>

typedef fenv_t Environment;

static Environment enter(void) {
    Environment callers;
    if (fegetenv(&callers) != 0 || fesetenv(FE_DFL_ENV) != 0) abort();
    return callers;
}

static void leave(Environment callers) {
    if (fesetenv(&callers) != 0) abort();
}

#endif

/* Where a slice is empty, whatever pointer it came with; never written. */
static uint8_t nothing;

#define SLICE(name) (name##_len == 0 ? &nothing : name), name##_len

/* The body of a function: a call in the usual environment. */
#define GUARDED(call)                                                                                                   \
    Environment callers = enter();                                                                                      \
    uint32_t number = call;                                                                                             \
    leave(callers);                                                                                                     \
    return number

uint32_t tulipcricket_lower(const uint8_t *sheet, size_t sheet_len, uint8_t *listing, size_t listing_len,
                            uint8_t *constants, size_t constants_len, uint8_t *origins, size_t origins_len,
                            uint8_t *answer, size_t answer_len) {
    GUARDED(tulipcricket_lower_unguarded(SLICE(sheet), SLICE(listing), SLICE(constants), SLICE(origins), SLICE(answer)));
}

uint32_t tulipcricket_play(const uint8_t *listing, size_t listing_len, const uint8_t *constants, size_t constants_len,
                           uint8_t *store, size_t store_len, uint64_t start, uint8_t *answer, size_t answer_len) {
    GUARDED(tulipcricket_play_unguarded(SLICE(listing), SLICE(constants), SLICE(store), start, SLICE(answer)));
}

uint32_t tulipcricket_peak(const uint8_t *run, size_t run_len, uint64_t window, uint8_t *out, size_t out_len) {
    GUARDED(tulipcricket_peak_unguarded(SLICE(run), window, SLICE(out)));
}

uint32_t tulipcricket_nearest(uint64_t re, uint64_t im, const uint8_t *points, size_t points_len, uint8_t *answer,
                              size_t answer_len) {
    GUARDED(tulipcricket_nearest_unguarded(re, im, SLICE(points), SLICE(answer)));
}

uint32_t tulipcricket_shelf(const uint8_t *sheet, size_t sheet_len, uint8_t *answer, size_t answer_len) {
    GUARDED(tulipcricket_shelf_unguarded(SLICE(sheet), SLICE(answer)));
}

uint32_t tulipcricket_look(const uint8_t *listing, size_t listing_len, const uint8_t *constants, size_t constants_len,
                           const uint8_t *store, size_t store_len, uint64_t record, uint8_t *answer, size_t answer_len) {
    GUARDED(tulipcricket_look_unguarded(SLICE(listing), SLICE(constants), SLICE(store), record, SLICE(answer)));
}

uint32_t tulipcricket_pages(const uint8_t *listing, size_t listing_len, const uint8_t *constants, size_t constants_len,
                            uint8_t *pages, size_t pages_len, uint8_t *answer, size_t answer_len) {
    GUARDED(tulipcricket_pages_unguarded(SLICE(listing), SLICE(constants), SLICE(pages), SLICE(answer)));
}
