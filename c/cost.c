/* Times calls with the guard and without it, in nanoseconds: the fastest of many rounds, which take turns. For docs/SPEED.md, on x86-64. */
#include <stdio.h>
#include <time.h>
#include <xmmintrin.h>

#include "tulipcricket.h"
#include "unguarded.h"

enum { ROUNDS = 8000, CALLS = 100 };

static uint8_t store[TULIPCRICKET_STORE], listing[64], constants[TULIPCRICKET_CONSTANTS], origins[TULIPCRICKET_ORIGINS], lowered[TULIPCRICKET_LOWER_ANSWER],
    played[TULIPCRICKET_PLAY_ANSWER];
static const uint8_t sheet[] = {69, 0, 32, 0, 0, [69] = 8, 0, 2, 0, 2, 0, 1, 2}; /* Times 0, 1, 2 */
static const uint8_t product[] = {8, 0, 2, 0, 2, 4, 6, 8};                       /* Times G4 G6 G8 */

#define CALL_LOWER(function, length)                                                                                     \
    function(sheet, length, listing, sizeof listing, constants, sizeof constants, origins, sizeof origins, lowered, sizeof lowered)
#define CALL_PLAY(function, length) function(product, sizeof product, constants, 0, store, length, 0, played, sizeof played)

static void refused_lower(void) { CALL_LOWER(tulipcricket_lower, 68); }
static void refused_lower_unguarded(void) { CALL_LOWER(tulipcricket_lower_unguarded, 68); }
static void one_lower(void) { CALL_LOWER(tulipcricket_lower, sizeof sheet); }
static void one_lower_unguarded(void) { CALL_LOWER(tulipcricket_lower_unguarded, sizeof sheet); }
static void refused_play(void) { CALL_PLAY(tulipcricket_play, 8); }
static void refused_play_unguarded(void) { CALL_PLAY(tulipcricket_play_unguarded, 8); }
static void one_play(void) { CALL_PLAY(tulipcricket_play, sizeof store); }
static void one_play_unguarded(void) { CALL_PLAY(tulipcricket_play_unguarded, sizeof store); }

/* Nanoseconds for a call, over one round. */
static double round_of(void (*call)(void)) {
    struct timespec start, end;
    timespec_get(&start, TIME_UTC);
    for (int i = 0; i < CALLS; i++) call();
    timespec_get(&end, TIME_UTC);
    return ((double)(end.tv_sec - start.tv_sec) * 1e9 + (double)(end.tv_nsec - start.tv_nsec)) / CALLS;
}

static void row(const char *caller, const char *what, void (*guarded)(void), void (*unguarded)(void)) {
    double with = 1e9, without = 1e9;
    for (int i = 0; i < ROUNDS; i++) {
        double a = round_of(guarded), b = round_of(unguarded);
        if (a < with) with = a;
        if (b < without) without = b;
    }
    printf("| %s | %s | %.1f | %.1f | %.1f |\n", caller, what, without, with, with - without);
}

static void rows(const char *caller, unsigned int csr) {
    _mm_setcsr(csr);
    row(caller, "lower, refused by 8", refused_lower, refused_lower_unguarded);
    row(caller, "lower, one Times", one_lower, one_lower_unguarded);
    row(caller, "play, refused by 8", refused_play, refused_play_unguarded);
    row(caller, "play, one Times", one_play, one_play_unguarded);
}

int main(void) {
    printf("| Caller's environment | Call | Unguarded | Guarded | Guard |\n|---|---|---|---|---|\n");
    rows("usual", 0x1f80);
    rows("flushing to zero", 0x9fc0);
    return 0;
}
