/* Plays each kind of record with two libraries in turns: nanoseconds for a record, the fastest of many plays. c/turns links it with the
 * libraries' functions renamed, and pads its code. For docs/SPEED.md. */
#include <stdint.h>
#include <stdio.h>
#include <string.h>
#include <time.h>

#include "tulipcricket.h"

enum { ROUNDS = 400, RECORDS = 4000, WORDS = TULIPCRICKET_STORE / 8 };

typedef uint32_t Play(const uint8_t *, size_t, const uint8_t *, size_t, uint8_t *, size_t, uint64_t, uint8_t *, size_t);
extern Play before_tulipcricket_play, after_tulipcricket_play;
static Play *const sides[] = {before_tulipcricket_play, after_tulipcricket_play};

/* The record's bytes, and the first that is an operand. */
typedef struct {
    const char *name;
    uint8_t record[11];
    size_t first;
} Kind;

static const Kind kinds[] = {
    {"Plus", {8, 0, 2, 0, 0, 20, 4, 5}, 6},
    {"Minus", {8, 0, 2, 0, 1, 20, 4, 5}, 6},
    {"Times", {8, 0, 2, 0, 2, 20, 4, 5}, 6},
    {"Divide", {8, 0, 2, 0, 3, 20, 4, 5}, 6},
    {"Half", {7, 0, 1, 0, 13, 20, 4}, 6},
    {"Recip", {7, 0, 1, 0, 5, 20, 4}, 6},
    {"Root", {7, 0, 1, 0, 3, 20, 4}, 6},
    {"Round", {7, 0, 1, 0, 6, 20, 4}, 6},
    {"Floor", {7, 0, 1, 0, 7, 20, 4}, 6},
    {"Ceiling", {7, 0, 1, 0, 8, 20, 4}, 6},
    {"Trunc", {7, 0, 1, 0, 9, 20, 4}, 6},
    {"MulAdd", {9, 0, 7, 0, 0, 20, 4, 5, 6}, 6},
    {"PlusComplex", {11, 0, 13, 0, 0, 20, 21, 4, 5, 6, 7}, 7},
    {"MinusComplex", {11, 0, 13, 0, 1, 20, 21, 4, 5, 6, 7}, 7},
    {"TimesComplex", {11, 0, 13, 0, 2, 20, 21, 4, 5, 6, 7}, 7},
    {"DivideComplex", {11, 0, 13, 0, 3, 20, 21, 4, 5, 6, 7}, 7},
    {"Equal", {8, 0, 2, 0, 8, 20, 4, 5}, 6},
    {"And", {8, 0, 2, 0, 10, 20, 4, 5}, 6},
    {"Neg", {7, 0, 1, 0, 0, 20, 4}, 6},
    {"Mov", {6, 0, 3, 0, 20, 4}, 5},
};

static double now(void) {
    struct timespec t;
    timespec_get(&t, TIME_UTC);
    return (double)t.tv_sec * 1e9 + (double)t.tv_nsec;
}

/* The records, each over other registers of 4 to 19. */
static void fill(uint8_t *listing, const Kind *kind) {
    size_t length = kind->record[0];
    for (size_t i = 0; i < RECORDS; i++) {
        memcpy(listing + i * length, kind->record, length);
        for (size_t at = kind->first; at < length; at++) {
            listing[i * length + at] = (uint8_t)(4 + (kind->record[at] - 4u + 3 * (7 * i % 32)) % 16);
        }
    }
}

/* Whether all records were played. */
static int time_of(Play *play, const uint8_t *listing, size_t length, double *least) {
    static double store[WORDS];
    uint64_t answer[3];
    uint8_t none[1] = {0};
    for (size_t i = 0; i < WORDS; i++) store[i] = 1 + (double)i / 977;
    double start = now();
    uint32_t number = play(listing, RECORDS * length, none, 0, (uint8_t *)store, sizeof store, 0, (uint8_t *)answer, sizeof answer);
    double taken = now() - start;
    if (taken < *least) *least = taken;
    return number == 0 && answer[2] == RECORDS;
}

int main(void) {
    static uint8_t listing[RECORDS * 11];
    for (size_t k = 0; k < sizeof kinds / sizeof *kinds; k++) {
        double least[] = {1e18, 1e18};
        fill(listing, &kinds[k]);
        for (int round = 0; round < ROUNDS; round++) {
            for (int side = 0; side < 2; side++) {
                if (!time_of(sides[side], listing, kinds[k].record[0], &least[side])) return 1;
            }
        }
        printf("%s %.3f %.3f\n", kinds[k].name, least[0] / RECORDS, least[1] / RECORDS);
    }
}
