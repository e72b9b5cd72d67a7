/* Lowers document 01's sheet on paper (Mem 4 = 2 * Mem 3), looks at record 1, LoadComplex G6 G7 Mem 3, and plays the listing on Mem 3 = 3 + 4i.
 * Prints "the listing draws on 0 registers", "record 1 writes G6 = 3, G7 = 4; next 2" and "Mem 4 = 6 + 8i after 5 records". */
#include <stdio.h>
#include <string.h>

#include "tulipcricket.h"

/* Plain mode, no real places; constant 2.0; LoadConst 0, 0; Load 1, Mem 3; Times 0, 0, 1; Save 0, Mem 4. */
static const uint8_t sheet[] = {
    69, 0, 32, 0, 0, [69] = 12, 0, 33, 0, 0, 0, 0, 0, 0, 0, 0, 0x40,
    7, 0, 6, 0, 0, 0, 0, 8, 0, 4, 0, 1, 1, 3, 0, 8, 0, 2, 0, 2, 0, 0, 1, 8, 0, 5, 0, 0, 1, 4, 0};
static uint8_t listing[TULIPCRICKET_LISTING_LIMIT], constants[TULIPCRICKET_CONSTANTS], origins[TULIPCRICKET_ORIGINS];
static uint64_t store[TULIPCRICKET_STORE / 8];

static size_t mem(size_t i) { return 66 + 512 + 2 * i; }

int main(void) {
    uint8_t answer[TULIPCRICKET_LOWER_ANSWER];
    uint64_t lowered[4], looked[TULIPCRICKET_LOOK_ANSWER / 8], played[TULIPCRICKET_PLAY_ANSWER / 8];
    double in[2] = {3, 4}, out[2];
    int drawn = 0;
    if (tulipcricket_lower(sheet, sizeof sheet, listing, sizeof listing, constants, sizeof constants, origins, sizeof origins, answer,
                           sizeof answer) != 0)
        return 1;
    memcpy(lowered, answer, sizeof lowered); /* x86-64 has the lowest byte first too */
    for (size_t i = 0; i < 66; i++) drawn += answer[194 + i];
    printf("the listing draws on %d registers\n", drawn);
    memcpy(store + mem(3), in, sizeof in);
    if (tulipcricket_look(listing, lowered[2], constants, 8 * lowered[3], (const uint8_t *)store, sizeof store, 1, (uint8_t *)looked,
                          sizeof looked) != 0)
        return 1;
    memcpy(out, looked + 5, 8);
    memcpy(out + 1, looked + 7, 8);
    printf("record 1 writes G%d = %g, G%d = %g; next %d\n", (int)looked[4], out[0], (int)looked[6], out[1], (int)looked[2]);
    if (tulipcricket_play(listing, lowered[2], constants, 8 * lowered[3], (uint8_t *)store, sizeof store, 0, (uint8_t *)played,
                          sizeof played) != 0)
        return 1;
    memcpy(out, store + mem(4), sizeof out);
    printf("Mem 4 = %g + %gi after %d records\n", out[0], out[1], (int)played[2]);
    return 0;
}
