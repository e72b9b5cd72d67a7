/* The proved functions under those of tulipcricket.h, as Rattle compiles them. Each gives what tulipcricket.h says of the function without
 * `_unguarded`, where the caller sees to two things, as guard.c does:
 *
 * - The floating-point environment is the usual one, in which a process starts: rounding to nearest, subnormal numbers neither flushed to
 *   zero nor read as zero, no traps. On x86-64 that is MXCSR 1f80 but for its flags; the x87 unit is not used. Flags are left raised.
 * - No pointer is null, even where its slice is empty.
 */
#ifndef TULIPCRICKET_UNGUARDED_H
#define TULIPCRICKET_UNGUARDED_H

#include <stddef.h>
#include <stdint.h>

#ifdef __GNUC__
#define TULIPCRICKET_NONNULL __attribute__((nonnull))
#else
#define TULIPCRICKET_NONNULL
#endif

#ifdef __cplusplus
extern "C" {
#endif

TULIPCRICKET_NONNULL
uint32_t tulipcricket_lower_unguarded(const uint8_t *sheet, size_t sheet_len, uint8_t *listing, size_t listing_len,
                                      uint8_t *constants, size_t constants_len, uint8_t *origins, size_t origins_len,
                                      uint8_t *answer, size_t answer_len);

TULIPCRICKET_NONNULL
uint32_t tulipcricket_play_unguarded(const uint8_t *listing, size_t listing_len, const uint8_t *constants,
                                     size_t constants_len, uint8_t *store, size_t store_len, uint64_t start,
                                     uint8_t *answer, size_t answer_len);

TULIPCRICKET_NONNULL
uint32_t tulipcricket_peak_unguarded(const uint8_t *run, size_t run_len, uint64_t window, uint8_t *out, size_t out_len);

TULIPCRICKET_NONNULL
uint32_t tulipcricket_nearest_unguarded(uint64_t re, uint64_t im, const uint8_t *points, size_t points_len,
                                        uint8_t *answer, size_t answer_len);

TULIPCRICKET_NONNULL
uint32_t tulipcricket_shelf_unguarded(const uint8_t *sheet, size_t sheet_len, uint8_t *answer, size_t answer_len);

TULIPCRICKET_NONNULL
uint32_t tulipcricket_look_unguarded(const uint8_t *listing, size_t listing_len, const uint8_t *constants,
                                     size_t constants_len, const uint8_t *store, size_t store_len, uint64_t record,
                                     uint8_t *answer, size_t answer_len);

TULIPCRICKET_NONNULL
uint32_t tulipcricket_pages_unguarded(const uint8_t *listing, size_t listing_len, const uint8_t *constants,
                                      size_t constants_len, uint8_t *pages, size_t pages_len, uint8_t *answer,
                                      size_t answer_len);

#ifdef __cplusplus
}
#endif

#endif
