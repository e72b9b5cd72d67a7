/* What the harness and the mutator know of sheets, listings and inputs. */
#ifndef RECORDS_H
#define RECORDS_H

#include <stddef.h>
#include <stdint.h>

enum { HEADER = 32, HEADER_LENGTH = 69, CONSTANT = 33, CONSTANT_LENGTH = 12 };

/* An input, cut as README.md says. */
enum { LOWER_HEAD = 4, PLAY_HEAD = 17, WORD_SET = 10 };

static inline size_t two(const uint8_t *at) { return at[0] | (size_t)at[1] << 8; }

static inline uint64_t word_at(const uint8_t *at) {
    uint64_t word = 0;
    for (int i = 7; i >= 0; i--) word = word << 8 | at[i];
    return word;
}

static inline size_t least(size_t a, size_t b) { return a < b ? a : b; }

/* The length of the first record of `left` bytes; 0 where it is not readable. */
static inline size_t readable(const uint8_t *at, size_t left) {
    size_t length = left < 4 ? 0 : two(at);
    return length < 4 || length > left ? 0 : length;
}

#endif
