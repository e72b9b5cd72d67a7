/* libFuzzer's mutator: half of the time its own, else one that removes, copies, inserts and changes whole records. */
#include <string.h>

#include "records.h"

size_t LLVMFuzzerMutate(uint8_t *data, size_t size, size_t max_size);

enum { MOST = 4096 };

/* Lengths of records by kind, as documents 01 and 02 have them. */
static const uint8_t LENGTHS[18] = {4, 7, 8, 6, 8, 8, 7, 9, 10, 10, 9, 9, 9, 11, 5, 5, 5, 7};

/* The kinds of a sheet behind 10. */
static const uint8_t BEHIND[] = {14, 15, 17};

/* Bytes at which a field's meaning changes. */
static const uint8_t TELLING[] = {0,  1,  2,  3,  4,  5,  6,  7,  8,  9,  10, 11, 12, 13, 14,
                                  15, 16, 17, 19, 20, 29, 30, 31, 32, 33, 63, 64, 65, 66, 255};

/* SplitMix64. */
static uint64_t state;

static size_t below(size_t limit) {
    uint64_t z = state += 0x9e3779b97f4a7c15;
    z = (z ^ z >> 30) * 0xbf58476d1ce4e5b9;
    z = (z ^ z >> 27) * 0x94d049bb133111eb;
    return (size_t)((z ^ z >> 31) % limit);
}

/* An input whose records stand from `from` to `to`. */
typedef struct {
    uint8_t *data;
    size_t size, max_size, from, to;
    int play;
    size_t count, at[MOST + 1];
} Input;

static void find_records(Input *in) {
    in->count = 0;
    in->at[0] = in->from;
    for (size_t at = in->from, next; in->count < MOST && (next = readable(in->data + at, in->to - at)) > 0;) {
        at += next;
        in->at[++in->count] = at;
    }
}

/* Whether the input has records or can have some. */
static int cut(Input *in) {
    in->play = in->size > 0 && in->data[0] % 2 == 1;
    if (in->play) {
        if (in->size < PLAY_HEAD) return 0;
        size_t left = in->size - PLAY_HEAD, words = least(two(in->data + 4) % 258, left / 8);
        in->from = PLAY_HEAD + 8 * words;
        in->to = in->from + least(two(in->data + 6), left - 8 * words);
    } else {
        if (in->size < LOWER_HEAD + HEADER_LENGTH) return 0;
        in->from = LOWER_HEAD + HEADER_LENGTH;
        in->to = in->size;
    }
    find_records(in);
    return 1;
}

/* Puts `more` bytes in the place of the `gone` bytes at `at`, as far as there is room. */
static void splice(Input *in, size_t at, size_t gone, const uint8_t *bytes, size_t more) {
    if (in->size - gone + more > in->max_size || in->to - in->from - gone + more > 0xffff) return;
    memmove(in->data + at + more, in->data + at + gone, in->size - at - gone);
    memcpy(in->data + at, bytes, more);
    in->size = in->size - gone + more;
    in->to = in->to - gone + more;
    if (in->play) {
        in->data[6] = (uint8_t)(in->to - in->from);
        in->data[7] = (uint8_t)((in->to - in->from) >> 8);
    }
}

static uint8_t any_byte(void) {
    switch (below(4)) {
    case 0: return TELLING[below(sizeof TELLING)];
    case 1: return (uint8_t)below(256);
    default: return (uint8_t)below(6);
    }
}

/* A record of a kind that the function takes, with any fields. */
static void insert_fresh(Input *in) {
    size_t kind = in->play ? 1 + below(17) : below(11 + sizeof BEHIND);
    if (!in->play && kind > 10) kind = BEHIND[kind - 11];
    uint8_t record[16] = {LENGTHS[kind], 0, (uint8_t)kind, 0};
    for (size_t i = 4; i < LENGTHS[kind]; i++) record[i] = any_byte();
    if (below(2) && (kind == 4 || kind == 5)) record[7] = 0;
    if (below(2) && (kind == 8 || kind == 9)) record[9] = 0;
    if (below(2) && (kind == 11 || kind == 12)) record[8] = 0;
    if (below(2) && kind == 17) record[6] = (uint8_t)below(2);
    splice(in, in->at[below(in->count + 1)], 0, record, LENGTHS[kind]);
}

static void insert_copy(Input *in) {
    uint8_t row[256];
    size_t which = below(in->count), until = which + 1 + below(8);
    if (until > in->count) until = in->count;
    size_t length = in->at[until] - in->at[which];
    if (length > sizeof row) return;
    memcpy(row, in->data + in->at[which], length);
    splice(in, in->at[below(in->count + 1)], 0, row, length);
}

static void change_field(Input *in) {
    size_t which = below(in->count), length = in->at[which + 1] - in->at[which];
    size_t at = below(8) ? 4 : 0;
    if (length > at) in->data[in->at[which] + at + below(length - at)] = any_byte();
}

static void change_head(Input *in) {
    if (below(2)) in->data[1] = (uint8_t)below(256);
    else if (below(4)) in->data[2 + below(2)] = (uint8_t)below(256);
    else in->data[2] = (uint8_t)(254 + below(2)), in->data[3] = 255;
}

static void mutate_records(Input *in) {
    size_t choice = in->count == 0 ? 0 : below(8);
    switch (choice) {
    case 0: case 1: case 2: insert_fresh(in); break;
    case 3: insert_copy(in); break;
    case 4: {
        size_t which = below(in->count);
        splice(in, in->at[which], in->at[which + 1] - in->at[which], in->data, 0);
        break;
    }
    case 5: case 6: change_field(in); break;
    default: change_head(in);
    }
}

size_t LLVMFuzzerCustomMutator(uint8_t *data, size_t size, size_t max_size, unsigned int seed) {
    static Input in;
    state = seed;
    in.data = data, in.size = size, in.max_size = max_size;
    if (below(2) || !cut(&in)) return LLVMFuzzerMutate(data, size, max_size);
    for (size_t turns = 1 + below(3); turns > 0; turns--) {
        mutate_records(&in);
        find_records(&in);
    }
    return in.size;
}
