/* libFuzzer's entry: cuts an input, calls the C functions on lent slices, and aborts on a breach of what c/tulipcricket.h says. */
#include <stdio.h>
#include <stdlib.h>
#include <string.h>

#include "../c/tulipcricket.h"
#include "records.h"

#if defined(__has_feature)
#if __has_feature(address_sanitizer)
#include <sanitizer/asan_interface.h>
#endif
#endif
#ifndef ASAN_POISON_MEMORY_REGION
#define ASAN_POISON_MEMORY_REGION(at, length) ((void)(at), (void)(length))
#define ASAN_UNPOISON_MEMORY_REGION(at, length) ((void)(at), (void)(length))
#endif

#define HOLDS(fact) ((fact) ? (void)0 : breach(#fact, __LINE__))

static void breach(const char *fact, int line) {
    fprintf(stderr, "breach at line %d: %s\n", line, fact);
    abort();
}

enum { GUARD = 64, ROOM = 65544, WORDS = TULIPCRICKET_STORE / 8, REGISTERS = 66, XOR = 13 };

/* Where a lowering's answer has its marks. */
enum { FILLED = 128, DRAWN = FILLED + REGISTERS };

/* A lent slice of `length` bytes after GUARD bytes; the bytes around it are not to be touched. */
typedef struct {
    _Alignas(16) uint8_t bytes[GUARD + ROOM + GUARD];
    uint8_t *at;
    size_t length;
} Lent;

static int filled(const uint8_t *at, size_t length, uint8_t byte) {
    return length == 0 || (at[0] == byte && memcmp(at, at + 1, length - 1) == 0);
}

static void lend(Lent *lent, size_t length, uint8_t fill) {
    lent->at = lent->bytes + GUARD;
    lent->length = least(length, ROOM);
    memset(lent->bytes, (uint8_t)~fill, GUARD);
    memset(lent->at, fill, lent->length);
    memset(lent->at + lent->length, (uint8_t)~fill, GUARD);
    ASAN_POISON_MEMORY_REGION(lent->bytes, GUARD);
    ASAN_POISON_MEMORY_REGION(lent->at + lent->length, ROOM - lent->length + GUARD);
}

static void lend_copy(Lent *lent, const uint8_t *from, size_t length, uint8_t fill) {
    lend(lent, length, fill);
    if (length > 0) memcpy(lent->at, from, lent->length);
}

/* Takes a slice back: the bytes around it are as they were. */
static void take_back(Lent *lent, uint8_t fill) {
    ASAN_UNPOISON_MEMORY_REGION(lent->bytes, sizeof lent->bytes);
    HOLDS(filled(lent->bytes, GUARD, (uint8_t)~fill));
    HOLDS(filled(lent->at + lent->length, GUARD, (uint8_t)~fill));
}

static int same(const Lent *lent, const uint8_t *bytes) {
    return lent->length == 0 || memcmp(lent->at, bytes, lent->length) == 0;
}

/* Lowering */

typedef struct {
    Lent sheet, listing, constants, origins, answer;
    uint32_t number;
} Lowering;

static void lower(Lowering *l, const uint8_t *sheet, const size_t lengths[5], uint8_t fill) {
    lend_copy(&l->sheet, sheet, lengths[0], fill);
    lend(&l->listing, lengths[1], fill);
    lend(&l->constants, lengths[2], fill);
    lend(&l->origins, lengths[3], fill);
    lend(&l->answer, lengths[4], fill);
    l->number = tulipcricket_lower(l->sheet.at, l->sheet.length, l->listing.at, l->listing.length, l->constants.at,
                                   l->constants.length, l->origins.at, l->origins.length, l->answer.at, l->answer.length);
    take_back(&l->sheet, fill);
    take_back(&l->listing, fill);
    take_back(&l->constants, fill);
    take_back(&l->origins, fill);
    take_back(&l->answer, fill);
    HOLDS((l->number <= 11 && l->number != 9) || l->number == 14);
    HOLDS(same(&l->sheet, sheet));
}

/* The sheet's own constants, or -1 where its header or its constants are refused by 8. */
static int own_constants(const uint8_t *sheet, size_t length) {
    if (length < HEADER_LENGTH) return -1;
    if (two(sheet) != HEADER_LENGTH || two(sheet + 2) != HEADER || sheet[4] > 2) return -1;
    size_t at = HEADER_LENGTH;
    int count = 0;
    for (; length - at >= 4 && two(sheet + at + 2) == CONSTANT; at += CONSTANT_LENGTH, count++)
        if (count == 251 || two(sheet + at) != CONSTANT_LENGTH || length - at < CONSTANT_LENGTH) return -1;
    return count;
}

/* The readable records from `at` on. */
static size_t records_from(const uint8_t *bytes, size_t length, size_t at) {
    size_t count = 0;
    for (size_t next; (next = readable(bytes + at, length - at)) > 0; at += next) count++;
    return count;
}

static void refused_setup(const Lowering *l, uint8_t fill) {
    HOLDS(l->number == 8);
    HOLDS(filled(l->listing.at, l->listing.length, fill));
    HOLDS(filled(l->constants.at, l->constants.length, fill));
    HOLDS(filled(l->origins.at, l->origins.length, fill));
    if (l->answer.length != TULIPCRICKET_LOWER_ANSWER) {
        HOLDS(filled(l->answer.at, l->answer.length, fill));
    } else {
        HOLDS(word_at(l->answer.at) == 8);
        HOLDS(filled(l->answer.at + 8, l->answer.length - 8, 0));
    }
}

static size_t place(const uint8_t *at) { return 66 + 512 * (size_t)at[0] + 2 * two(at + 1); }

/* Marks the words that an accepted record may write. */
static void mark(uint8_t marks[WORDS], const uint8_t *record) {
    const uint8_t *fields = record + 4;
    switch (two(record + 2)) {
    case 1: case 2: case 7: marks[fields[1]] = 1; break;
    case 3: case 4: case 6: case 8: marks[fields[0]] = 1; break;
    case 5: marks[place(fields + 1)] = 1; break;
    case 11: marks[fields[0]] = marks[fields[1]] = 1; break;
    case 12: marks[place(fields + 2)] = marks[place(fields + 2) + 1] = 1; break;
    case 13: marks[fields[1]] = marks[fields[2]] = 1; break;
    }
}

/* Marks the registers that a record reads. */
static void mark_read(uint8_t marks[REGISTERS], const uint8_t *record) {
    const uint8_t *fields = record + 4;
    size_t from = 0, count = 0;
    switch (two(record + 2)) {
    case 1: from = 2, count = 1; break;
    case 2: from = 2, count = fields[0] == XOR && fields[2] == fields[3] ? 0 : 2; break;
    case 3: from = 1, count = 1; break;
    case 5: case 17: count = 1; break;
    case 7: from = 2, count = 3; break;
    case 8: from = 1, count = 2; break;
    case 12: count = 2; break;
    case 13: from = 3, count = 4; break;
    }
    for (size_t i = 0; i < count; i++) marks[fields[from + i]] = 1;
}

/* A register filled is one that a record writes; one drawn on is one that a record reads. */
static void are_marks(const Lowering *l) {
    uint8_t written[WORDS] = {0}, drawn[REGISTERS] = {0};
    const uint8_t *listing = l->listing.at, *answer = l->answer.at;
    for (size_t at = 0, next; (next = readable(listing + at, word_at(answer + 16) - at)) > 0; at += next) {
        mark(written, listing + at);
        mark_read(drawn, listing + at);
    }
    for (size_t i = 0; i < REGISTERS; i++) HOLDS(answer[FILLED + i] <= written[i] && answer[DRAWN + i] <= drawn[i]);
}

/* The sheet's constants have no instruction; the others go up, below the answer's index; past the count they are as lent. */
static void are_origins(const Lowering *l, uint64_t own, uint8_t fill) {
    uint64_t count = word_at(l->answer.at + 24), last = 0;
    for (uint64_t i = 0; i < count; i++) {
        uint64_t origin = two(l->origins.at + 2 * i);
        HOLDS(i < own ? origin == 0xffff : origin >= last && origin < word_at(l->answer.at + 8));
        if (i >= own) last = origin;
    }
    HOLDS(filled(l->origins.at + 2 * count, l->origins.length - 2 * count, fill));
}

/* What holds of every answer whose setup was not refused. */
static void answered(const Lowering *l, int own, uint8_t fill) {
    const uint8_t *answer = l->answer.at, *sheet = l->sheet.at;
    uint64_t written = word_at(answer + 16), count = word_at(answer + 24);
    size_t start = HEADER_LENGTH + (size_t)own * CONSTANT_LENGTH;
    size_t readable_ones = records_from(sheet, l->sheet.length, start);
    HOLDS(l->number != 8 && word_at(answer) == l->number);
    HOLDS(l->number == 0 ? word_at(answer + 8) == readable_ones : word_at(answer + 8) <= readable_ones);
    HOLDS(word_at(answer + 8) <= TULIPCRICKET_INSTRUCTIONS_LIMIT);
    HOLDS(l->number == 14 ? word_at(answer + 8) == TULIPCRICKET_INSTRUCTIONS_LIMIT
                          : l->number == 0 || word_at(answer + 8) < TULIPCRICKET_INSTRUCTIONS_LIMIT);
    HOLDS(written <= l->listing.length && count >= (uint64_t)own && count <= (uint64_t)own + 5);
    HOLDS(sheet[4] != 0 || count == (uint64_t)own);
    HOLDS(filled(l->listing.at + written, l->listing.length - written, fill));
    HOLDS(filled(l->constants.at + 8 * count, l->constants.length - 8 * count, fill));
    for (int i = 0; i < own; i++)
        HOLDS(memcmp(l->constants.at + 8 * i, sheet + HEADER_LENGTH + i * CONSTANT_LENGTH + 4, 8) == 0);
    for (int i = 32; i < 64; i++) HOLDS(answer[i] <= 1);
    are_marks(l);
    are_origins(l, (uint64_t)own, fill);
    for (int i = 0; i < 32; i++) HOLDS((answer[64 + i] & ~sheet[5 + i]) == 0);
    HOLDS(memcmp(answer + 96, sheet + 37, 32) == 0);
}

/* In all the room: no refusal by 7 before the one given, the same bytes and constants as far as both were written. */
static void agrees(const Lowering *l, const Lowering *whole) {
    const uint8_t *answer = l->answer.at, *other = whole->answer.at;
    HOLDS(l->number == 7 || memcmp(answer, other, TULIPCRICKET_LOWER_ANSWER) == 0);
    HOLDS(word_at(answer + 8) <= word_at(other + 8));
    HOLDS(word_at(answer + 16) <= word_at(other + 16) && word_at(answer + 24) <= word_at(other + 24));
    HOLDS(memcmp(l->listing.at, whole->listing.at, word_at(answer + 16)) == 0);
    HOLDS(memcmp(l->constants.at, whole->constants.at, 8 * word_at(answer + 24)) == 0);
    HOLDS(memcmp(l->origins.at, whole->origins.at, 2 * word_at(answer + 24)) == 0);
    for (size_t i = 0; i < REGISTERS; i++) HOLDS(answer[DRAWN + i] <= other[DRAWN + i]);
}

/* Playing */

typedef struct {
    Lent listing, constants, store, answer;
    uint32_t number;
} Play;

static void play(Play *p, const uint8_t *slices[3], const size_t lengths[4], uint64_t start, uint8_t fill) {
    lend_copy(&p->listing, slices[0], lengths[0], fill);
    lend_copy(&p->constants, slices[1], lengths[1], fill);
    lend_copy(&p->store, slices[2], lengths[2], fill);
    lend(&p->answer, lengths[3], fill);
    p->number = tulipcricket_play(p->listing.at, p->listing.length, p->constants.at, p->constants.length, p->store.at,
                                  p->store.length, start, p->answer.at, p->answer.length);
    take_back(&p->listing, fill);
    take_back(&p->constants, fill);
    take_back(&p->store, fill);
    take_back(&p->answer, fill);
    HOLDS(p->number <= 9 && p->number != 6 && p->number != 7);
    HOLDS(same(&p->listing, slices[0]) && same(&p->constants, slices[1]));
}

static void refused_play(const Play *p, const uint8_t *store, uint8_t fill, int setup) {
    HOLDS(p->number != 0 && (p->number == 8) == setup);
    HOLDS(same(&p->store, store));
    if (p->answer.length != TULIPCRICKET_PLAY_ANSWER) {
        HOLDS(filled(p->answer.at, p->answer.length, fill));
        return;
    }
    HOLDS(word_at(p->answer.at) == p->number && word_at(p->answer.at + 16) == 0);
    HOLDS(!setup || word_at(p->answer.at + 8) == 0);
}

/* Records, calls, and records of the block from Label 1 to its Branch 0. */
typedef struct {
    uint64_t records, calls, block;
} Shape;

static Shape shape_of(const uint8_t *listing, size_t length) {
    Shape shape = {0, 0, 0};
    int inside = 0, ended = 0;
    for (size_t at = 0, next; (next = readable(listing + at, length - at)) > 0; at += next) {
        size_t kind = two(listing + at + 2);
        shape.records++;
        shape.calls += kind == 16;
        inside |= kind == 14 && listing[at + 4] == 1 && !ended;
        shape.block += (uint64_t)inside;
        if (inside && kind == 15 && listing[at + 4] == 0) inside = 0, ended = 1;
    }
    return shape;
}

/* Words that no record writes are as lent. */
static void others_kept(const Play *p, const uint8_t *store) {
    uint8_t marks[WORDS] = {0};
    const Lent *l = &p->listing;
    for (size_t at = 0, next; (next = readable(l->at + at, l->length - at)) > 0; at += next) mark(marks, l->at + at);
    for (size_t i = 0; i < WORDS; i++) HOLDS(marks[i] || word_at(p->store.at + 8 * i) == word_at(store + 8 * i));
}

static void accepted_play(const Play *p, const uint8_t *store, uint64_t start) {
    Shape shape = shape_of(p->listing.at, p->listing.length);
    uint64_t played = word_at(p->answer.at + 16);
    HOLDS(word_at(p->answer.at) == 0 && word_at(p->answer.at + 8) == shape.records);
    HOLDS(start <= shape.records && played <= shape.records + shape.calls * shape.block);
    HOLDS(start < shape.records ? played >= 1 : played == 0);
    others_kept(p, store);
}

/* Plays twice, around other bytes: the same answer and store, and what holds of every play. */
static uint32_t check_play(const uint8_t *slices[3], const size_t lengths[4], uint64_t start) {
    static Play first, second;
    play(&first, slices, lengths, start, 0xa5);
    play(&second, slices, lengths, start, 0x5a);
    int setup = lengths[0] > TULIPCRICKET_LISTING_LIMIT || lengths[1] > TULIPCRICKET_CONSTANTS || lengths[1] % 8 != 0 ||
                lengths[2] != TULIPCRICKET_STORE || lengths[3] != TULIPCRICKET_PLAY_ANSWER;
    if (first.number == 0) {
        HOLDS(!setup);
        accepted_play(&first, slices[2], start);
    } else {
        refused_play(&first, slices[2], 0xa5, setup);
        refused_play(&second, slices[2], 0x5a, setup);
    }
    HOLDS(first.number == second.number && same(&first.store, second.store.at));
    HOLDS(first.number == 8 || same(&first.answer, second.answer.at));
    return first.number;
}

/* Looking */

static void look(Play *p, const uint8_t *slices[3], const size_t lengths[4], uint64_t record, uint8_t fill) {
    lend_copy(&p->listing, slices[0], lengths[0], fill);
    lend_copy(&p->constants, slices[1], lengths[1], fill);
    lend_copy(&p->store, slices[2], lengths[2], fill);
    lend(&p->answer, lengths[3], fill);
    p->number = tulipcricket_look(p->listing.at, p->listing.length, p->constants.at, p->constants.length, p->store.at,
                                  p->store.length, record, p->answer.at, p->answer.length);
    take_back(&p->listing, fill);
    take_back(&p->constants, fill);
    take_back(&p->store, fill);
    take_back(&p->answer, fill);
    HOLDS(same(&p->listing, slices[0]) && same(&p->constants, slices[1]) && same(&p->store, slices[2]));
}

/* Where a record of an accepted listing stands; its end where there is none of that index. */
static const uint8_t *record_at(const Lent *listing, uint64_t index) {
    size_t at = 0;
    for (; index > 0 && at < listing->length; index--) at += two(listing->at + at);
    return listing->at + at;
}

/* After a jump that goes follows its Label, or with label 0 the end; after any other record the next one. */
static void is_followed(const Play *p, uint64_t index) {
    const uint8_t *record = record_at(&p->listing, index);
    size_t kind = two(record + 2), label = record[kind == 17 ? 5 : 4];
    uint64_t records = word_at(p->answer.at + 8), next = word_at(p->answer.at + 16);
    int goes = kind == 15 || kind == 16 || (kind == 17 && (word_at(p->store.at + 8 * record[4]) != 0) != record[6]);
    const uint8_t *there = record_at(&p->listing, next);
    HOLDS(goes || next == index + 1);
    HOLDS(!goes || label != 0 || next == records);
    HOLDS(!goes || label == 0 || (next < records && two(there + 2) == 14 && there[4] == label));
}

/* The words told, put into the store, give what playing the record alone gives. They are as many as the record writes. */
static void is_written(const Play *p, uint64_t index) {
    static Play alone;
    uint8_t marks[WORDS] = {0};
    const uint8_t *answer = p->answer.at, *record = record_at(&p->listing, index);
    const uint8_t *slices[3] = {record, p->constants.at, p->store.at};
    int jumps = two(record + 2) >= 14;
    size_t lengths[4] = {jumps ? 0 : two(record), p->constants.length, TULIPCRICKET_STORE, TULIPCRICKET_PLAY_ANSWER}, marked = 0;
    play(&alone, slices, lengths, 0, 0xa5);
    HOLDS(alone.number == 0);
    mark(marks, record);
    for (size_t i = 0; i < WORDS; i++) marked += marks[i];
    HOLDS(word_at(answer + 24) == marked && (marked < 2 || word_at(answer + 32) != word_at(answer + 48)));
    for (size_t i = 0; i < 2; i++) {
        uint64_t at = word_at(answer + 32 + 16 * i), bits = word_at(answer + 40 + 16 * i);
        HOLDS(i < marked ? at < WORDS && marks[at] && word_at(alone.store.at + 8 * at) == bits : at == 0 && bits == 0);
    }
}

/* Looks with the slices of a play, which gives the same number and index. */
static void check_look(const uint8_t *slices[3], const size_t lengths[4], uint64_t record, size_t answer_length) {
    static Play looked, played;
    size_t for_look[4] = {lengths[0], lengths[1], lengths[2], answer_length};
    size_t for_play[4] = {lengths[0], lengths[1], lengths[2], TULIPCRICKET_PLAY_ANSWER};
    look(&looked, slices, for_look, record, 0xa5);
    if (answer_length != TULIPCRICKET_LOOK_ANSWER) {
        HOLDS(looked.number == 8 && filled(looked.answer.at, looked.answer.length, 0xa5));
        return;
    }
    play(&played, slices, for_play, record, 0x5a);
    HOLDS(looked.number == played.number && memcmp(looked.answer.at, played.answer.at, 16) == 0);
    if (looked.number != 0) {
        HOLDS(filled(looked.answer.at + 16, TULIPCRICKET_LOOK_ANSWER - 16, 0));
    } else if (record == word_at(looked.answer.at + 8)) {
        HOLDS(word_at(looked.answer.at + 16) == record && filled(looked.answer.at + 24, TULIPCRICKET_LOOK_ANSWER - 24, 0));
    } else {
        is_followed(&looked, record);
        is_written(&looked, record);
    }
}

/* Whether a lowered listing has a branch to a label from 3 on that does not stand in it. */
static int awaits(const uint8_t *listing, size_t length) {
    uint8_t awaited[256] = {0};
    for (size_t at = 0, next; (next = readable(listing + at, length - at)) > 0; at += next) {
        size_t kind = two(listing + at + 2);
        if (kind == 14) awaited[listing[at + 4]] = 0;
        if (kind == 15 && listing[at + 4] > 2) awaited[listing[at + 4]] = 1;
        if (kind == 17) awaited[listing[at + 5]] = 1;
    }
    return !filled(awaited, sizeof awaited, 0);
}

/* A play on a store that differs in every register without a mark ends with the same answer and equal places. */
static void ends_alike(const uint8_t *slices[3], const size_t lengths[4], const uint8_t drawn[REGISTERS]) {
    static Play first, second;
    static uint8_t other[TULIPCRICKET_STORE];
    const uint8_t *others[3] = {slices[0], slices[1], other};
    memcpy(other, slices[2], sizeof other);
    for (size_t i = 0; i < 8 * REGISTERS; i++)
        if (!drawn[i / 8]) other[i] = (uint8_t)~other[i];
    play(&first, slices, lengths, 0, 0xa5);
    play(&second, others, lengths, 0, 0xa5);
    HOLDS(same(&first.answer, second.answer.at));
    HOLDS(memcmp(first.store.at + 8 * REGISTERS, second.store.at + 8 * REGISTERS, sizeof other - 8 * REGISTERS) == 0);
}

/* What was listed is played from record 0; after a refusal, unless it has a branch whose label was still to come. */
static void is_played(const Lowering *l) {
    static uint8_t store[TULIPCRICKET_STORE];
    const uint8_t *slices[3] = {l->listing.at, l->constants.at, store};
    size_t lengths[4] = {word_at(l->answer.at + 16), 8 * word_at(l->answer.at + 24), sizeof store, TULIPCRICKET_PLAY_ANSWER};
    for (size_t i = 0; i < sizeof store; i++) store[i] = (uint8_t)(i % 8 == 7 ? 0x3f : i * 37);
    int open = awaits(slices[0], lengths[0]);
    HOLDS(l->number != 0 || !open);
    HOLDS(check_play(slices, lengths, 0) == (open ? 9 : 0));
    if (!open) ends_alike(slices, lengths, l->answer.at + DRAWN);
}

/* Pages */

enum { LINE = TULIPCRICKET_PAGE / 60 };

/* Index, name and operands stand in their columns, each with no space before it but those that align the index, and all else is spaces. */
static void is_line(const char *line, size_t index, int constant) {
    char number[8];
    snprintf(number, sizeof number, "%5zu", index);
    HOLDS(memcmp(line, number, 5) == 0 && line[5] == ' ' && line[22] == ' ' && line[LINE - 1] == '\n');
    HOLDS(constant ? memcmp(line + 6, "Constant        ", 16) == 0 : line[6] >= 'A' && line[6] <= 'Z');
    HOLDS(line[23] != ' ' && (!constant || line[38] != ' ') && line[LINE - 2] == ' ');
    for (int i = 0; i < LINE - 1; i++) HOLDS(line[i] >= ' ' && line[i] <= 'z');
}

/* The lines of the constants, those of the records, blank ones, and what was lent behind them. */
static void are_pages(const Lent *pages, size_t constants, size_t records, size_t written) {
    const char *line = (const char *)pages->at;
    for (size_t i = 0; i < written / LINE; i++, line += LINE) {
        if (i < constants + records) {
            is_line(line, i < constants ? i : i - constants, i < constants);
        } else {
            HOLDS(filled((const uint8_t *)line, LINE - 1, ' ') && line[LINE - 1] == '\n');
        }
    }
    HOLDS(filled(pages->at + written, pages->length - written, 0xa5));
}

/* The slices of a play, which from record 0 has the same number and index unless it is 7; `less`: how much the room is short of what is needed,
 * from -1 on. */
static void check_pages(const uint8_t *slices[3], const size_t lengths[4], int less, size_t answer_length) {
    static Lent listing, constants, pages, answer;
    static Play played;
    size_t for_play[4] = {lengths[0], lengths[1], TULIPCRICKET_STORE, TULIPCRICKET_PLAY_ANSWER};
    size_t words = lengths[1] / 8, records = records_from(slices[0], lengths[0], 0);
    size_t needed = (words + records + 59) / 60 * TULIPCRICKET_PAGE;
    size_t room = less < 0 ? needed + 1 : needed - least(needed, (size_t)less);
    lend_copy(&listing, slices[0], lengths[0], 0xa5);
    lend_copy(&constants, slices[1], lengths[1], 0xa5);
    lend(&pages, room, 0xa5);
    lend(&answer, answer_length, 0xa5);
    uint32_t number = tulipcricket_pages(listing.at, listing.length, constants.at, constants.length, pages.at, pages.length,
                                         answer.at, answer.length);
    take_back(&listing, 0xa5);
    take_back(&constants, 0xa5);
    take_back(&pages, 0xa5);
    take_back(&answer, 0xa5);
    HOLDS(same(&listing, slices[0]) && same(&constants, slices[1]));
    if (number != 0) HOLDS(filled(pages.at, pages.length, 0xa5));
    if (answer_length != TULIPCRICKET_PAGES_ANSWER) {
        HOLDS(number == 8 && filled(answer.at, answer.length, 0xa5));
        return;
    }
    HOLDS(word_at(answer.at) == number && (number == 0 || word_at(answer.at + 16) == 0));
    play(&played, slices, for_play, 0, 0x5a);
    if (played.number != 0 || pages.length >= needed) {
        HOLDS(number == played.number && memcmp(answer.at, played.answer.at, 16) == 0);
    } else {
        HOLDS(number == 7 && word_at(answer.at + 8) == 0);
    }
    if (number == 0) {
        HOLDS(word_at(answer.at + 16) * TULIPCRICKET_PAGE == needed);
        are_pages(&pages, words, records, needed);
    }
}

/* Cutting an input */

/* A length that is right but for one byte in 16. */
static size_t lent_length(uint8_t byte, unsigned of, size_t right, size_t unit) {
    if (byte < 240 || byte % 4 != of) return right;
    switch (byte / 4 % 4) {
    case 0: return right - unit;
    case 1: return right + unit;
    case 2: return right + 1;
    default: return 0;
    }
}

/* Shelf figures: what lowering of the same sheet in all the room gave, and what a play of it from record 0 runs at most. */
static void check_shelf(const Lowering *whole, size_t length) {
    static Lent sheet, answer;
    const uint8_t *lowered = whole->answer.at;
    lend_copy(&sheet, whole->sheet.at, whole->sheet.length, 0xa5);
    lend(&answer, length, 0xa5);
    uint32_t number = tulipcricket_shelf(sheet.at, sheet.length, answer.at, answer.length);
    take_back(&sheet, 0xa5);
    take_back(&answer, 0xa5);
    HOLDS(same(&sheet, whole->sheet.at));
    if (length != TULIPCRICKET_SHELF_ANSWER) {
        HOLDS(number == 8 && filled(answer.at, answer.length, 0xa5));
        return;
    }
    HOLDS(number == whole->number && memcmp(answer.at, lowered, 16) == 0);
    if (number != 0) {
        HOLDS(filled(answer.at + 16, answer.length - 16, 0));
        return;
    }
    HOLDS(memcmp(answer.at + 16, lowered + 16, 16) == 0);
    Shape shape = shape_of(whole->listing.at, word_at(lowered + 16));
    uint64_t most = shape.records + shape.calls * shape.block, records = word_at(answer.at + 32);
    HOLDS(records == most || records == most - shape.block);
}

/* The running peak and the nearest point */

static double number_of(uint64_t word) {
    double number;
    memcpy(&number, &word, 8);
    return number;
}

static int is_nan(uint64_t word) { return (word & 0x7fffffffffffffff) > 0x7ff0000000000000; }

/* What stands at position i is in its window, no word of the window is above it, and every earlier word of the window is below it. */
static void is_peak(const uint8_t *run, const uint8_t *out, size_t i, uint64_t window) {
    size_t from = i + 1 < window ? 0 : i + 1 - (size_t)window, at = i + 1;
    uint64_t found = word_at(out + 8 * i);
    for (size_t j = from; j <= i; j++) {
        uint64_t word = word_at(run + 8 * j);
        if (is_nan(word)) continue;
        HOLDS(!is_nan(found) && number_of(word) <= number_of(found));
        if (at > i && number_of(word) == number_of(found)) at = j;
    }
    HOLDS(at <= i ? word_at(run + 8 * at) == found : found == 0x7ff8000000000000);
}

static void check_peak(const uint8_t *bytes, size_t length, uint64_t window, size_t room) {
    static Lent run, out;
    lend_copy(&run, bytes, length, 0xa5);
    lend(&out, room, 0xa5);
    uint32_t number = tulipcricket_peak(run.at, run.length, window, out.at, out.length);
    take_back(&run, 0xa5);
    take_back(&out, 0xa5);
    HOLDS(same(&run, bytes));
    int torn = length % 8 != 0 || room % 8 != 0;
    int barred = window == 0 || window > 64 || length > 32768 || room < length;
    HOLDS(number == (torn ? 8 : barred ? 12 : 0));
    HOLDS(filled(out.at + (number == 0 ? length : 0), room - (number == 0 ? length : 0), 0xa5));
    for (size_t i = 0; number == 0 && i < length / 8; i++) is_peak(run.at, out.at, i, window);
}

/* "the difference of real words squared plus that of imaginary words squared", each operation rounded */
static double distance(uint64_t re, uint64_t im, const uint8_t *point) {
    double x = number_of(re) - number_of(word_at(point)), y = number_of(im) - number_of(word_at(point + 8));
    double squared = x * x;
    y *= y;
    return squared + y;
}

/* The point found has a distance that is a number, no other is smaller, and no later one is equal; where none is found all are NaNs. */
static void is_nearest(uint64_t re, uint64_t im, const uint8_t *points, size_t length, int found, size_t at) {
    double least_one = found ? distance(re, im, points + 16 * at) : 0;
    HOLDS(least_one == least_one);
    for (size_t i = 0; i < length / 16; i++) {
        double other = distance(re, im, points + 16 * i);
        HOLDS(found ? !(other < least_one) && !(i > at && other == least_one) : other != other);
    }
}

static void check_nearest(uint64_t re, uint64_t im, const uint8_t *bytes, size_t length, size_t room) {
    static Lent points, answer;
    lend_copy(&points, bytes, length, 0xa5);
    lend(&answer, room, 0xa5);
    uint32_t number = tulipcricket_nearest(re, im, points.at, points.length, answer.at, answer.length);
    take_back(&points, 0xa5);
    take_back(&answer, 0xa5);
    HOLDS(same(&points, bytes));
    if (room != TULIPCRICKET_NEAREST_ANSWER) {
        HOLDS(number == 8 && filled(answer.at, answer.length, 0xa5));
        return;
    }
    HOLDS(number == (length % 8 != 0 ? 8 : length % 16 != 0 || length > TULIPCRICKET_POINTS_LIMIT ? 13 : 0));
    HOLDS(word_at(answer.at) == number && word_at(answer.at + 8) <= (number == 0 && length > 0));
    HOLDS(word_at(answer.at + 8) == 1 ? word_at(answer.at + 16) < length / 16 : word_at(answer.at + 16) == 0);
    if (number == 0) is_nearest(re, im, points.at, length, word_at(answer.at + 8) == 1, word_at(answer.at + 16));
}

/* The words of an input, whatever they are of, as a run and as points. */
static void fuzz_words(const uint8_t *data, const uint8_t *rest, size_t size) {
    size_t run = least(size, 32768 + 8), points = least(size, TULIPCRICKET_POINTS_LIMIT + 16);
    if (data[1] % 8 != 1) run -= run % 8, points -= points % 16;
    check_peak(rest, run, two(data + 2) % 67, lent_length(data[1], 3, run, 8));
    check_nearest(word_at(rest), word_at(rest + 8), rest, points, lent_length(data[1], 2, TULIPCRICKET_NEAREST_ANSWER, 8));
}


static size_t room(size_t number) { return number == 0xffff ? 65536 : number == 0xfffe ? 65537 : number; }

static void fuzz_lower(const uint8_t *data, size_t size) {
    static Lowering small, whole;
    size_t lengths[5] = {size - LOWER_HEAD, room(two(data + 2)),
                         lent_length(data[1], 0, TULIPCRICKET_CONSTANTS, 8),
                         lent_length(data[1], 2, TULIPCRICKET_ORIGINS, 2),
                         lent_length(data[1], 1, TULIPCRICKET_LOWER_ANSWER, 8)};
    lower(&small, data + LOWER_HEAD, lengths, 0xa5);
    int own = own_constants(small.sheet.at, small.sheet.length);
    if (own < 0 || lengths[1] > TULIPCRICKET_LISTING_LIMIT || lengths[2] != TULIPCRICKET_CONSTANTS ||
        lengths[3] != TULIPCRICKET_ORIGINS || lengths[4] != TULIPCRICKET_LOWER_ANSWER) {
        refused_setup(&small, 0xa5);
        return;
    }
    answered(&small, own, 0xa5);
    lengths[1] = TULIPCRICKET_LISTING_LIMIT;
    lower(&whole, data + LOWER_HEAD, lengths, 0x5a);
    answered(&whole, own, 0x5a);
    agrees(&small, &whole);
    if (small.number == 7) is_played(&small);
    is_played(&whole);
    check_shelf(&whole, lent_length(data[1], 3, TULIPCRICKET_SHELF_ANSWER, 8));
}

/* The store's words: all one word, then those of the input, each after its index. */
static void fill_store(uint8_t store[TULIPCRICKET_STORE + 8], const uint8_t *fill, const uint8_t *sets, size_t size) {
    for (size_t i = 0; i <= WORDS; i++) memcpy(store + 8 * i, fill, 8);
    for (; size >= WORD_SET; size -= WORD_SET, sets += WORD_SET) memcpy(store + two(sets) % WORDS * 8, sets + 2, 8);
}

/* The listing, `times` more often than it stands in the input, as far as one byte over the limit. */
static size_t repeated(uint8_t listing[ROOM], const uint8_t *from, size_t length, size_t times) {
    size_t filled_up = 0;
    for (size_t i = 0; i <= times; i++) {
        size_t more = least(length, TULIPCRICKET_LISTING_LIMIT + 1 - filled_up);
        memcpy(listing + filled_up, from, more);
        filled_up += more;
    }
    return filled_up;
}

static void fuzz_play(const uint8_t *data, size_t size) {
    static uint8_t listing[ROOM], constants[TULIPCRICKET_CONSTANTS + 16], store[TULIPCRICKET_STORE + 8];
    const uint8_t *rest = data + PLAY_HEAD;
    size_t left = size - PLAY_HEAD;
    size_t words = least(two(data + 4) % 258, left / 8);
    size_t listed = least(two(data + 6), left - 8 * words);
    uint64_t start = two(data + 2) == 0xffff ? UINT64_MAX : two(data + 2);
    memcpy(constants, rest, 8 * words);
    const uint8_t *slices[3] = {listing, constants, store};
    size_t lengths[4] = {repeated(listing, rest + 8 * words, listed, data[8]), lent_length(data[1], 2, 8 * words, 8),
                         lent_length(data[1], 0, TULIPCRICKET_STORE, 8),
                         lent_length(data[1], 1, TULIPCRICKET_PLAY_ANSWER, 8)};
    if (lengths[1] > sizeof constants) lengths[1] = 0;
    fill_store(store, data + 9, rest + 8 * words + listed, left - 8 * words - listed);
    check_look(slices, lengths, start, lent_length(data[1], 1, TULIPCRICKET_LOOK_ANSWER, 8));
    check_play(slices, lengths, start);
    check_pages(slices, lengths, (int)(start % 3) - 1, lent_length(data[1], 1, TULIPCRICKET_PAGES_ANSWER, 8));
}

int LLVMFuzzerTestOneInput(const uint8_t *data, size_t size) {
    if (size >= LOWER_HEAD && data[0] % 2 == 0) fuzz_lower(data, size);
    if (size >= PLAY_HEAD && data[0] % 2 == 1) fuzz_play(data, size);
    if (size >= PLAY_HEAD + 16) fuzz_words(data, data + PLAY_HEAD, size - PLAY_HEAD);
    return 0;
}
