/* The version, and the words of the numbers that the functions return. Nothing here is proved: .ci/steps/02-version compares the version with
 * the file VERSION and the words with those that the commands print, python/tests with the package's. */
#include "tulipcricket.h"

static const char *const words[] = {
    "accepted", "torn record", "unknown work", "bad register",
    "bad place", "missing constant", "barred operand", "listing full",
    "wrong setup", "stray jump", "misplaced label", "unequal records",
    "wrong window", "wrong points", "sheet too long",
};

const char *tulipcricket_version(void) { return TULIPCRICKET_VERSION; }

const char *tulipcricket_word(uint32_t number) {
    return number < sizeof words / sizeof words[0] ? words[number] : "unknown number";
}
