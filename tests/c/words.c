/* The words of every number, the version, and the answers as they lie in memory. */
#include "check.h"

void words(void) {
    static const char *const wanted[] = {
        "answered",
        "the rule text has over 65,536 bytes, the name over 256, or the list over 256 names",
        "not UTF-8, or a zero byte in rule text",
        "no rule, folding, comment or empty line",
        "an empty pattern",
        "a pattern over 16 bytes",
        "a field with over 8 alternatives",
        "an alternative that is not 0 to 6 digits",
        "over 1,500 rules, or over 128 folded characters",
        "the buffer is shorter than the plate, or than the records found",
        "the plate is damaged or no plate",
        "a character that is neither white space nor below U+0180 nor U+0400 to U+045F",
        "the buffer is too small for the codes, or the name has over 64 codes at some step",
        "a number that is not known here",
    };
    for (uint64_t number = 0; number < sizeof wanted / sizeof *wanted; number++) {
        expect(strcmp(dm_words(number), wanted[number]) == 0, "words", wanted[number]);
    }
    expect(strcmp(dm_words(DM_NOT_AN_INDEX), "no index, over 4,096 names in one, or no room for its entries or its report") == 0, "words", "18");
    expect(DM_NOT_AN_INDEX == 18 && strcmp(dm_words(17), wanted[13]) == 0 && strcmp(dm_words(19), wanted[13]) == 0, "words", "around 18");
    expect(strcmp(dm_words(UINT64_MAX), wanted[13]) == 0, "words", "the greatest number");
    char version[32];
    snprintf(version, sizeof version, "%d.%d.%d", DM_VERSION_MAJOR, DM_VERSION_MINOR, DM_VERSION_PATCH);
    expect(strcmp(version, DM_VERSION) == 0, "version", DM_VERSION);
    expect(sizeof(dm_built) == 24 && offsetof(dm_built, line) == 8 && offsetof(dm_built, length) == 16, "layout", "dm_built");
    expect(sizeof(dm_coded) == 24 && offsetof(dm_coded, count) == 8 && offsetof(dm_coded, place) == 16, "layout", "dm_coded");
    expect(sizeof(dm_written) == 16 && offsetof(dm_written, length) == 8, "layout", "dm_written");
    expect(sizeof(dm_indexed) == 24 && offsetof(dm_indexed, index_length) == 8 && offsetof(dm_indexed, report_length) == 16, "layout", "dm_indexed");
}
