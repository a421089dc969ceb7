/* Every limit of the header: at the constant there is an answer, one beyond it is the refusal. So a changed constant fails, up or down. */
#include "check.h"

#define ROOM (1 << 17)
#define FIELDS "\"1\" \"1\" \"1\""

static char text[ROOM];

/* Puts `times` copies of a piece behind what stands in the text. */
static void put(const char *piece, size_t times) {
    size_t at = strlen(text), length = strlen(piece);
    for (size_t i = 0; i < times && at + length < ROOM; i++, at += length) memcpy(text + at, piece, length + 1);
}

static void begin(const char *piece) {
    text[0] = '\0';
    put(piece, 1);
}

static void is(uint64_t number, uint64_t line) { build_refused(text, strlen(text), DM_PLATE_MOST, number, line); }

static void text_length(size_t length, uint64_t number) {
    begin("");
    put("\n", length);
    is(number, 0);
}

static void pattern(size_t length, uint64_t number) {
    begin("\"");
    put("a", length);
    put("\" " FIELDS "\n", 1);
    is(number, number == DM_ANSWERED ? 0 : 1);
}

static void alternatives(size_t count, uint64_t number) {
    begin("\"a\" \"1\" \"1");
    put("|1", count - 1);
    put("\" \"1\"\n", 1);
    is(number, number == DM_ANSWERED ? 0 : 1);
}

static void digits(size_t count, uint64_t number) {
    begin("\"a\" \"1\" \"1\" \"");
    put("7", count);
    put("\"\n", 1);
    is(number, number == DM_ANSWERED ? 0 : 1);
}

static void rules(size_t count, uint64_t number) {
    begin("");
    put("\"a\" " FIELDS "\n", count);
    is(number, number == DM_ANSWERED ? 0 : count);
}

static void foldings(size_t count, uint64_t number) {
    begin("");
    for (size_t i = 0; i < count; i++) {
        char line[] = {(char)(0xC4 + i / 64), (char)(0x80 + i % 64), '=', 'a', '\n', '\0'};
        put(line, 1);
    }
    is(number, number == DM_ANSWERED ? 0 : count);
}

/* The name of 64 codes in the longest list: 000000 to 111111, with 4 for 0 and 5 for 1, as S codes `ca` six times over. */
static void longest_list(void) {
    char codes[1024] = "";
    for (int k = 0; k < 64; k++) {
        char code[] = "|444444";
        for (int bit = 0; bit < 6; bit++) code[6 - bit] = (k >> bit) % 2 == 0 ? '4' : '5';
        strcat(codes, code + (k == 0));
    }
    expect(strlen(codes) == DM_LIST_MOST, "DM_LIST_MOST", "cacacacacaca");
    expect((strlen(codes) + 1) / 7 == DM_CODES_MOST, "DM_CODES_MOST", "cacacacacaca");
    coded(dm_list, "cacacacacaca", 12, DM_LIST_MOST, codes, DM_ANSWERED);
    coded(dm_list, "cacacacacaca", 12, DM_LIST_MOST - 1, NULL, DM_ROOM_TOO_SMALL);
    coded(dm_list, "cacacacacacac", 13, 1024, NULL, DM_ROOM_TOO_SMALL);
    coded(dm_encode, "cacacacacaca", 12, DM_ENCODE_MOST, "444444", DM_ANSWERED);
    coded(dm_encode, "cacacacacaca", 12, DM_ENCODE_MOST - 1, NULL, DM_ROOM_TOO_SMALL);
    expect(codes[DM_CODE_STEP - 1] == '|' && memcmp(codes + DM_CODE_STEP, "444445|", 7) == 0, "DM_CODE_STEP", "cacacacacaca");
}

static void names(void) {
    char name[DM_NAME_MOST + 2] = "";
    memset(name, 'r', DM_NAME_MOST + 1);
    coded(dm_list, name, DM_NAME_MOST, DM_LIST_MOST, "900000", DM_ANSWERED);
    coded(dm_list, name, DM_NAME_MOST + 1, DM_LIST_MOST, NULL, DM_TOO_LONG);
    coded(dm_encode, name, DM_NAME_MOST + 1, DM_LIST_MOST, NULL, DM_TOO_LONG);
    char last[] = {(char)(0xC0 + (DM_CHARACTERS_END - 1) / 64), (char)(0x80 + (DM_CHARACTERS_END - 1) % 64), '\0'};
    char beyond[] = {(char)(0xC0 + DM_CHARACTERS_END / 64), (char)(0x80 + DM_CHARACTERS_END % 64), '\0'};
    coded(dm_list, last, 2, DM_LIST_MOST, "000000", DM_ANSWERED);
    coded(dm_list, beyond, 2, DM_LIST_MOST, NULL, DM_CHARACTER_NOT_ALLOWED);
    coded(dm_encode, beyond, 2, DM_LIST_MOST, NULL, DM_CHARACTER_NOT_ALLOWED);
}

void limits(void) {
    text_length(DM_TEXT_MOST, DM_ANSWERED);
    text_length(DM_TEXT_MOST + 1, DM_TOO_LONG);
    pattern(DM_PATTERN_MOST, DM_ANSWERED);
    pattern(DM_PATTERN_MOST + 1, DM_LONG_PATTERN);
    alternatives(DM_ALTERNATIVES_MOST, DM_ANSWERED);
    alternatives(DM_ALTERNATIVES_MOST + 1, DM_MANY_ALTERNATIVES);
    digits(DM_DIGITS_MOST, DM_ANSWERED);
    digits(DM_DIGITS_MOST + 1, DM_NOT_DIGITS);
    rules(DM_RULES_MOST, DM_ANSWERED);
    rules(DM_RULES_MOST + 1, DM_TOO_MANY);
    foldings(DM_FOLDINGS_MOST, DM_ANSWERED);
    foldings(DM_FOLDINGS_MOST + 1, DM_TOO_MANY);
    longest_list();
    names();
}
