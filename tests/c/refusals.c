/* Each number once from each call that gives it, and null pointers with length 0. */
#include "check.h"

static void of_build(void) {
    build_refused("\xFF", 1, 512, DM_NOT_TEXT, 0);
    build_refused("\n\0", 2, 512, DM_NOT_TEXT, 0);
    build_refused("\n\nx\n", 4, 512, DM_NOT_RECOGNISED, 3);
    build_refused("\"\" \"1\" \"1\" \"1\"", 14, 512, DM_EMPTY_PATTERN, 1);
    build_refused("/* x */\n\"a\" \"1\" \"x\" \"1\"", 23, 512, DM_NOT_DIGITS, 2);
    build_refused(S, strlen(S), plate_len - 1, DM_SHORT_BUFFER, 0);
    build_refused(S, strlen(S), plate_len, DM_ANSWERED, 0);
}

/* The line is 1 plus the newlines before the item's first byte, wherever they stand; those inside the item do not count. */
static void of_lines(void) {
    static char text[DM_TEXT_MOST];
    build_refused("/* */\nx", 7, 512, DM_NOT_RECOGNISED, 2);
    build_refused("\n=x\n?", 5, 512, DM_NOT_RECOGNISED, 3);
    build_refused("\"a\nb\" \"\" \"\" \"\"\n?", 16, 512, DM_NOT_RECOGNISED, 3);
    build_refused("a=\n\n?", 5, 512, DM_NOT_RECOGNISED, 3);
    build_refused("/* \n\n */\n\n\"\" \"\" \"\" \"\"\n", 22, 512, DM_EMPTY_PATTERN, 5);
    build_refused("\"a\" \"1\n\" \"\" \"\"\n", 15, 512, DM_NOT_DIGITS, 1);
    build_refused("\r\n\r\n?", 5, 512, DM_NOT_RECOGNISED, 3);
    memset(text, '\n', sizeof text);
    text[DM_TEXT_MOST - 1] = 'x';
    build_refused(text, sizeof text, 512, DM_NOT_RECOGNISED, DM_TEXT_MOST);
}

static void of_names(void) {
    refused_at(dm_encode, "r\xFF", 2, DM_NOT_TEXT, 1);
    refused_at(dm_list, "r\xFF", 2, DM_NOT_TEXT, 1);
    coded(dm_list, "Rosochowaciec", 13, 55, "944744|944745|944754|944755|945744|945745|945754|945755", DM_ANSWERED);
    coded(dm_list, "Rosochowaciec", 13, 54, NULL, DM_ROOM_TOO_SMALL);
    coded(dm_list, "cacacacacacaca", 14, DM_LIST_MOST, NULL, DM_ROOM_TOO_SMALL);
    plate[0] = 2;
    coded(dm_list, "r", 1, DM_LIST_MOST, NULL, DM_NOT_A_PLATE);
    coded(dm_encode, "r", 1, DM_LIST_MOST, NULL, DM_NOT_A_PLATE);
    plate[0] = 1;
}

static void of_null(void) {
    uint8_t out[DM_LIST_MOST], empty[4];
    dm_built b = dm_build(NULL, 0, true, empty, sizeof empty);
    expect(b.number == DM_ANSWERED && b.length == 4, "build", "null text");
    b = dm_build(NULL, 0, true, NULL, 0);
    expect(b.number == DM_SHORT_BUFFER && b.line == 0 && b.length == 0, "build", "null text and buffer");
    expect(!dm_is_plate(NULL, 0), "is_plate", "null");
    dm_coded c = dm_list(NULL, 0, bytes("r"), 1, out, sizeof out);
    expect(c.number == DM_NOT_A_PLATE && c.count == 0, "list", "null plate");
    c = dm_list(plate, plate_len, NULL, 0, out, sizeof out);
    expect(c.number == DM_ANSWERED && c.count == 1 && memcmp(out, "000000", 6) == 0, "list", "null name");
    c = dm_list(plate, plate_len, NULL, 0, NULL, 0);
    expect(c.number == DM_ROOM_TOO_SMALL && c.count == 0, "list", "null name and buffer");
    c = dm_encode(plate, plate_len, NULL, 0, out, sizeof out);
    expect(c.number == DM_ANSWERED && c.count == 1 && memcmp(out, "000000", 6) == 0, "encode", "null name");
    c = dm_encode(plate, plate_len, bytes("r"), 1, NULL, 0);
    expect(c.number == DM_ROOM_TOO_SMALL && c.count == 0, "encode", "null buffer");
    c = dm_encode(NULL, 0, NULL, 0, NULL, 0);
    expect(c.number == DM_NOT_A_PLATE && c.count == 0, "encode", "all null");
}

void refusals(void) {
    of_build();
    of_lines();
    of_names();
    of_null();
}
