/* dm_ward: names into lines, its numbers, and every edge of its two limits. */
#include "check.h"

static uint8_t out[(DM_WARD_NAMES + 1) * DM_WARD_LINE];

/* A list's answer under a plate in a buffer of `room` bytes: the lines, or a refusal where they are null. */
static void by_plate(const uint8_t *by, size_t by_len, const char *names, size_t names_len, size_t room, const char *lines, uint64_t number) {
    size_t length = lines == NULL ? 0 : strlen(lines);
    memset(out, PAINT, sizeof out);
    dm_written r = dm_ward(by, by_len, bytes(names), names_len, out, room);
    const char *shown = names == NULL ? "null" : names_len < 100 ? names : "many names";
    expect(r.number == number && r.length == length, "ward's number and length", shown);
    expect(length == 0 || memcmp(out, lines, length) == 0, "lines", shown);
    expect(painted(out + length, sizeof out - length), "bytes behind the lines", shown);
}

static void ward(const char *names, size_t names_len, size_t room, const char *lines, uint64_t number) {
    by_plate(plate, plate_len, names, names_len, room, lines, number);
}

/* So many names take this text of lines, in a buffer of DM_WARD_LINE bytes for each, and are refused by 12 in a byte less. */
static void names_of(const char *names, size_t count, const char *lines) {
    ward(names, strlen(names), count * DM_WARD_LINE, lines, DM_ANSWERED);
    if (count > 0) ward(names, strlen(names), count * DM_WARD_LINE - 1, NULL, DM_ROOM_TOO_SMALL);
}

static void splits(void) {
    names_of("", 0, "");
    names_of("\n", 1, "000000\n");
    names_of("\n\n", 2, "000000\n000000\n");
    names_of("r", 1, "900000\n");
    names_of("r\n", 1, "900000\n");
    names_of("r\n\nmn", 3, "900000\n000000\n660000\n");
    names_of("\xE2\n\x82", 2, "!02\n!02\n");
    names_of("r\r\nmn\r", 2, "900000\n660000\n");
    names_of("cc\n\xC6\x80\ncacacacacacac\nmm\n", 4, "400000|450000|540000|500000\n!11\n!12\n600000\n");
    ward("r\0h\nm", 5, 2 * DM_WARD_LINE, "900000\n600000\n", DM_ANSWERED);
    ward(NULL, 0, 0, "", DM_ANSWERED);
    dm_written r = dm_ward(plate, plate_len, NULL, 0, NULL, 0);
    expect(r.number == DM_ANSWERED && r.length == 0, "ward", "null names and buffer");
    r = dm_ward(plate, plate_len, bytes("r"), 1, NULL, 0);
    expect(r.number == DM_ROOM_TOO_SMALL && r.length == 0, "ward", "null buffer");
}

/* A name at its limit, and the next name is right; the longest line, and a name that is no shorter for it. */
static void long_names(void) {
    static char names[2 * DM_NAME_MOST + 8];
    static char lines[2 * DM_WARD_LINE];
    memset(names, 'r', DM_NAME_MOST + 1);
    memcpy(names + DM_NAME_MOST + 1, "\nm", 3);
    names_of(names, 2, "!01\n600000\n");
    memcpy(names + DM_NAME_MOST, "\nm", 3);
    names_of(names, 2, "900000\n600000\n");
    dm_coded r = dm_list(plate, plate_len, bytes("cacacacacaca"), 12, out, DM_LIST_MOST);
    expect(r.number == DM_ANSWERED && r.count == DM_CODES_MOST, "list", "cacacacacaca");
    memcpy(lines, out, DM_LIST_MOST);
    memcpy(lines + DM_LIST_MOST, "\n600000\n", 9);
    names_of("cacacacacaca\nmm", 2, lines);
}

/* `count` empty names, and the same with a last one that has no newline. */
static void counted(size_t count) {
    static char names[DM_WARD_NAMES + 2];
    static char lines[(DM_WARD_NAMES + 1) * 7 + 1];
    memset(names, '\n', sizeof names);
    lines[0] = '\0';
    for (size_t i = 0; i < count; i++) memcpy(lines + 7 * i, "000000\n", 8);
    bool fits = count <= DM_WARD_NAMES;
    ward(names, count, count * DM_WARD_LINE, fits ? lines : NULL, fits ? DM_ANSWERED : DM_TOO_LONG);
    ward(names, count, 0, count == 0 ? "" : NULL, !fits ? DM_TOO_LONG : count == 0 ? DM_ANSWERED : DM_ROOM_TOO_SMALL);
    if (count == 0) return;
    if (fits) ward(names, count, count * DM_WARD_LINE - 1, NULL, DM_ROOM_TOO_SMALL);
    names[count - 1] = 'o';
    ward(names, count, count * DM_WARD_LINE, fits ? lines : NULL, fits ? DM_ANSWERED : DM_TOO_LONG);
    by_plate(NULL, 0, names, count, count * DM_WARD_LINE, NULL, DM_NOT_A_PLATE);
}

void wards(void) {
    static const size_t counts[] = {0, 1, 2, DM_WARD_NAMES - 1, DM_WARD_NAMES, DM_WARD_NAMES + 1};
    splits();
    long_names();
    for (size_t i = 0; i < sizeof counts / sizeof *counts; i++) counted(counts[i]);
    by_plate(NULL, 0, "", 0, DM_WARD_LINE, NULL, DM_NOT_A_PLATE);
    by_plate(plate, plate_len - 1, "r", 1, DM_WARD_LINE, NULL, DM_NOT_A_PLATE);
    by_plate(plate, plate_len - 1, "r", 1, 0, NULL, DM_NOT_A_PLATE);
}
