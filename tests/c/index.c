/* dm_index_make, dm_index_add, dm_index_find: against what dm_list says of each name, at every edge of their buffers, and on broken bytes. */
#include <stdlib.h>

#include "check.h"

#define BEHIND 8 /* bytes behind what is lent, to see that they are left alone */

/* The two buffers that are lent, what stood in them before a call, and what should stand in them afterwards. */
static uint8_t index_at[DM_INDEX_MOST + BEHIND], index_was[DM_INDEX_MOST + BEHIND];
static uint8_t report_at[DM_RECORDS_MOST + BEHIND], report_was[DM_RECORDS_MOST + BEHIND];
static uint32_t entries[DM_INDEX_MOST / DM_ENTRY_BYTES];
static uint8_t refusals_of[DM_RECORDS_MOST + 1];
static size_t entry_count, name_count;
static char many[DM_RECORDS_MOST * 16];

/* ---- what should come */

static int by_number(const void *a, const void *b) {
    uint32_t x = *(const uint32_t *)a, y = *(const uint32_t *)b;
    return x < y ? -1 : x > y;
}

/* The codes of a name as numbers, and how many; its refusal. */
static uint64_t codes_of(const uint8_t *by, size_t by_len, const uint8_t *name, size_t name_len, uint32_t *codes, size_t *count) {
    uint8_t list[DM_LIST_MOST];
    dm_coded r = dm_list(by, by_len, name, name_len, list, sizeof list);
    for (size_t c = 0; c < r.count; c++) {
        codes[c] = 0;
        for (size_t d = 0; d < 6; d++) codes[c] = codes[c] * 10 + (uint32_t)(list[DM_CODE_STEP * c + d] - '0');
    }
    *count = (size_t)r.count;
    return r.number;
}

/* Sets `entries` and `refusals_of` by listing each name; names beyond the limit are counted alone. */
static void want(const uint8_t *by, size_t by_len, const char *names, size_t names_len) {
    uint32_t codes[DM_CODES_MOST];
    size_t count;
    entry_count = name_count = 0;
    for (size_t at = 0, end; at < names_len; at = end + 1, name_count++) {
        for (end = at; end < names_len && names[end] != '\n';) end++;
        if (name_count >= DM_RECORDS_MOST) continue;
        refusals_of[name_count] = (uint8_t)codes_of(by, by_len, bytes(names) + at, end - at, codes, &count);
        for (size_t c = 0; c < count; c++) entries[entry_count++] = codes[c] * DM_RECORDS_MOST + (uint32_t)name_count;
    }
    qsort(entries, entry_count, sizeof *entries, by_number);
}

static size_t put_entry(uint8_t *to, uint32_t code, uint32_t record) {
    uint32_t e = code * DM_RECORDS_MOST + record;
    to[0] = (uint8_t)(e >> 24), to[1] = (uint8_t)(e >> 16), to[2] = (uint8_t)(e >> 8), to[3] = (uint8_t)e;
    return DM_ENTRY_BYTES;
}

/* The two buffers begin with what is wanted, and are as they were behind it. */
static bool as_wanted(void) {
    uint8_t e[DM_ENTRY_BYTES];
    size_t used = entry_count * DM_ENTRY_BYTES;
    for (size_t i = 0; i < entry_count; i++) {
        put_entry(e, entries[i] / DM_RECORDS_MOST, entries[i] % DM_RECORDS_MOST);
        if (memcmp(index_at + DM_ENTRY_BYTES * i, e, sizeof e) != 0) return false;
    }
    return memcmp(report_at, refusals_of, name_count) == 0 && memcmp(index_at + used, index_was + used, sizeof index_at - used) == 0 &&
           memcmp(report_at + name_count, report_was + name_count, sizeof report_at - name_count) == 0;
}

static bool untouched(void) {
    return memcmp(index_at, index_was, sizeof index_at) == 0 && memcmp(report_at, report_was, sizeof report_at) == 0;
}

static void keep_both(void) {
    memcpy(index_was, index_at, sizeof index_at);
    memcpy(report_was, report_at, sizeof report_at);
}

static void paint_both(void) {
    memset(index_at, PAINT, sizeof index_at);
    memset(report_at, PAINT, sizeof report_at);
    keep_both();
}

/* An answer with both buffers: what is wanted, or a refusal that touched nothing. */
static void answered(dm_indexed r, uint64_t number, const char *shown) {
    bool held = number == DM_ANSWERED;
    expect(r.number == number, "the index's number", shown);
    expect(r.index_length == (held ? entry_count * DM_ENTRY_BYTES : 0) && r.report_length == (held ? name_count : 0), "the index's lengths", shown);
    expect(held ? as_wanted() : untouched(), "index and report", shown);
}

/* ---- making */

static void make(const uint8_t *by, size_t by_len, const char *names, size_t names_len, size_t index_len, size_t report_len, uint64_t number) {
    paint_both();
    dm_indexed r = dm_index_make(by, by_len, bytes(names), names_len, index_at, index_len, report_at, report_len);
    answered(r, number, names_len < 100 ? names : "many names");
}

/* Names in buffers that fit exactly, and in each of them a byte short. */
static void made_by(const uint8_t *by, size_t by_len, const char *names, size_t names_len) {
    want(by, by_len, names, names_len);
    size_t used = entry_count * DM_ENTRY_BYTES, noted = name_count;
    bool fits = noted <= DM_RECORDS_MOST;
    make(by, by_len, names, names_len, used, fits ? noted : DM_RECORDS_MOST, fits ? DM_ANSWERED : DM_NOT_AN_INDEX);
    make(by, by_len, names, names_len, sizeof index_at, sizeof report_at, fits ? DM_ANSWERED : DM_NOT_AN_INDEX);
    if (used > 0) make(by, by_len, names, names_len, used - 1, noted, DM_NOT_AN_INDEX);
    if (noted > 0) make(by, by_len, names, names_len, used, noted - 1, DM_NOT_AN_INDEX);
    make(by, by_len - 1, names, names_len, used, noted, DM_NOT_A_PLATE);
    make(NULL, 0, names, names_len, 0, 0, DM_NOT_A_PLATE);
}

static void made(const char *names) { made_by(plate, plate_len, names, strlen(names)); }

static void making(void) {
    static const char *const lists[] = {
        "", "\n", "\n\n", "r", "r\n", "r\nr", "mm\nm\n", "\xE2\n\x82", "r\r\nmn\r", "cc\n\xC6\x80\ncacacacacacac\nmm\n", "cacacacacaca\ncc\n\ncacacacacaca",
    };
    for (size_t i = 0; i < sizeof lists / sizeof *lists; i++) made(lists[i]);
    made_by(plate, plate_len, "r\0h\nm", 5);
    memset(many, 'r', DM_NAME_MOST + 1);
    memcpy(many + DM_NAME_MOST + 1, "\nm", 3);
    made(many);
    dm_indexed r = dm_index_make(plate, plate_len, NULL, 0, NULL, 0, NULL, 0);
    expect(r.number == DM_ANSWERED && r.index_length == 0 && r.report_length == 0, "make", "nothing");
}

/* So many names of this text, a newline behind each: the limits of 4,096. */
static size_t repeat(const char *name, size_t count) {
    size_t length = strlen(name);
    for (size_t i = 0; i < count; i++) {
        memcpy(many + i * (length + 1), name, length);
        many[i * (length + 1) + length] = '\n';
    }
    return count * (length + 1);
}

static void counts(void) {
    static const size_t of[] = {1, 2, DM_RECORDS_MOST - 1, DM_RECORDS_MOST, DM_RECORDS_MOST + 1};
    for (size_t i = 0; i < sizeof of / sizeof *of; i++) {
        made_by(plate, plate_len, many, repeat("r", of[i]));
        made_by(plate, plate_len, many, repeat("r", of[i]) - 1);
        made_by(plate, plate_len, many, repeat("", of[i]));
    }
}

/* ---- adding */

static dm_indexed add(const char *name, size_t index_len, size_t used, size_t report_len, size_t noted) {
    keep_both();
    return dm_index_add(plate, plate_len, bytes(name), strlen(name), index_at, index_len, used, report_at, report_len, noted);
}

static void add_refused(const char *name, size_t index_len, size_t used, size_t report_len, size_t noted, const char *shown) {
    answered(add(name, index_len, used, report_len, noted), DM_NOT_AN_INDEX, shown);
}

/* Adds a name to `used` bytes and `noted` records that are already there, first in buffers a byte short, then in exact ones;
 * both must then be those of `afresh`. */
static void added(const char *name, size_t used, size_t noted, const char *afresh, size_t afresh_len) {
    want(plate, plate_len, afresh, afresh_len);
    size_t now = entry_count * DM_ENTRY_BYTES;
    if (now > used) add_refused(name, now - 1, used, noted + 1, noted, "an index a byte short");
    add_refused(name, now, used, noted, noted, "a report a byte short");
    answered(add(name, now, used, noted + 1, noted), DM_ANSWERED, name);
}

/* Names added one by one are names made afresh; some are refused, some have 64 codes, some are there already. */
static void adding(void) {
    static const char *const names[] = {"r", "cc", "", "\xC6\x80", "mn", "cacacacacaca", "cacacacacacac", "chorh", "\xC3\xA0r", "r", "\x80", "hm s", "sch", "wcr", "ochieo"};
    size_t end = 0;
    paint_both();
    want(plate, plate_len, "", 0);
    for (size_t i = 0; i < 240; i++) {
        const char *name = names[i * i % 15];
        size_t used = entry_count * DM_ENTRY_BYTES, noted = name_count;
        memcpy(many + end, name, strlen(name));
        end += strlen(name) + 1;
        many[end - 1] = '\n';
        added(name, used, noted, many, end);
    }
}

/* The last record there is, and none behind it. */
static void last_record(void) {
    size_t end = repeat("r", DM_RECORDS_MOST - 1);
    made_by(plate, plate_len, many, end);
    paint_both();
    dm_indexed r = dm_index_make(plate, plate_len, bytes(many), end, index_at, sizeof index_at, report_at, sizeof report_at);
    end = repeat("r", DM_RECORDS_MOST);
    added("r", (size_t)r.index_length, (size_t)r.report_length, many, end);
    add_refused("r", DM_INDEX_MOST, entry_count * DM_ENTRY_BYTES, sizeof report_at, DM_RECORDS_MOST, "a 4,097th name");
    add_refused("\x80", DM_INDEX_MOST, entry_count * DM_ENTRY_BYTES, sizeof report_at, DM_RECORDS_MOST, "a 4,097th name that is refused");
    add_refused("r", DM_INDEX_MOST, 0, sizeof report_at, DM_RECORDS_MOST + 1, "a report of 4,097 bytes");
    add_refused("r", DM_INDEX_MOST, entry_count * DM_ENTRY_BYTES, DM_RECORDS_MOST, DM_RECORDS_MOST - 1, "a record that the report does not have");
}

/* ---- looking up */

/* The records that share a code with a name, by listing it and reading all of `entries`. */
static size_t share(const uint8_t *by, size_t by_len, const char *name, uint8_t *out) {
    static bool marked[DM_RECORDS_MOST];
    uint32_t codes[DM_CODES_MOST];
    size_t count, length = 0;
    memset(marked, 0, sizeof marked);
    codes_of(by, by_len, bytes(name), strlen(name), codes, &count);
    for (size_t i = 0; i < entry_count; i++) {
        for (size_t c = 0; c < count; c++) {
            if (entries[i] / DM_RECORDS_MOST == codes[c]) marked[entries[i] % DM_RECORDS_MOST] = true;
        }
    }
    for (size_t k = 0; k < DM_RECORDS_MOST; k++) {
        if (!marked[k]) continue;
        out[length++] = (uint8_t)(k >> 8);
        out[length++] = (uint8_t)k;
    }
    return length;
}

static void find(const uint8_t *by, size_t by_len, const uint8_t *in, size_t in_len, const char *name, size_t room, const uint8_t *records, size_t length,
                 uint64_t number) {
    static uint8_t out[DM_FOUND_MOST + BEHIND];
    memset(out, PAINT, sizeof out);
    dm_written r = dm_index_find(by, by_len, in, in_len, bytes(name), strlen(name), out, room);
    expect(r.number == number && r.length == length, "find's number and length", strlen(name) < 100 ? name : "a long name");
    expect((length == 0 || memcmp(out, records, length) == 0) && painted(out + length, sizeof out - length), "the records found", name);
}

/* A name is found in the index of `entries` exactly where it shares a code. */
static void found_by(const uint8_t *by, size_t by_len, const char *name) {
    static uint8_t records[DM_FOUND_MOST];
    size_t used = entry_count * DM_ENTRY_BYTES, length = share(by, by_len, name, records);
    find(by, by_len, index_at, used, name, length, records, length, DM_ANSWERED);
    find(by, by_len, index_at, used, name, DM_FOUND_MOST, records, length, DM_ANSWERED);
    if (length > 0) find(by, by_len, index_at, used, name, length - 1, NULL, 0, DM_SHORT_BUFFER);
}

static void found(const char *name) { found_by(plate, plate_len, name); }

static void find_refused(size_t in_len, const char *name, uint64_t number) {
    find(plate, plate_len, index_at, in_len, name, DM_FOUND_MOST, NULL, 0, number);
    find(plate, plate_len, index_at, in_len, name, 0, NULL, 0, number);
}

static void finding(void) {
    static const char *const names[] = {"r", "cc", "c", "ch", "", "o", "mn", "m", "cacacacacaca", "w", "hm s", "sch", "rr", "cr"};
    static char long_name[DM_NAME_MOST + 2];
    memset(long_name, 'r', DM_NAME_MOST + 1);
    adding();
    size_t used = entry_count * DM_ENTRY_BYTES;
    for (size_t i = 0; i < sizeof names / sizeof *names; i++) found(names[i]);
    find_refused(used, long_name, DM_TOO_LONG);
    find_refused(used, "\x80", DM_NOT_TEXT);
    find_refused(used, "\xC6\x80", DM_CHARACTER_NOT_ALLOWED);
    find_refused(used, "cacacacacacac", DM_ROOM_TOO_SMALL);
    find_refused(used - 1, "\xC6\x80", DM_NOT_AN_INDEX);
    find(plate, plate_len - 1, index_at, used - 1, "r", 0, NULL, 0, DM_NOT_A_PLATE);
    find(plate, plate_len, NULL, 0, "r", 0, NULL, 0, DM_ANSWERED);
    find(plate, plate_len, NULL, 0, "\x80", 0, NULL, 0, DM_NOT_TEXT);
    dm_written r = dm_index_find(plate, plate_len, NULL, 0, NULL, 0, NULL, 0);
    expect(r.number == DM_ANSWERED && r.length == 0, "find", "nothing in nothing");
}

/* ---- broken bytes */

/* The index of two entries, and whether it is one: by find, and by add where all its records are in the report. */
static void pair(uint32_t code, uint32_t record, uint32_t code2, uint32_t record2, bool good, const char *shown) {
    paint_both();
    put_entry(index_at, code, record);
    put_entry(index_at + DM_ENTRY_BYTES, code2, record2);
    dm_indexed r = add("r", DM_INDEX_MOST, 8, DM_RECORDS_MOST, DM_RECORDS_MOST - 1);
    expect(r.number == (good ? DM_ANSWERED : DM_NOT_AN_INDEX) && (good || untouched()), "add to an index", shown);
    dm_written w = dm_index_find(plate, plate_len, index_was, 8, bytes("w"), 1, report_at, 0);
    expect(w.number == (good ? DM_ANSWERED : DM_NOT_AN_INDEX) && w.length == 0, "find in an index", shown);
}

static void broken(void) {
    pair(5, 2, 5, 3, true, "one code, records rising");
    pair(5, 3, 6, 2, true, "codes rising, records falling");
    pair(999998, 4094, 999999, 4094, true, "the greatest code");
    pair(0, 0, 0, 1, true, "the smallest entry");
    pair(5, 2, 5, 2, false, "equal entries");
    pair(5, 3, 5, 2, false, "one code, records falling");
    pair(6, 2, 5, 3, false, "codes falling, records rising");
    pair(6, 2, 5, 2, false, "codes falling");
    pair(5, 2, 1000000, 3, false, "a code of seven digits");
    pair(1000000, 2, 1000001, 3, false, "two codes of seven digits");
    pair(1048575, 4095, 1048575, 4095, false, "all bits");
    paint_both();
    put_entry(index_at, 5, 2);
    put_entry(index_at + 4, 6, 4);
    for (size_t used = 0; used < 10; used++) {
        bool good = used % 4 == 0;
        keep_both();
        dm_indexed r = dm_index_add(plate, plate_len, bytes("\x80"), 1, index_at, sizeof index_at, used, report_at, 6, 5);
        expect(r.number == (good ? DM_ANSWERED : DM_NOT_AN_INDEX) && (good || untouched()), "add to bytes", "a part of an index");
        dm_written w = dm_index_find(plate, plate_len, index_at, used, bytes("w"), 1, NULL, 0);
        expect(w.number == (good ? DM_ANSWERED : DM_NOT_AN_INDEX), "find in bytes", "a part of an index");
    }
    add_refused("r", 100, 8, 100, 4, "a record number that is the report's length");
    add_refused("r", 100, 8, 100, 0, "no report");
    add_refused("r", 7, 8, 100, 5, "more index in use than lent");
    add_refused("r", 0, 4, 100, 5, "an index in use, none lent");
    add_refused("r", 100, SIZE_MAX, 100, 5, "all memory in use by the index");
    add_refused("r", 100, SIZE_MAX - 3, 100, 5, "nearly all memory in use by the index");
    add_refused("r", 100, 8, 4, 5, "more report in use than lent");
    add_refused("r", 100, 8, 100, SIZE_MAX, "all memory in use by the report");
    keep_both();
    answered(dm_index_add(plate, plate_len - 1, bytes("r"), 1, index_at, 7, 8, report_at, 0, 5), DM_NOT_A_PLATE, "no plate, and all else wrong");
    dm_indexed r = dm_index_add(plate, plate_len, NULL, 0, NULL, 0, 0, report_at, 1, 0);
    expect(r.number == DM_NOT_AN_INDEX && r.index_length == 0 && untouched(), "add", "the empty name, whose code does not fit");
    r = dm_index_add(plate, plate_len, bytes("\x80"), 1, NULL, 0, 0, report_at, 1, 0);
    expect(r.number == DM_ANSWERED && r.index_length == 0 && r.report_length == 1 && report_at[0] == DM_NOT_TEXT, "add", "a refused name, no index lent");
}

/* ---- the most entries: 4,096 names with 64 codes each */

/* Six letters of four, a vowel between two; each letter is either of two digits. Name k has the digits of k by fours. */
static size_t full_names(void) {
    char *to = many;
    for (size_t k = 0; k < DM_RECORDS_MOST; k++) {
        for (int d = 10; d >= 0; d -= 2) {
            *to++ = "bdgk"[k >> d & 3];
            if (d > 0) *to++ = 'a';
        }
        *to++ = '\n';
    }
    return (size_t)(to - many);
}

/* `text` gives every name 64 codes; all 262,144 entries are made, the last name is added to the rest, and names are found. */
static void most(const char *text) {
    static uint8_t by[DM_PLATE_MOST];
    size_t by_len = build(text, true, by), all = full_names(), one = all / DM_RECORDS_MOST;
    made_by(by, by_len, many, all);
    expect(entry_count == DM_INDEX_MOST / DM_ENTRY_BYTES, "entries", text);
    paint_both();
    dm_indexed r = dm_index_make(by, by_len, bytes(many), all - one, index_at, DM_INDEX_MOST, report_at, DM_RECORDS_MOST);
    expect(r.number == DM_ANSWERED && r.index_length == DM_INDEX_MOST - 256 && r.report_length == DM_RECORDS_MOST - 1, "make", "all names but one");
    r = dm_index_add(by, by_len, bytes(many) + all - one, one - 1, index_at, DM_INDEX_MOST, (size_t)r.index_length, report_at, DM_RECORDS_MOST, (size_t)r.report_length);
    answered(r, DM_ANSWERED, "the last of all names");
    found_by(by, by_len, "bababababab");
    found_by(by, by_len, "kagadabagad");
    found_by(by, by_len, "kakakakakak");
    found_by(by, by_len, "b");
}

void index_edges(void) {
    making();
    counts();
    last_record();
    found("r");
    finding();
    broken();
    most("\"b\" \"0|1\" \"0|1\" \"0|1\"\n\"d\" \"2|3\" \"2|3\" \"2|3\"\n\"g\" \"4|5\" \"4|5\" \"4|5\"\n\"k\" \"6|7\" \"6|7\" \"6|7\"\n\"a\" \"\" \"\" \"\"\n");
    most("\"b\" \"1|9\" \"1|9\" \"1|9\"\n\"d\" \"1|2\" \"1|2\" \"1|2\"\n\"g\" \"2|3\" \"2|3\" \"2|3\"\n\"k\" \"3|9\" \"3|9\" \"3|9\"\n\"a\" \"\" \"\" \"\"\n");
}
