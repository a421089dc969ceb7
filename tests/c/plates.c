/* Which bytes are a plate: 01's worked plates, the standard rules', and the largest of each edition, written here bit by bit, since no text
 * builds it. */
#include "check.h"

static uint8_t largest[DM_PLATE_MOST + 1];
static size_t at; /* in bits */

static void put(unsigned width, unsigned long value) {
    while (width-- > 0) {
        if (value >> width & 1) largest[at / 8] = (uint8_t)(largest[at / 8] | 0x80 >> at % 8);
        at += 1;
    }
}

/* The digits of alternative `a` of a rule's fields, 0 to 23: a number of its own. */
static unsigned long digits(unsigned long rule, unsigned a) { return rule * 24 + a; }

/* Rules of 16 bytes with 8 alternatives of 6 digits in every field, and 128 foldings, in an edition: its number and the bits of its rule count. */
static size_t write_largest(unsigned edition, unsigned width, unsigned long rules) {
    memset(largest, 0, sizeof largest), at = 0;
    put(8, edition), put(width, rules), put(8, 128), put(1, 1), put(15 - width, 0);
    for (unsigned long key = 0xE0; key < 0xE0 + 128; key++) put(21, key), put(21, 'a');
    for (unsigned long rule = 0; rule < rules; rule++) {
        char pattern[24];
        snprintf(pattern, sizeof pattern, "c%015lu", rule);
        put(5, 16);
        for (int i = 0; i < 16; i++) put(8, (unsigned char)pattern[i]);
        for (unsigned a = 0; a < 24; a++) {
            char code[8];
            snprintf(code, sizeof code, "%06lu", digits(rule, a));
            if (a % 8 == 0) put(4, 8);
            put(3, 6);
            for (int i = 0; i < 6; i++) put(4, (unsigned long)(code[i] - '0'));
        }
    }
    return (at + 7) / 8;
}

/* 01: 4 + 672 + 50,752; 02: 149,364. */
static void the_largest(unsigned edition, unsigned width, unsigned long rules, size_t most) {
    uint8_t out[DM_LIST_MOST];
    char codes[64] = "", name[24];
    size_t length = write_largest(edition, width, rules);
    snprintf(name, sizeof name, "C%015lu", rules - 1);
    expect(length == most, "the largest plate's length", name);
    expect(dm_is_plate(largest, length), "is_plate", "the largest plate");
    expect(!dm_is_plate(largest, length - 1), "is_plate", "the largest plate, cut");
    expect(!dm_is_plate(largest, length + 1), "is_plate", "the largest plate and a byte");
    for (unsigned a = 0; a < 8; a++) snprintf(codes + 7 * a, 8, "%06lu|", digits(rules - 1, a));
    dm_coded r = dm_list(largest, length, bytes(name), 16, out, sizeof out);
    expect(r.number == DM_ANSWERED && r.count == 8 && memcmp(out, codes, 55) == 0, "list", "the largest plate");
    r = dm_encode(largest, length, bytes(name), 16, out, DM_ENCODE_MOST);
    expect(r.number == DM_ANSWERED && r.count == 1 && memcmp(out, codes, 6) == 0, "encode", "the largest plate");
    r = dm_list(largest, length + 1, bytes("c"), 1, out, sizeof out);
    expect(r.number == DM_NOT_A_PLATE && r.count == 0, "list", "the largest plate and a byte");
    for (unsigned bit = 17 + width; bit < 32; bit++) {
        largest[bit / 8] = (uint8_t)(largest[bit / 8] ^ 0x80 >> bit % 8);
        expect(!dm_is_plate(largest, length), "is_plate", "a reserved bit");
        largest[bit / 8] = (uint8_t)(largest[bit / 8] ^ 0x80 >> bit % 8);
    }
    for (unsigned other = 0; other < 4; other++) {
        largest[0] = (uint8_t)other;
        expect(dm_is_plate(largest, length) == (other == edition), "is_plate", "the edition alone changed");
    }
}

/* Too many rules for edition 1, too few or too many for edition 2. */
static void other_counts(void) {
    expect(!dm_is_plate(largest, write_largest(1, 10, 513)), "is_plate", "513 rules in edition 1");
    expect(!dm_is_plate(largest, write_largest(2, 11, 512)), "is_plate", "512 rules in edition 2");
    expect(dm_is_plate(largest, write_largest(2, 11, 513)), "is_plate", "513 rules in edition 2");
    expect(!dm_is_plate(largest, write_largest(2, 11, 1)), "is_plate", "a rule in edition 2");
}

static void the_standard(void) {
    static uint8_t copy[sizeof dm_standard_plate];
    uint8_t out[DM_LIST_MOST];
    expect(dm_is_plate(dm_standard_plate, sizeof dm_standard_plate), "is_plate", "the standard rules");
    dm_coded r = dm_list(dm_standard_plate, sizeof dm_standard_plate, bytes("Peters"), 6, out, sizeof out);
    expect(r.number == DM_ANSWERED && r.count == 2 && memcmp(out, "734000|739400", 13) == 0, "list", "Peters");
    memcpy(copy, dm_standard_plate, sizeof copy);
    copy[0] = 2;
    expect(!dm_is_plate(copy, sizeof copy), "is_plate", "another edition");
}

void plates(void) {
    static const uint8_t one[] = {0x01, 0x00, 0x40, 0x20, 0x0B, 0x08, 0x90, 0x10, 0x20};
    static const uint8_t none[] = {0x01, 0x00, 0x00, 0x20};
    static uint8_t room[DM_PLATE_MOST];
    expect(build("\"a\" \"0\" \"\" \"\"\n", true, room) == sizeof one && memcmp(room, one, sizeof one) == 0, "plate", "a");
    expect(build("", true, room) == sizeof none && memcmp(room, none, sizeof none) == 0, "plate", "");
    expect(dm_is_plate(one, sizeof one) && dm_is_plate(none, sizeof none), "is_plate", "01's worked plates");
    expect(dm_is_plate(plate, plate_len) && !dm_is_plate(bytes(S), strlen(S)), "is_plate", S);
    the_largest(1, 10, 512, DM_PLATE_MOST_1);
    the_largest(2, 11, 1500, DM_PLATE_MOST);
    other_counts();
    the_standard();
}
