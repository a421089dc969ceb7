/* Zengilvar: Daitch-Mokotoff codes of names, from rules that you give as text. zengilvar_standard.h has the standard rules, built.
 *
 * Link libzengilvar.a (`tools/archive` writes it to target/staticlib). It calls memcpy and memset alone, holds no memory
 * between calls and takes none from a heap; calls may run in several threads at once, each with its own buffers.
 *
 * Buffers. Every buffer is yours, before, during and after the call; nothing keeps a pointer. The buffers that are read (text, plate,
 * name and names, index of dm_index_find) may be read-only. A buffer that is written (plate of dm_build, index and report of
 * dm_index_make and dm_index_add, out of the others) must not overlap any other buffer of the same call. No text needs a zero byte at
 * its end. A pointer may be null where its length is 0, and nowhere else. Any bytes and any lengths are allowed besides: what cannot be
 * answered is refused by a number.
 *
 * What is written stands at the front of the buffer. The bytes behind it are left as they were, and after a refusal all of them are. */
#ifndef ZENGILVAR_H
#define ZENGILVAR_H

#include <stdbool.h>
#include <stddef.h>
#include <stdint.h>

#ifdef __cplusplus
extern "C" {
#endif

#define DM_VERSION "0.1.0"
#define DM_VERSION_MAJOR 0
#define DM_VERSION_MINOR 1
#define DM_VERSION_PATCH 0

/* Limits of rule text. What goes over one is refused by the number behind it. */
#define DM_TEXT_MOST 65536     /* bytes of a text: 1 */
#define DM_PATTERN_MOST 16     /* bytes of a pattern: 5 */
#define DM_ALTERNATIVES_MOST 8 /* alternatives of a field: 6 */
#define DM_DIGITS_MOST 6       /* digits of an alternative: 7 */
#define DM_RULES_MOST 1500     /* rules: 8 */
#define DM_FOLDINGS_MOST 128   /* distinct keys of foldings: 8 */

/* No plate is longer: a buffer of so many bytes takes every plate. One of at most 512 rules, which is of edition 1, is no longer than the
 * second; from 513 rules on a plate is of edition 2. Both are accepted, and plates of edition 1 give the codes that they always gave. */
#define DM_PLATE_MOST 149364
#define DM_PLATE_MOST_1 51428

/* Limits of a name. */
#define DM_NAME_MOST 256         /* bytes: 1 */
#define DM_CHARACTERS_END 0x180  /* from here on only white space is allowed: 11 */
#define DM_CODES_MOST 64         /* codes that are held side by side on the way: 12 */

/* One code is six digits; in a list code k, from 0, begins at byte DM_CODE_STEP * k. No call writes more than the two lengths below. */
#define DM_CODE_STEP 7
#define DM_ENCODE_MOST 6
#define DM_LIST_MOST 447

/* Limits of a ward list. */
#define DM_WARD_NAMES 256 /* names of one call: 1 */
#define DM_WARD_LINE 448  /* bytes to lend for each name, whatever its line takes: 12 */

/* Limits of an index. Buffers of the last two lengths hold every index, and every answer of dm_index_find. */
#define DM_RECORDS_MOST 4096 /* names of an index: 18 */
#define DM_ENTRY_BYTES 4     /* bytes of an entry: a name has as many entries as codes, at most DM_CODES_MOST */
#define DM_INDEX_MOST 1048576
#define DM_FOUND_MOST 8192

/* Numbers that come back. dm_build gives 0 to 9; dm_encode and dm_list give 0, 1, 2, 10, 11, 12; dm_ward gives 0, 1, 10, 12;
 * dm_index_make and dm_index_add give 0, 10, 18; dm_index_find gives 0, 1, 2, 9, 10, 11, 12, 18. */
enum dm_number {
    DM_ANSWERED = 0,
    DM_TOO_LONG = 1,
    DM_NOT_TEXT = 2,
    DM_NOT_RECOGNISED = 3,
    DM_EMPTY_PATTERN = 4,
    DM_LONG_PATTERN = 5,
    DM_MANY_ALTERNATIVES = 6,
    DM_NOT_DIGITS = 7,
    DM_TOO_MANY = 8,
    DM_SHORT_BUFFER = 9,
    DM_NOT_A_PLATE = 10,
    DM_CHARACTER_NOT_ALLOWED = 11,
    DM_ROOM_TOO_SMALL = 12,
    DM_NOT_AN_INDEX = 18
};

/* What a number means, in words for people. */
static inline const char *dm_words(uint64_t number) {
    switch (number) {
    case DM_ANSWERED: return "answered";
    case DM_TOO_LONG: return "the rule text has over 65,536 bytes, the name over 256, or the list over 256 names";
    case DM_NOT_TEXT: return "not UTF-8, or a zero byte in rule text";
    case DM_NOT_RECOGNISED: return "no rule, folding, comment or empty line";
    case DM_EMPTY_PATTERN: return "an empty pattern";
    case DM_LONG_PATTERN: return "a pattern over 16 bytes";
    case DM_MANY_ALTERNATIVES: return "a field with over 8 alternatives";
    case DM_NOT_DIGITS: return "an alternative that is not 0 to 6 digits";
    case DM_TOO_MANY: return "over 1,500 rules, or over 128 folded characters";
    case DM_SHORT_BUFFER: return "the buffer is shorter than the plate, or than the records found";
    case DM_NOT_A_PLATE: return "the plate is damaged or no plate";
    case DM_CHARACTER_NOT_ALLOWED: return "a character that is neither white space nor below U+0180 nor U+0400 to U+045F";
    case DM_ROOM_TOO_SMALL: return "the buffer is too small for the codes, or the name has over 64 codes at some step";
    case DM_NOT_AN_INDEX: return "no index, over 4,096 names in one, or no room for its entries or its report";
    default: return "a number that is not known here";
    }
}

/* number: as above. line: with 3 to 8 that of the refused item's first byte, 1 plus the newlines before it, else 0.
   length: bytes of the plate, 0 if refused. */
typedef struct {
    uint64_t number;
    uint64_t line;
    uint64_t length;
} dm_built;

/* number: as above. count: how many codes were written, 0 if refused. place: with 2 the byte of the name, from 0, at which the first
 * sequence begins that is not UTF-8, with 11 that of the first character that is not allowed, else 0. */
typedef struct {
    uint64_t number;
    uint64_t count;
    uint64_t place;
} dm_coded;

/* number: as above. length: how many bytes were written, 0 if refused. */
typedef struct {
    uint64_t number, length;
} dm_written;

/* number: as above. index_length, report_length: how many bytes of index and report are used now, 0 if refused. */
typedef struct {
    uint64_t number, index_length, report_length;
} dm_indexed;

/* Rule text to a plate, which the others read. `folding`: whether names are folded by the text's foldings. */
dm_built dm_build(const uint8_t *text, size_t text_len, bool folding, uint8_t *plate, size_t plate_len);

/* Whether these bytes are a plate: none of the calls below refuses them with 10. For plates that were kept or sent. */
bool dm_is_plate(const uint8_t *plate, size_t plate_len);

/* One code, six digits: that of the first alternative everywhere. */
dm_coded dm_encode(const uint8_t *plate, size_t plate_len, const uint8_t *name, size_t name_len, uint8_t *out, size_t out_len);

/* All codes, six digits each, a bar between two, no code twice.
 * Never sort the codes in place: their order is part of the answer. The first is the one that dm_encode gives. Who needs them sorted
 * sorts a copy. Room is measured on the branches, of which several may end in one code: a list may be refused by 12 although its codes
 * would fit. DM_LIST_MOST bytes hold every list. */
dm_coded dm_list(const uint8_t *plate, size_t plate_len, const uint8_t *name, size_t name_len, uint8_t *out, size_t out_len);

/* A whole list of names: up to DM_WARD_NAMES of them, each closed by a newline; a last one without newline counts if it is not empty.
 * Writes a line for each, closed by a newline: the codes that dm_list gives for it in DM_LIST_MOST bytes, or `!` and its refusal in two
 * digits. The plate is looked at once for all. Names are told apart by newlines alone: an empty line is the empty name, and a carriage
 * return belongs to its name, where it is white space. Whole lists are refused, and nothing written, by 10, then 1 for too many names,
 * then 12 for an `out` of less than DM_WARD_LINE bytes a name; a name is refused within its line, and the others are not touched by it. */
dm_written dm_ward(const uint8_t *plate, size_t plate_len, const uint8_t *names, size_t names_len, uint8_t *out, size_t out_len);

/* A code index of up to DM_RECORDS_MOST names, held as for dm_ward and numbered from 0: who shares a code with a name is found without
 * coding all names again. `index` gets an entry of DM_ENTRY_BYTES for each code of each name, most significant byte first: code times
 * 4,096 plus the name's number; entries rise strictly. `report` gets a byte a name: 0, or the number with which dm_list refuses it in
 * DM_LIST_MOST bytes; such a name has no entry. Refused, and nothing written, by 10, then by 18 for too many names or a buffer that is
 * too short for all entries or all names. DM_ENTRY_BYTES * DM_CODES_MOST bytes a name always do for the index. */
dm_indexed dm_index_make(const uint8_t *plate, size_t plate_len, const uint8_t *names, size_t names_len, uint8_t *index, size_t index_len,
                         uint8_t *report, size_t report_len);

/* One name more, where index and report stand: index_used and report_used bytes of the buffers are in use, and the name gets the number
 * report_used. It leaves what dm_index_make would have made of all names, by the same plate. A name that dm_list refuses is answered 0:
 * it has its number in the report, and no entry. Beside what dm_index_make refuses, 18 is given where more is used than there is, where
 * the bytes in use are no whole entries, do not rise strictly or hold a code above 999,999, and where an entry has a number that is not
 * below report_used. */
dm_indexed dm_index_add(const uint8_t *plate, size_t plate_len, const uint8_t *name, size_t name_len, uint8_t *index, size_t index_len,
                        size_t index_used, uint8_t *report, size_t report_len, size_t report_used);

/* The numbers of the names that share a code with this name, by the plate that the index was made by: two bytes each, most significant
 * first, rising, each once. `index` is what is used of it and nothing behind. Refused by 10, by 18 where it is no index, then as dm_list
 * refuses the name in DM_LIST_MOST bytes, last by 9 for an `out` that is too short; two bytes a name always do. */
dm_written dm_index_find(const uint8_t *plate, size_t plate_len, const uint8_t *index, size_t index_len, const uint8_t *name,
                         size_t name_len, uint8_t *out, size_t out_len);

#ifdef __cplusplus
}
#endif

#endif
