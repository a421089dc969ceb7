/* Where a refused name is bad, from both calls. */
#include "check.h"

static void at(const char *name, size_t name_len, uint64_t number, uint64_t place) {
    refused_at(dm_list, name, name_len, number, place);
    refused_at(dm_encode, name, name_len, number, place);
}

void places(void) {
    char name[DM_NAME_MOST + 2] = "";
    memset(name, 'r', DM_NAME_MOST + 1);
    at("a\xE2\x82" "a", 4, DM_NOT_TEXT, 1);
    at("\xC6\x80\xFF", 3, DM_NOT_TEXT, 2);
    at("rr\xED\xA0\x80", 5, DM_NOT_TEXT, 2);
    at("\xC3", 1, DM_NOT_TEXT, 0);
    at("ab\xC6\x80", 4, DM_CHARACTER_NOT_ALLOWED, 2);
    at("\xE2\x80\x83\xD1\xA0", 5, DM_CHARACTER_NOT_ALLOWED, 3);
    at(name, DM_NAME_MOST + 1, DM_TOO_LONG, 0);
    name[DM_NAME_MOST - 1] = '\xC3';
    at(name, DM_NAME_MOST, DM_NOT_TEXT, DM_NAME_MOST - 1);
    plate[0] = 2;
    at("ab\xC6\x80", 4, DM_NOT_A_PLATE, 0);
    plate[0] = 1;
}
