/* The header and the archive, as a caller in C and in C++ meets them. */
#include "check.h"

const char S[] =
    "\xC3\xA0=a\n"
    "\"a\" \"0\" \"\" \"\"\n\"o\" \"0\" \"\" \"\"\n\"ie\" \"1\" \"\" \"\"\n"
    "\"ch\" \"4|5\" \"4|5\" \"4|5\"\n\"c\" \"4|5\" \"4|5\" \"4|5\"\n"
    "\"r\" \"9\" \"9\" \"9\"\n\"s\" \"4\" \"4\" \"4\"\n\"w\" \"7\" \"7\" \"7\"\n"
    "\"m\" \"6\" \"6\" \"6\"\n\"n\" \"6\" \"6\" \"6\"\n\"h\" \"5\" \"5\" \"\"\n";

uint8_t plate[DM_PLATE_MOST];
size_t plate_len;

#ifdef __cplusplus
static const char language[] = "C++";
#else
static const char language[] = "C";
#endif
static int checks, failed;

void expect(bool held, const char *what, const char *of) {
    checks += 1;
    if (!held) {
        failed += 1;
        printf("%s: failed: %s of '%s'\n", language, what, of);
    }
}

const uint8_t *bytes(const char *text) { return (const uint8_t *)text; }

bool painted(const uint8_t *from, size_t length) {
    for (size_t i = 0; i < length; i++) {
        if (from[i] != PAINT) return false;
    }
    return true;
}

size_t build(const char *text, bool folding, uint8_t *to) {
    memset(to, PAINT, DM_PLATE_MOST);
    dm_built r = dm_build(bytes(text), strlen(text), folding, to, DM_PLATE_MOST);
    expect(r.number == DM_ANSWERED && r.line == 0, "build", text);
    expect(painted(to + r.length, DM_PLATE_MOST - r.length), "bytes behind the plate", text);
    return r.length;
}

void build_refused(const char *text, size_t text_len, size_t room, uint64_t number, uint64_t line) {
    static uint8_t out[DM_PLATE_MOST];
    const char *shown = text_len < 100 ? text : "a long text";
    memset(out, PAINT, sizeof out);
    dm_built r = dm_build(bytes(text), text_len, true, out, room);
    expect(r.number == number && r.line == line, "number and line", shown);
    expect((r.length == 0) == (number != DM_ANSWERED), "length", shown);
    expect(painted(out + r.length, sizeof out - r.length), "bytes behind", shown);
}

static void answered(coder *call, const char *name, size_t name_len, size_t room, const char *codes, uint64_t number, uint64_t place) {
    uint8_t out[1024];
    memset(out, PAINT, sizeof out);
    dm_coded r = call(plate, plate_len, bytes(name), name_len, out, room);
    size_t length = codes == NULL ? 0 : strlen(codes);
    expect(r.number == number && r.place == place, "number and place", name);
    expect(r.count == (length + 1) / DM_CODE_STEP, "count", name);
    expect(length == 0 || memcmp(out, codes, length) == 0, "codes", name);
    expect(painted(out + length, sizeof out - length), "bytes behind the codes", name);
}

void coded(coder *call, const char *name, size_t name_len, size_t room, const char *codes, uint64_t number) {
    answered(call, name, name_len, room, codes, number, 0);
}

void refused_at(coder *call, const char *name, size_t name_len, uint64_t number, uint64_t place) {
    answered(call, name, name_len, DM_LIST_MOST, NULL, number, place);
}

int main(void) {
    plate_len = build(S, true, plate);
    examples();
    refusals();
    places();
    limits();
    plates();
    wards();
    pages();
    index_edges();
    words();
    printf("%s: %d checks, %d failed\n", language, checks, failed);
    return failed == 0 ? 0 : 1;
}
