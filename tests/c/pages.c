/* Plates, names and buffers that end where a page ends, with a page behind them that nobody may touch: a call that reads or writes one byte past the
 * end of what it was lent ends the test. The proofs say that none does; here it is tried as if they did not. */
#define _DEFAULT_SOURCE
#include <sys/mman.h>
#include <sys/wait.h>
#include <unistd.h>

#include "check.h"

#define CALLS 100000
#define ROOM ((size_t)1 << 18)

/* Memory of ROOM bytes that ends at a page nobody may touch. */
static uint8_t *guarded(void) {
    size_t page = (size_t)sysconf(_SC_PAGESIZE);
    uint8_t *from = (uint8_t *)mmap(NULL, ROOM + page, PROT_READ | PROT_WRITE, MAP_PRIVATE | MAP_ANONYMOUS, -1, 0);
    if (from == MAP_FAILED || mprotect(from + ROOM, page, PROT_NONE) != 0) return NULL;
    return from;
}

/* These bytes, moved to the end. */
static uint8_t *at_end(uint8_t *room, const uint8_t *from, size_t length) {
    uint8_t *to = room + ROOM - length;
    if (length > 0) memcpy(to, from, length);
    return to;
}

static uint64_t state = 88172645463325252u;

static size_t below(size_t limit) {
    state ^= state << 13;
    state ^= state >> 7;
    state ^= state << 17;
    return (size_t)(state % limit);
}

/* A plate: whole, cut short, lengthened, or with some bits turned. */
static size_t some_plate(uint8_t *to) {
    bool standard = below(2) == 0;
    size_t length = standard ? sizeof dm_standard_plate : plate_len;
    memcpy(to, standard ? dm_standard_plate : plate, length);
    size_t way = below(8);
    if (way == 0) length = below(length + 1);
    if (way == 1) to[length++] = (uint8_t)below(256);
    if (way == 2) {
        for (size_t n = 1 + below(3); n > 0; n--) to[below(length)] ^= (uint8_t)(1u << below(8));
    }
    if (way == 3) to[length - 1 - below(length < 40 ? length : 40)] ^= (uint8_t)(1u << below(8));
    return length;
}

/* A name: letters that the rules know, with umlauts and Cyrillic among them, seldom any bytes. */
static size_t some_name(uint8_t *to) {
    static const char letters[] = "abcdefghijklmnopqrstuvwxyzaeiouschtzrn \xC3\xA4\xC3\xB6\xC5\x82\xD1\x88\xD0\x96";
    size_t length = below(16) == 0 ? below(DM_NAME_MOST + 4) : below(14);
    bool any = below(16) == 0;
    for (size_t i = 0; i < length; i++) to[i] = any ? (uint8_t)below(256) : (uint8_t)letters[below(sizeof letters - 1)];
    return length;
}

/* One call with all it is lent at the ends of pages, and once more in the middle of nowhere: the same answer. */
static bool same_answer(uint8_t *rooms[3]) {
    static uint8_t by[DM_PLATE_MOST + 1], name[DM_NAME_MOST + 4], out[2 * DM_WARD_LINE], lent[2 * DM_WARD_LINE];
    size_t by_len = some_plate(by), name_len = some_name(name);
    size_t call = below(4), room = call == 3 ? sizeof out : below(DM_LIST_MOST + 2);
    memset(out, PAINT, sizeof out);
    memcpy(lent, out, sizeof lent);
    const uint8_t *by_end = at_end(rooms[0], by, by_len), *name_end = at_end(rooms[1], name, name_len);
    uint8_t *out_end = at_end(rooms[2], lent, room);
    bool same = dm_is_plate(by_end, by_len) == dm_is_plate(by, by_len);
    if (call == 3) {
        dm_written a = dm_ward(by, by_len, name, name_len, out, room), b = dm_ward(by_end, by_len, name_end, name_len, out_end, room);
        same = same && a.number == b.number && a.length == b.length;
    } else {
        coder *coding = call == 0 ? dm_encode : dm_list;
        dm_coded a = coding(by, by_len, name, name_len, out, room), b = coding(by_end, by_len, name_end, name_len, out_end, room);
        same = same && a.number == b.number && a.count == b.count && a.place == b.place;
    }
    return same && (room == 0 || memcmp(out, out_end, room) == 0);
}

/* That the page behind is watched at all: a process of its own reads a byte of it, and is ended for that. */
static bool watched(const uint8_t *room) {
    int status = 0;
    pid_t child = fork();
    if (child == 0) {
        volatile uint8_t byte = room[ROOM];
        _exit(byte == 0 ? 0 : 1);
    }
    return child > 0 && waitpid(child, &status, 0) == child && WIFSIGNALED(status);
}

void pages(void) {
    uint8_t *rooms[3] = {guarded(), guarded(), guarded()};
    expect(rooms[0] != NULL && rooms[1] != NULL && rooms[2] != NULL, "memory", "three rooms");
    if (rooms[0] == NULL || rooms[1] == NULL || rooms[2] == NULL) return;
    expect(watched(rooms[0]) && watched(rooms[1]) && watched(rooms[2]), "a read past the end is noticed", "three rooms");
    size_t same = 0;
    for (size_t i = 0; i < CALLS; i++) same += same_answer(rooms) ? 1 : 0;
    expect(same == CALLS, "answers", "plates, names and buffers at the ends of pages");
}
