/* What desk's and ward's work costs without them. `names make N` writes N made surnames, a line each; `names` answers the lines of standard input as desk does;
 * `names ward` only makes ward's calls, 128 names each, and tells how many bytes they wrote. */
#include <stdio.h>
#include <stdlib.h>
#include <string.h>
#include "zengilvar.h"
#include "zengilvar_standard.h"

static void make(long n) {
    static const char *const first[] = {"Ros", "Mosk", "Schw", "Cie", "Ber", "Gold", "Pet", "Jach", "Wein", "Kra", "Lew", "Och"};
    static const char *const middle[] = {"o", "ie", "a", "owa", "en", "ar", "itz", "el"};
    static const char *const last[] = {"vitz", "ski", "rs", "mann", "berg", "chowiec", "witz", "stein", "er", "cz"};
    unsigned long seed = 1;
    while (n-- > 0) {
        seed = (seed * 1103515245u + 12345u) & 0x7fffffffu;
        printf("%s%s%s\n", first[seed / 65536 % 12], middle[seed / 256 % 8], last[seed / 4096 % 10]);
    }
}

/* The place behind up to `most` lines. */
static size_t lines_end(const char *from, const char *end, int most) {
    const char *at = from;
    while (most-- > 0 && at < end) at = (const char *)memchr(at, '\n', (size_t)(end - at)) + 1;
    return (size_t)(at - from);
}

static int ward(void) {
    static char names[1 << 25];
    static uint8_t out[128 * DM_WARD_LINE];
    unsigned long long written = 0;
    const char *at = names, *end = names + fread(names, 1, sizeof names, stdin);
    while (at < end) {
        size_t n = lines_end(at, end, 128);
        dm_written w = dm_ward(dm_standard_plate, sizeof dm_standard_plate, (const uint8_t *)at, n, out, sizeof out);
        if (w.number != DM_ANSWERED) return 1;
        written += w.length;
        at += n;
    }
    printf("%llu\n", written);
    return 0;
}

int main(int argc, char **argv) {
    char line[1024];
    uint8_t out[DM_LIST_MOST];
    if (argc == 3 && strcmp(argv[1], "make") == 0) {
        make(atol(argv[2]));
        return 0;
    }
    if (argc == 2 && strcmp(argv[1], "ward") == 0) return ward();
    while (fgets(line, sizeof line, stdin)) {
        size_t n = strcspn(line, "\n");
        dm_coded c = dm_list(dm_standard_plate, sizeof dm_standard_plate, (const uint8_t *)line, n, out, sizeof out);
        if (c.number != DM_ANSWERED) return 1;
        printf("%.*s: shelf %.6s, search %.*s\n", (int)n, line, (const char *)out, (int)(DM_CODE_STEP * c.count - 1), (const char *)out);
    }
    return 0;
}
