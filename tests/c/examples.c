/* Document 01's examples under its small text S. */
#include "check.h"

static void listed(const char *name, const char *codes) { coded(dm_list, name, strlen(name), DM_LIST_MOST, codes, DM_ANSWERED); }

void examples(void) {
    static uint8_t flat[DM_PLATE_MOST];
    listed("", "000000");
    listed("mm", "600000");
    listed("mn", "660000");
    listed("nm", "660000");
    listed("mon", "660000");
    listed("xh", "500000");
    listed("ih", "000000");
    listed("rh", "900000");
    listed("rha", "950000");
    listed("cc", "400000|450000|540000|500000");
    listed("rwrwrwc", "979797");
    listed("\xC3\x80r", "090000");
    listed("r\xE2\x80\x83h", "900000");
    listed("Rosochowaciec", "944744|944745|944754|944755|945744|945745|945754|945755");
    coded(dm_encode, "Rosochowaciec", 13, DM_ENCODE_MOST, "944744", DM_ANSWERED);
    coded(dm_encode, "cc", 2, DM_LIST_MOST, "400000", DM_ANSWERED);

    uint8_t out[DM_ENCODE_MOST];
    size_t flat_len = build(S, false, flat);
    dm_coded r = dm_list(flat, flat_len, bytes("\xC3\x80r"), 3, out, sizeof out);
    expect(r.number == DM_ANSWERED && r.count == 1 && memcmp(out, "900000", 6) == 0, "flag off", "\xC3\x80r");
}
