/* Mending clip files from C: the record's bytes, what is altered of files that were cut and that grew, refusals by number and in their order,
 * and lent memory that stays. The expected bytes are worked out by hand. tests/c_cases.py builds and runs it. */
#include "check.h"

typedef void *(*mending)(void *, const uint8_t *, size_t, uint8_t *, size_t);

/* The frames 1 2 3 and 4 5 6 of two channels at 48,000, with the old header. */
static const uint8_t stereo[44] = {0x14, 0, 2, 0, 3, 0, 0, 0, 0, 0x80, 0x3B, 0x47, 0x14, 0, 0, 0, 0x20, 0, 0, 0, 1, 0,
                                   0,    0, 2, 0, 0, 0, 3, 0, 0, 0,    4,    0,    0,    0, 5, 0, 0,    0, 6, 0, 0, 0};

/* What is left of it without its last five bytes: two frames, and the second channel begins with what was the first one's third frame. */
static const uint8_t two_left[36] = {0x14, 0, 2, 0, 2, 0, 0, 0, 0, 0x80, 0x3B, 0x47, 0x14, 0, 0, 0, 0x1C, 0,
                                     0,    0, 1, 0, 0, 0, 2, 0, 0, 0,    3,    0,    0,    0, 4, 0, 0,    0};

/* Two frames of one channel at 48,000, with the onset 1. */
static const uint8_t onset[28] = {0x14, 0, 1, 0, 2, 0, 0, 0, 0, 0x80, 0x3B, 0x47, 1, 0, 0, 0, 0x14, 0, 0, 0, 0, 0, 0, 0, 0, 0, 0x80, 0x3F};

/* A copy of the first `len` bytes, up to a page that nobody may touch. */
static uint8_t *copied(const uint8_t *bytes, size_t len) {
    uint8_t *file = (uint8_t *)lent_room(len);
    memcpy(file, bytes, len);
    return file;
}

/* An output there, each byte A5. */
static uint8_t *filled(size_t len) {
    uint8_t *out = (uint8_t *)lent_room(len);
    memset(out, 0xA5, len);
    return out;
}

static bool is_filled(const uint8_t *out, size_t from, size_t to) {
    for (size_t i = from; i < to; i++)
        if (out[i] != 0xA5) return false;
    return true;
}

static bool marked(netthimble_marks m, bool frames, bool offsets, bool tail, bool lowered) {
    return m.frames == frames && m.offsets == offsets && m.tail == tail && m.onset == lowered;
}

/* The bytes of the record, of an accepted file and of a refused one. */
static void record(void) {
    size_t field[] = {0, 8, 16, 17, 18, 19, 20}, size[] = {8, 8, 1, 1, 1, 1, 4};
    mending mend = (mending)(any)netthimble_clip_mend;
    for (int refused = 0; refused < 2; refused++) {
        size_t len = refused ? 19 : 39;
        netthimble_mended r;
        uint8_t *file = copied(stereo, len), *out = filled(len);
        fill();
        CHECK(mend(one, file, len, out, len) == one && mend(two, file, len, out, len) == two);
        for (size_t i = 0; i < 7; i++) CHECK(written(field[i], size[i]));
        CHECK(untouched(sizeof r));
        memcpy(&r, one, sizeof r);
        if (refused) CHECK(r.refusal == 15 && r.length == 0 && r.tail_size == 0 && marked(r.marks, false, false, false, false));
        else CHECK(r.refusal == 0 && r.length == 36 && r.tail_size == 3 && marked(r.marks, true, true, true, false));
    }
}

/* What is mended of the first `len` bytes; the output behind it stays, and mending it once more alters nothing. */
static netthimble_mended mended(const uint8_t *bytes, size_t len, const uint8_t *expected, size_t expected_len) {
    uint8_t *file = copied(bytes, len), *out = filled(len), *again = filled(expected_len);
    netthimble_mended r = netthimble_clip_mend(file, len, out, len);
    CHECK(r.refusal == 0 && r.length == expected_len && r.length + r.tail_size == len);
    CHECK(memcmp(out, expected, expected_len) == 0 && is_filled(out, expected_len, len) && memcmp(file, bytes, len) == 0);
    CHECK(netthimble_clip_with_onset(out, r.length).refusal == 0);
    netthimble_mended more = netthimble_clip_mend(copied(out, r.length), r.length, again, r.length);
    CHECK(more.refusal == 0 && more.length == r.length && more.tail_size == 0 && marked(more.marks, false, false, false, false));
    CHECK(memcmp(again, expected, expected_len) == 0);
    return r;
}

static void files(void) {
    uint8_t bytes[60];
    CHECK(marked(mended(stereo, 44, stereo, 44).marks, false, false, false, false));
    CHECK(marked(mended(onset, 28, onset, 28).marks, false, false, false, false));
    CHECK(marked(mended(stereo, 39, two_left, 36).marks, true, true, true, false));
    CHECK(marked(mended(stereo, 36, two_left, 36).marks, true, true, false, false));
    memcpy(bytes, stereo, 44); /* three bytes more */
    memset(bytes + 44, 9, 16);
    CHECK(marked(mended(bytes, 47, stereo, 44).marks, false, false, true, false));
    uint8_t expected[60]; /* a frame more for each channel */
    memcpy(expected, bytes, 52);
    expected[4] = 4;
    expected[16] = 0x24;
    CHECK(marked(mended(bytes, 52, expected, 52).marks, true, true, false, false));
    memcpy(bytes, stereo, 44); /* an offset alone */
    bytes[19] = 1;
    CHECK(marked(mended(bytes, 44, stereo, 44).marks, false, true, false, false));
    memcpy(bytes, onset, 28); /* one frame is left, and the onset becomes it */
    bytes[4] = 1, bytes[12] = 0;
    CHECK(marked(mended(onset, 27, bytes, 24).marks, true, false, true, true));
    memcpy(bytes, onset, 28); /* an onset past the end */
    bytes[15] = 0xFF;
    CHECK(marked(mended(bytes, 28, onset, 28).marks, false, false, false, true));
}

/* A number, zeros beside it, and an output that stays; also where its length is another one, since 8 comes last. */
static void refused(uint32_t number, const uint8_t *bytes, size_t len) {
    uint8_t *file = copied(bytes, len), *out = filled(len + 1);
    for (size_t lent = len ? len - 1 : 0; lent <= len + 1; lent++) {
        netthimble_mended r = netthimble_clip_mend(file, len, out + len + 1 - lent, lent);
        CHECK(r.refusal == number && r.length == 0 && r.tail_size == 0 && marked(r.marks, false, false, false, false));
    }
    CHECK(is_filled(out, 0, len + 1) && memcmp(file, bytes, len) == 0);
}

static void refusals(void) {
    static uint8_t bytes[65537];
    refused(15, bytes, 0);
    for (size_t n = 0; n < 20; n++) refused(15, stereo, n);
    for (size_t n = 20; n < 28; n++) refused(NETTHIMBLE_NOTHING_LEFT, stereo, n);
    for (size_t n = 20; n < 24; n++) refused(21, onset, n);
    bytes[0] = 12; /* the header's length without channels: 1, also where the rate is wrong; 16,384 channels don't wrap it to the same */
    refused(NETTHIMBLE_SHAPE, bytes, 12);
    bytes[3] = 64;
    refused(15, bytes, 12);
    bytes[0] = 12 + 4 * 33, bytes[2] = 33, bytes[3] = 0;
    refused(15, bytes, 143);
    refused(1, bytes, 144);
    bytes[0] = 16 + 4 * 33;
    refused(1, bytes, 148);
    bytes[0] = 20, bytes[2] = 1; /* the rate 0: 2, also where nothing is left */
    refused(NETTHIMBLE_RATE, bytes, 20);
    refused(2, bytes, 65536);
    refused(15, bytes, 65537);
    memcpy(bytes, stereo, 44);
    for (size_t lent = 0; lent <= 50; lent++) {
        uint8_t *out = filled(50);
        netthimble_mended r = netthimble_clip_mend(bytes, 44, out + 50 - lent, lent);
        CHECK(r.refusal == (lent == 44 ? 0u : 8u) && (lent == 44 || is_filled(out, 0, 50)));
    }
    /* the longest file is mended: a tail of a byte */
    bytes[0] = 16, bytes[2] = 1;
    uint8_t *out = filled(65536);
    netthimble_mended r = netthimble_clip_mend(bytes, 65536, out, 65536);
    CHECK(r.refusal == 0 && r.length == 65536 && out[4] == 0xFC && out[5] == 0x3F);
    r = netthimble_clip_mend(bytes, 65535, out + 1, 65535);
    CHECK(r.refusal == 0 && r.length == 65532 && r.tail_size == 3 && out[5] == 0xFB && out[6] == 0x3F);
}

int main(void) {
    record();
    files();
    refusals();
    printf("mending: %d passed, %d failed\n", passed, failed);
    return failed != 0;
}
