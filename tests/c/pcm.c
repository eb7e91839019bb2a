/* Whole numbers as samples: every value of 8 and of 16 bits and random ones of 24 and 32, beside C's own conversion to float; channels of
 * interleaved frames, in memory up to a page that nobody may touch; and the refusals, which leave the output. */
#include "check.h"

typedef uint32_t (*taking)(const uint8_t *, size_t, size_t, size_t, uint32_t *, size_t);

static const taking by_size[] = {netthimble_pcm_8, netthimble_pcm_16, netthimble_pcm_24, netthimble_pcm_32};

/* The whole number of `size` bytes, the lowest first, and its sample. */
static uint32_t expected(const uint8_t *bytes, size_t size) {
    int64_t number = 0, full = (int64_t)1 << (8 * size - 1);
    for (size_t i = 0; i < size; i++) number += (int64_t)bytes[i] << (8 * i);
    if (size == 1) number -= 128;
    else if (number >= full) number -= 2 * full;
    return netthimble_bits((float)((double)number / (double)full));
}

static uint32_t next(void) {
    static uint64_t state = 88172645463325252u;
    state ^= state << 13;
    state ^= state >> 7;
    state ^= state << 17;
    return (uint32_t)(state >> 16);
}

static void channels_of(size_t size, size_t channels, size_t frames, bool counts) {
    size_t len = size * channels * frames;
    uint8_t *bytes = (uint8_t *)lent_room(len);
    uint32_t *out = lent(frames, 7);
    size_t bad = 0;
    for (size_t i = 0; i < len; i++) bytes[i] = counts ? (uint8_t)(i / size >> (8 * (i % size))) : (uint8_t)next();
    for (size_t number = 0; number < channels; number++) {
        CHECK(by_size[size - 1](bytes, len, channels, number, out, frames) == 0);
        for (size_t i = 0; i < frames; i++) bad += out[i] != expected(bytes + size * (channels * i + number), size);
    }
    CHECK(bad == 0);
}

static void refused(size_t size) {
    uint8_t bytes[32 * 4 * 3] = {0};
    uint32_t *out = lent(4, 7);
    taking take = by_size[size - 1];
    CHECK(take(bytes, 3 * size, 0, 0, out, 3) == 1);
    CHECK(take(bytes, 33 * size, 33, 0, out, 1) == 1);
    CHECK(take(bytes, 3 * size, SIZE_MAX, 0, out, 3) == 1);
    CHECK(take(bytes, 3 * size, SIZE_MAX / 2 + 1, 0, out, 3) == 1);
    CHECK(take(bytes, 3 * size, 2, 2, out, 9) == 1); /* 1 before 3 before 8 */
    CHECK(size == 1 || take(bytes, 3 * size + 1, 1, 0, out, 3) == 1);
    CHECK(take(bytes, 4 * size, 2, 2, out, 3) == 3);
    CHECK(take(bytes, 4 * size, 2, SIZE_MAX, out, 2) == 3);
    CHECK(take(bytes, 4 * size, 2, 1, out, 3) == 8);
    CHECK(take(bytes, 4 * size, 2, 1, out, 1) == 8);
    CHECK(take(bytes, 4 * size, 2, 1, NULL, 0) == 8);
    CHECK(all(out, 0, 4, 7));
    CHECK(take(NULL, 0, 1, 0, NULL, 0) == 0);
    CHECK(take(NULL, 0, 32, 31, out, 0) == 0 && take(NULL, 0, 32, 32, out, 0) == 3 && take(NULL, 0, 32, 31, out, 1) == 8);
    CHECK(take(bytes, 32 * 3 * size, 32, 31, out, 3) == 0 && all(out, 0, 3, size == 1 ? 0xBF800000u : 0) && out[3] == 7);
}

/* A buffer's greatest number of frames, and one more. */
static void longest(void) {
    size_t most = 16777216;
    uint8_t *bytes = (uint8_t *)lent_room(most + 1);
    uint32_t *out = lent(most + 1, 7);
    CHECK(netthimble_pcm_8(bytes, most + 1, 1, 0, out, most + 1) == 1 && all(out, 0, most + 1, 7));
    CHECK(netthimble_pcm_8(bytes, most, 1, 0, out, most) == 0 && all(out, 0, most, 0xBF800000u) && out[most] == 7);
}

static void narrowed(void) {
    const double known[] = {0.0, -0.0, 1.0, 1.0 + 1.0 / 16777216, 1.0 + 3.0 / 16777216, -1e39, 3.4028234663852886e38, 4e38, 1e-46, -0.1};
    const uint32_t bits[] = {0, 0x80000000u, 0x3F800000u, 0x3F800000u, 0x3F800002u, 0xFF800000u, 0x7F7FFFFFu, 0x7F800000u, 0, 0xBDCCCCCDu};
    enum { COUNT = sizeof known / sizeof *known, MANY = 200000 };
    uint32_t *out = lent(COUNT, 7);
    CHECK(netthimble_narrow(known, COUNT, out, COUNT) == 0 && memcmp(out, bits, sizeof bits) == 0);
    double *values = (double *)lent_room(MANY * sizeof *values);
    size_t bad = 0;
    for (size_t i = 0; i < MANY; i++) values[i] = (double)(int32_t)next() / 2147483648.0 * (i % 3 == 0 ? 1e-38 : i % 3 == 1 ? 1.0 : 3.4e38) + (double)next() * 1e-20;
    out = lent(MANY, 7);
    CHECK(netthimble_narrow(values, MANY, out, MANY - 1) == 8 && netthimble_narrow(values, MANY - 1, out, MANY) == 8 && all(out, 0, MANY, 7));
    CHECK(netthimble_narrow(values, MANY, out, MANY) == 0 && netthimble_narrow(NULL, 0, NULL, 0) == 0);
    for (size_t i = 0; i < MANY; i++) bad += out[i] != netthimble_bits((float)values[i]);
    CHECK(bad == 0);
    values[0] = strtod("nan", NULL);
    CHECK(netthimble_narrow(values, 1, out, 1) == 0 && out[0] == 0x7FC00000u);
}

int main(void) {
    channels_of(1, 1, 256, true);
    channels_of(2, 1, 65536, true);
    for (size_t size = 1; size <= 4; size++) {
        channels_of(size, 1, 200000, false);
        channels_of(size, 1, 0, false);
        for (size_t channels = 2; channels <= 32; channels += channels < 8 ? 1 : 8) channels_of(size, channels, 999, false);
        refused(size);
    }
    longest();
    narrowed();
    printf("pcm: %d passed, %d failed\n", passed, failed);
    return failed != 0;
}
