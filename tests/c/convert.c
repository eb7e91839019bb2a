/* Conversions beside a reading of their rule (docs/REFERENCE.md, 'Conversion'), with the processor's floats: known cases, and random shapes, rates, frames and
 * tolerances. Use: convert [SEED [COUNT]]. Prints what differs, and a line of counts. tests/c_cases.py builds it with -ffp-contract=off and runs it. */
#include <inttypes.h>
#include <math.h>
#include <stdio.h>
#include <stdlib.h>
#include "netthimble.h"

enum { MOST_FRAMES = 16777216, MOST_WORDS = 60000, NAN_BITS = 0x7FC00000, UNTOUCHED = 0x5A5A5A5A };

static int passed, failed;
static uint64_t state, changes, singles, held, relabelled;

/* Those that a conversion is handed. With the defaults the calls without tolerances are made too. */
static netthimble_tolerances tolerances;
static bool by_default;

/* ---- the reading */

static bool is_rate(float rate) {
    return 3000.0f <= rate && rate <= 768000.0f;
}

static bool only_relabels(netthimble_shape s, float rate) {
    return fabsf(s.rate - rate) <= tolerances.relabel || s.frames == 0;
}

/* The refusal's number, or 0 and the result's frames. */
static uint32_t read_shape(netthimble_shape s, float rate, size_t *frames) {
    if (s.channels < 1 || s.channels > 32 || s.frames > MOST_FRAMES) return 1;
    if (!is_rate(s.rate) || !is_rate(rate)) return 2;
    double length = only_relabels(s, rate) ? (double)s.frames : ceil((double)s.frames * ((double)rate / (double)s.rate));
    if (length > MOST_FRAMES) return 7;
    *frames = (size_t)length;
    return 0;
}

/* The frame at a position: past the last one its bits, else the two beside it, weighted. */
static uint32_t read_at(const uint32_t *frames, size_t count, double position) {
    size_t last = count - 1;
    if (position > (double)last) {
        held++;
        return frames[last];
    }
    double at = floor(position);
    size_t frame = (size_t)at, next = frame < last ? frame + 1 : last;
    float k = (float)(position - at), rest = 1.0f - k;
    float one = rest * netthimble_float(frames[frame]), other = k * netthimble_float(frames[next]);
    float sum = one + other;
    return isnan(sum) ? (uint32_t)NAN_BITS : netthimble_bits(sum);
}

static uint32_t read_frame(netthimble_shape s, const uint32_t *channel, float rate, size_t i) {
    return only_relabels(s, rate) ? channel[i] : read_at(channel, s.frames, (double)i * (double)s.rate / (double)rate);
}

/* ---- the library beside it */

static void check(bool ok, const char *what, netthimble_shape s, float rate, size_t at) {
    if (ok) passed++;
    else if (failed++ < 20)
        printf("convert: %s: %zu x %zu at %08" PRIX32 " to %08" PRIX32 ", %zu\n", what, s.channels, s.frames, netthimble_bits(s.rate), netthimble_bits(rate), at);
}

static uint32_t *words_of(size_t count, uint32_t value) {
    uint32_t *words = (uint32_t *)malloc(4 * count + 4);
    if (words == NULL) exit(3);
    for (size_t i = 0; i < count; i++) words[i] = value;
    return words;
}

static bool is_shape(netthimble_shaped r, netthimble_shape s, float rate, size_t frames) {
    return r.refusal == 0 && r.shape.channels == s.channels && r.shape.frames == frames && netthimble_bits(r.shape.rate) == netthimble_bits(rate);
}

/* The first word of the result that is not the reading's, or its length. */
static size_t first_other(netthimble_shape s, const uint32_t *samples, float rate, const uint32_t *out, size_t frames) {
    for (size_t c = 0; c < s.channels; c++)
        for (size_t i = 0; i < frames; i++)
            if (out[c * frames + i] != read_frame(s, samples + c * s.frames, rate, i)) return c * frames + i;
    return s.channels * frames;
}

static netthimble_shaped shape_of(netthimble_shape s, size_t len, float rate) {
    return by_default ? netthimble_converted_shape(s, len, rate) : netthimble_converted_shape_with(s, len, rate, tolerances);
}

static netthimble_shaped converted(netthimble_shape s, const uint32_t *samples, size_t len, float rate, uint32_t *out, size_t out_len) {
    return by_default ? netthimble_convert(s, samples, len, rate, out, out_len) : netthimble_convert_with(s, samples, len, rate, tolerances, out, out_len);
}

/* One conversion, refused or not: the shape's call, the call with an output of another length, and the call itself. */
static void compare(netthimble_shape s, const uint32_t *samples, float rate) {
    size_t len = s.channels * s.frames, frames = 0;
    uint32_t refusal = read_shape(s, rate, &frames);
    netthimble_shaped r = shape_of(s, len, rate);
    if (refusal != 0) {
        uint32_t word = UNTOUCHED;
        check(r.refusal == refusal && r.shape.channels == 0 && r.shape.frames == 0, "refused shape", s, rate, r.refusal);
        r = converted(s, samples, len, rate, &word, 1);
        check(r.refusal == refusal && word == UNTOUCHED, "refused", s, rate, r.refusal);
        return;
    }
    check(is_shape(r, s, rate, frames), "shape", s, rate, r.shape.frames);
    size_t made = s.channels * frames;
    uint32_t *out = words_of(made + 2, UNTOUCHED);
    check(converted(s, samples, len, rate, out + 1, made + 1).refusal == 8 && out[1] == UNTOUCHED, "8", s, rate, made + 1);
    r = converted(s, samples, len, rate, out + 1, made);
    check(is_shape(r, s, rate, frames), "shape of the result", s, rate, r.shape.frames);
    size_t at = first_other(s, samples, rate, out + 1, frames);
    check(at == made, "word", s, rate, at);
    check(out[0] == UNTOUCHED && out[made + 1] == UNTOUCHED, "beside the output", s, rate, made);
    changes += !only_relabels(s, rate);
    singles += !only_relabels(s, rate) && frames == 1;
    relabelled += only_relabels(s, rate) && s.frames > 0 && fabsf(s.rate - rate) > 0.1f;
    free(out);
}

static netthimble_shape shape(size_t channels, size_t frames, float rate) {
    netthimble_shape s;
    s.channels = channels;
    s.frames = frames;
    s.rate = rate;
    return s;
}

/* ---- known cases, worked by hand */

static void known(size_t frames, const uint32_t *samples, float source, float target, size_t made, const uint32_t *expected) {
    netthimble_shape s = shape(1, frames, source);
    uint32_t *out = words_of(made, UNTOUCHED);
    netthimble_shaped r = netthimble_convert(s, samples, frames, target, out, made);
    check(is_shape(r, s, target, made) && memcmp(out, expected, 4 * made) == 0, "a known case", s, target, r.refusal);
    compare(s, samples, target);
    free(out);
}

static void all_known(void) {
    const uint32_t up[] = {0, 0x40400000}, doubled[] = {0, 0x3FC00000, 0x40400000, 0x40400000}, one[] = {0x40400000}, three[] = {0x40400000, 0x40400000};
    const uint32_t wave[] = {0x3F800000, 0xC0000000, 0x40400000}, payload[] = {0x3F800000, 0x40400000, 0x7F800001};
    const uint32_t past[] = {0x3F800000, 0x40000000, NAN_BITS, NAN_BITS, NAN_BITS, 0x7F800001};
    const uint32_t minus[] = {0x3F800000, 0x80000000}, zeros[] = {0x3F800000, 0x3F000000, 0x80000000, 0x80000000};
    known(2, up, 24000.0f, 48000.0f, 4, doubled);    /* 0, 3: 0, 1.5, 3, 3 */
    known(2, doubled + 2, 48000.0f, 24000.0f, 1, one); /* one frame, read at 0 */
    known(3, wave, 48000.0f, 16000.0f, 1, wave);
    known(3, wave, 48000.0f, 3000.0f, 1, wave);
    known(1, one, 48000.0f, 44100.0f, 1, one);
    known(1, one, 24000.0f, 48000.0f, 2, three);     /* at 0.5, past the only frame */
    known(3, payload, 24000.0f, 48000.0f, 6, past);  /* a NaN at N - 1, its own bits at N - 1/2 */
    known(2, minus, 24000.0f, 48000.0f, 4, zeros);   /* at 1 the weights give -0 + 0 x -0 = -0 */
    known(2, payload + 1, 48000.0f, 48000.09375f, 2, payload + 1); /* relabelled: every bit */
}

/* ---- random ones */

static uint64_t draw(uint64_t below) {
    state ^= state << 13;
    state ^= state >> 7;
    state ^= state << 17;
    return (state >> 11) % below;
}

/* A rate a few f32 patterns away; it may be refused. */
static float beside(float rate) {
    return netthimble_float(netthimble_bits(rate) + (uint32_t)draw(5) - 2);
}

static float any_rate(void) {
    static const float ordinary[] = {3000, 8000, 11025, 16000, 22050, 24000, 32000, 44100, 48000, 88200, 96000, 192000, 768000};
    static const uint32_t odd[] = {0x7FC00000, 0x7F800000, 0, 0xC73B8000, 0x453B7FFF, 0x493B8001, 1};
    uint64_t kind = draw(40);
    if (kind < 18) return ordinary[draw(sizeof ordinary / sizeof *ordinary)];
    if (kind == 18) return netthimble_float(odd[draw(sizeof odd / sizeof *odd)]);
    return netthimble_float(0x453B8000 + (uint32_t)draw(0x493B8001 - 0x453B8000));
}

/* A rate for a buffer: another one; a whole multiple or part, or beside one, so that frames are read on, just below and just above one; or one
 * about 0.1 away. */
static float other_rate(netthimble_shape s) {
    float times = (float)(2 + draw(7));
    switch (draw(6)) {
    case 0: return beside(s.rate * times);
    case 1: return beside(s.rate / times);
    case 2: return s.frames > 0 ? beside(s.rate / (float)s.frames) : s.rate;
    case 3: return s.rate + ((float)draw(2001) - 1000.0f) / 4096.0f;
    default: return any_rate();
    }
}

/* Tolerances for a conversion: the relabel distance is the rates' own, or beside it, or any, and the near tolerances are no matter. */
static void draw_tolerances(float difference) {
    static const float ordinary[] = {0, -0.0f, 1, 0.1f, 0.5f, 8.6736174e-19f, 1.4e-45f};
    netthimble_tolerances made = netthimble_default_options().tolerances;
    by_default = draw(2) == 0;
    float relabel = ordinary[draw(7)];
    if (draw(2) == 0) relabel = draw(2) == 0 ? difference : nextafterf(difference, draw(2) == 0 ? 0.0f : INFINITY);
    if (!by_default && netthimble_tolerances_set(&made, draw(3) / 2.0, draw(3) / 2.0, relabel) != 0)
        netthimble_tolerances_set(&made, draw(3) / 2.0, draw(3) / 2.0, ordinary[draw(7)]);
    tolerances = made;
}

static uint32_t any_frame(uint64_t kind) {
    static const uint32_t special[] = {0, 0x80000000, 1, 0x80000001, 0x007FFFFF, 0x00800000, 0x7F7FFFFF, 0xFF7FFFFF, 0x7F800000, 0xFF800000,
                                       0x7FC00000, 0xFFC12345, 0x7F800001, 0xFFBFFFFF, 0x7FFFFFFF, 0x3F800000, 0xBF800000, 0x33800000};
    if (kind == 0) return (uint32_t)draw(1ull << 32);
    if (kind == 1 && draw(2) == 0) return special[draw(sizeof special / sizeof *special)];
    return netthimble_bits((float)((double)draw(1ull << 32) / 2147483648.0 - 1.0));
}

static void random_one(void) {
    static const size_t channels[] = {1, 1, 1, 1, 2, 2, 3, 8, 32};
    netthimble_shape s = shape(channels[draw(9)], draw(3) == 0 ? draw(400) : draw(8), any_rate());
    float rate = other_rate(s);
    if (draw(100) == 0) s.channels = draw(2) == 0 ? 0 : 33;
    draw_tolerances(fabsf(s.rate - rate));
    size_t frames;
    if (read_shape(s, rate, &frames) == 0 && s.channels * frames > MOST_WORDS) s.frames = 2;
    uint64_t kind = draw(4);
    uint32_t *samples = words_of(s.channels * s.frames, 0);
    for (size_t i = 0; i < s.channels * s.frames; i++) samples[i] = any_frame(kind);
    for (size_t c = 0; c < s.channels && s.frames > 0 && draw(2) == 0; c++) samples[s.frames * (c + 1) - 1] = any_frame(1);
    compare(s, samples, rate);
    free(samples);
}

/* The longest buffer there may be, and a result that is one frame too long. */
static void longest(void) {
    uint32_t *samples = words_of(MOST_FRAMES, 0);
    for (size_t i = 0; i < MOST_FRAMES; i++) samples[i] = any_frame(2);
    compare(shape(1, MOST_FRAMES, 48000.0f), samples, 47999.5f);
    compare(shape(1, MOST_FRAMES / 2, 24000.0f), samples, 48000.0f);
    compare(shape(1, MOST_FRAMES / 2, 24000.0f), samples, 48000.00390625f);
    free(samples);
}

int main(int argc, char **argv) {
    state = argc > 1 ? strtoull(argv[1], NULL, 10) * 2 + 1 : 1;
    long count = argc > 2 ? atol(argv[2]) : 20000;
    tolerances = netthimble_default_options().tolerances;
    by_default = true;
    all_known();
    longest();
    for (long i = 0; i < count; i++) random_one();
    printf("convert: %d passed, %d failed; %" PRIu64 " real changes, %" PRIu64 " to one frame, %" PRIu64 " frames past the last, ", passed, failed, changes, singles, held);
    printf("%" PRIu64 " relabelled over 0.1 apart\n", relabelled);
    return failed != 0;
}
