/* Ramps from C: the players that are made with one, and those that are refused; what the calls do to its count and to W; the samples, beside a
 * reading in float; and records that no call made. tests/c_cases.py builds and runs it. */
#include <math.h>
#include "check.h"

enum { FRAMES = NETTHIMBLE_FRAMES, LONGEST = 48000 };

static const double RATE = 48000.0;

static netthimble_options options(size_t ramp) {
    netthimble_options o = netthimble_default_options();
    o.ramp = ramp;
    return o;
}

/* The ramp's fields; the seven bytes behind the bool are anything. */
static bool is_ramp(netthimble_ramp r, size_t length, uint64_t count, bool has_stop_sample, uint64_t stop_sample) {
    return r.length == length && r.count == count && r.has_stop_sample == has_stop_sample && r.stop_sample == stop_sample;
}

static netthimble_player with_ramp(size_t ramp) {
    netthimble_player p = zeroed();
    CHECK(netthimble_player_new_with(&p, (float)RATE, options(ramp)) == 0 && is_ramp(p.ramp, ramp, 0, false, 0));
    return p;
}

/* One channel of `frames` frames, looped, started at `when`. */
static netthimble_player begun(size_t ramp, const uint32_t *samples, size_t frames, double when) {
    netthimble_player p = with_ramp(ramp);
    CHECK(netthimble_player_set_buffer(&p, 1, frames, (float)RATE, samples, frames) == 0);
    CHECK(netthimble_player_start(&p, when, 0, NETTHIMBLE_NEVER) == 0 && netthimble_player_loop(&p, true) == 0);
    CHECK(is_ramp(p.ramp, ramp, 0, false, 0));
    return p;
}

/* ---- making */

static void players(void) {
    size_t good[] = {0, 1, 2, 127, 128, 129, 1000, LONGEST}, bad[] = {LONGEST + 1, 65536, (size_t)1 << 32, (size_t)1 << 53, SIZE_MAX};
    float bad_rate[] = {0.0f, 2999.0f, 768001.0f, NAN, INFINITY};
    netthimble_player plain = netthimble_new((float)RATE).player, nobody = netthimble_new(NAN).player;
    CHECK(netthimble_default_options().ramp == 0 && is_ramp(plain.ramp, 0, 0, false, 0) && is_ramp(nobody.ramp, 0, 0, false, 0));
    CHECK(netthimble_options_size() == sizeof(netthimble_options) && netthimble_player_size() == sizeof(netthimble_player) && netthimble_fits());
    CHECK(NETTHIMBLE_RAMP == 19);
    for (size_t i = 0; i < sizeof good / sizeof *good; i++) {
        netthimble_player p = with_ramp(good[i]), q = p;
        netthimble_told t = netthimble_new_with((float)RATE, options(good[i]));
        CHECK(t.refusal == 0 && same(&t.player, &p) && same(&p, &plain) == (good[i] == 0));
        q.ramp.length = 0;
        CHECK(same(&q, &plain));
    }
    for (size_t i = 0; i < sizeof bad / sizeof *bad; i++) {
        netthimble_player p, before;
        memset(&p, 1, sizeof p);
        memcpy(&before, &p, sizeof p);
        netthimble_told t = netthimble_new_with((float)RATE, options(bad[i]));
        CHECK(t.refusal == 19 && same(&t.player, &nobody));
        CHECK(netthimble_player_new_with(&p, (float)RATE, options(bad[i])) == 19 && memcmp(&p, &before, sizeof p) == 0);
        for (size_t k = 0; k < sizeof bad_rate / sizeof *bad_rate; k++) {
            t = netthimble_new_with(bad_rate[k], options(i % 2 ? bad[i] : good[i]));
            CHECK(t.refusal == 2 && same(&t.player, &nobody));
            CHECK(netthimble_player_new_with(&p, bad_rate[k], options(bad[i])) == 2 && memcmp(&p, &before, sizeof p) == 0);
        }
    }
}

/* ---- what the calls do to it */

/* Messages and refused calls leave it, and so do previews; a block counts its samples. */
static void calls(void) {
    uint32_t one_frame = 0x3F800000, *out = lent(4096, 7);
    netthimble_player p = with_ramp(300);
    CHECK(netthimble_player_stop(&p, 1) == 11 && netthimble_player_process(&p, out, 4096, NULL, 0, 0, 1, 1).refusal == 0);
    CHECK(netthimble_player_start(&p, 1, 0, NETTHIMBLE_NEVER) == 0 && netthimble_player_stop(&p, 2) == 0);
    CHECK(netthimble_player_set_buffer(&p, 1, 1, (float)RATE, &one_frame, 1) == 0 && netthimble_player_loop(&p, true) == 0);
    CHECK(netthimble_player_process(&p, out, 4096, &one_frame, 1, 0.5, 1, 1).refusal == 0 && is_ramp(p.ramp, 300, 0, false, 0));
    for (int n = 0; n < 4; n++) {
        double time = 1 + n * FRAMES / RATE;
        netthimble_player before = p;
        CHECK(netthimble_player_preview(&p, out, 4096, &one_frame, 1, time, 1, 1).refusal == 0 && same(&p, &before));
        CHECK(netthimble_player_preview_cents(&p, out, 4096, &one_frame, 1, time, 1, 50).refusal == 0 && same(&p, &before));
        CHECK(netthimble_player_process(&p, out, 4095, &one_frame, 1, time, 1, 1).refusal == 8 && same(&p, &before));
        CHECK(netthimble_player_process(&p, out, 4096, &one_frame, 1, NAN, 1, 1).refusal == 13 && same(&p, &before));
        CHECK(netthimble_player_process_cents(&p, out, 4096, &one_frame, 1, time, 1, 12001).refusal == 16 && same(&p, &before));
        CHECK(netthimble_player_process(&p, out, 4096, &one_frame, 1, time, NAN, 1).refusal == 14 && same(&p, &before));
        CHECK(netthimble_player_process(&p, out, 4096, &one_frame, 0, time, 1, 1).refusal == 1 && same(&p, &before));
        CHECK(netthimble_player_stop(&p, -1) == 9 && netthimble_player_start(&p, 1, 0, 1) == 10 && same(&p, &before));
        CHECK((n % 2 ? netthimble_player_process_cents(&p, out, 4096, &one_frame, 1, time, 1, 50)
                     : netthimble_player_process(&p, out, 4096, &one_frame, 1, time, 1, 1)).refusal == 0);
        CHECK(is_ramp(p.ramp, 300, (uint64_t)FRAMES * (uint64_t)(n + 1), true, 48000));
    }
    CHECK(netthimble_player_loop_start(&p, 0) == 0 && netthimble_player_loop_end(&p, 1) == 0 && is_ramp(p.ramp, 300, 512, true, 48000));
    CHECK(netthimble_player_stop(&p, 1.5) == 0 && is_ramp(p.ramp, 300, 512, true, 24000));
    CHECK(netthimble_player_stop(&p, 0.5) == 0 && is_ramp(p.ramp, 300, 512, true, 0));
    CHECK(netthimble_player_stop(&p, 1e300) == 0 && is_ramp(p.ramp, 300, 512, true, (uint64_t)1 << 52));
    CHECK(netthimble_player_stop(&p, NETTHIMBLE_NEVER) == 0 && is_ramp(p.ramp, 300, 512, false, 0));
    netthimble_told told = netthimble_stop(p, 1.01);
    CHECK(told.refusal == 0 && is_ramp(told.player.ramp, 300, 512, true, 480) && is_ramp(p.ramp, 300, 512, false, 0));
}

/* W is worked out at the starting sample, from the start as it is snapped, or at a stop that comes later. */
static void at_the_stop(void) {
    double late = 1048576;
    uint32_t one_frame = 0x3F800000, *out = lent(4096, 7);
    for (int told = 0; told < 2; told++) {
        netthimble_player p = begun(4, &one_frame, 1, late + 0.0005);
        if (told == 0) CHECK(netthimble_player_stop(&p, late + 0.002) == 0 && is_ramp(p.ramp, 4, 0, false, 0));
        CHECK(netthimble_player_process(&p, out, 4096, &one_frame, 1, late, 1, 1).refusal == 0);
        if (told == 1) CHECK(is_ramp(p.ramp, 4, 128, false, 0) && netthimble_player_stop(&p, late + 0.002) == 0);
        CHECK(is_ramp(p.ramp, 4, 128, true, 96));
    }
}

/* ---- the samples */

/* The factor of sample j in float; 2 where it has none. */
static float factor(size_t r, bool has_stop, uint64_t w, uint64_t j) {
    float rising = j < r ? (float)j / (float)r : 2, falling = 2;
    if (r == 0) return 2;
    if (has_stop && j > w) falling = 0;
    else if (has_stop && w - j < r) falling = (float)(w - j) / (float)r;
    return rising < falling ? rising : falling;
}

static uint32_t times(uint32_t bits, float by) {
    float product = netthimble_float(bits) * by;
    return by > 1 ? bits : product != product ? 0x7FC00000 : netthimble_bits(product);
}

static const uint32_t odd[] = {
    0x3F800000, 0xBF800000, 0, 0x80000000, 1, 0x807FFFFF, 0x00800000, 0x7F7FFFFF, 0x7F800000, 0xFF800000, 0x7FC00000, 0x7F800001, 0xFFC12345,
};
enum { ODD = 13 };

/* A player with a ramp beside one without: the same blocks, the same answers, and each sample times its factor. */
static void beside(size_t r, double when, double stop, float rate, double step) {
    uint32_t *frames = lent(ODD, 0), *out = lent(4096, 7), *plain = lent(4096, 7);
    memcpy(frames, odd, sizeof odd);
    netthimble_player p = begun(r, frames, ODD, when), q = begun(0, frames, ODD, when);
    if (stop < 1) CHECK(netthimble_player_stop(&p, stop) == 0 && netthimble_player_stop(&q, stop) == 0);
    for (int n = 0; n < 9; n++) {
        uint64_t count = p.ramp.count;
        netthimble_block a = netthimble_player_process(&p, out, 4096, frames, ODD, n * step / RATE, rate, 1);
        netthimble_block b = netthimble_player_process(&q, plain, 4096, frames, ODD, n * step / RATE, rate, 1);
        size_t first = FRAMES - (size_t)(p.ramp.count - count);
        CHECK(a.refusal == 0 && a.position == b.position && a.channels == b.channels && a.keep_alive == b.keep_alive && a.ended == b.ended);
        CHECK(p.ramp.count == q.ramp.count && p.ramp.has_stop_sample == q.ramp.has_stop_sample && p.ramp.stop_sample == q.ramp.stop_sample);
        CHECK(all(plain, 0, first, 0) && all(out, 0, first, 0) && all(out, FRAMES, 4096, 7));
        for (size_t i = first; i < FRAMES; i++)
            CHECK(out[i] == times(plain[i], factor(r, p.ramp.has_stop_sample, p.ramp.stop_sample, count + i - first)));
    }
    CHECK(q.ramp.length == 0 && p.ramp.length == r);
}

static void samples(void) {
    size_t ramps[] = {0, 1, 2, 3, 127, 128, 129, 1000, LONGEST};
    double when[] = {0, 100 / 48000.0, 37.5 / 48000.0}, stop[] = {2, 300.5 / 48000.0, 50 / 48000.0, 129 / 48000.0}, step[] = {128, 1, 700};
    float rate[] = {1.0f, 0.5f, -1.0f};
    for (size_t i = 0; i < 9; i++)
        for (size_t k = 0; k < 3; k++)
            for (size_t m = 0; m < 4; m++)
                for (size_t n = 0; n < 3; n++) beside(ramps[i], when[k], stop[m], rate[n], step[(i + k + m + n) % 3]);
}

static void by_hand(void) {
    static const float known[] = {0.0f, 0.25f, 0.5f, 0.75f, 0.5f, 0.25f, 0.0f, 0.0f};
    uint32_t *frames = lent(128, 0x3F800000), *nans = lent(128, 0x7F800001), *out = lent(4096, 7);
    netthimble_player p = begun(4, frames, 128, 0), q = begun(300, frames, 128, 100 / RATE);
    CHECK(netthimble_player_stop(&p, 6 / RATE) == 0 && netthimble_player_process(&p, out, 4096, frames, 128, 0, 1, 1).refusal == 0);
    for (size_t i = 0; i < 8; i++) CHECK(netthimble_float(out[i]) == known[i]);
    CHECK(is_ramp(p.ramp, 4, 128, true, 6) && p.render_state.ended);
    CHECK(netthimble_player_process(&q, out, 4096, frames, 128, 0, 1, 1).refusal == 0 && is_ramp(q.ramp, 300, 28, false, 0));
    CHECK(all(out, 0, 101, 0) && netthimble_float(out[127]) == 27.0f / 300.0f);
    CHECK(netthimble_player_process(&q, out, 4096, frames, 128, 1e-9, 1, 1).refusal == 0 && is_ramp(q.ramp, 300, 156, false, 0));
    CHECK(all(out, 0, 100, 0) && netthimble_float(out[100]) == 128.0f / 300.0f);
    p = begun(4, nans, 128, 0);
    CHECK(netthimble_player_stop(&p, 128 / RATE) == 0 && netthimble_player_process(&p, out, 4096, nans, 128, 0, 1, 1).refusal == 0);
    CHECK(all(out, 0, 4, 0x7FC00000) && all(out, 4, 125, 0x7F800001) && all(out, 125, 128, 0x7FC00000));
}

/* ---- a record that no call made */

/* Any numbers in it: the answered channels alone are written, and a second player of the same record does the same. */
static void any_record(void) {
    uint64_t most = (uint64_t)1 << 53, numbers[] = {0, 1, 200, LONGEST + 1, most / 2, most - 5, most, most + 1, UINT64_MAX - 100, UINT64_MAX};
    uint32_t *frames = lent(128, 0x3F800000), *out = lent(4096, 7), *again = lent(4096, 7);
    for (size_t i = 0; i < 10; i++) {
        for (size_t k = 0; k < 20; k++) {
            netthimble_player p = begun(200, frames, 128, 0), q;
            p.ramp.length = (size_t)numbers[i];
            p.ramp.count = numbers[k / 2];
            p.ramp.has_stop_sample = k % 2;
            p.ramp.stop_sample = numbers[(i + k) % 10];
            q = p;
            for (int n = 0; n < 3; n++) {
                netthimble_block a = netthimble_player_process(&p, out, 4096, frames, 128, n * FRAMES / RATE, 1, 1);
                netthimble_block b = netthimble_player_process(&q, again, 4096, frames, 128, n * FRAMES / RATE, 1, 1);
                CHECK(a.refusal == 0 && a.channels == 1 && b.refusal == 0 && same(&p, &q));
                CHECK(memcmp(out, again, 4 * 4096) == 0 && all(out, FRAMES, 4096, 7));
                CHECK(p.ramp.count <= most);
            }
        }
    }
}

int main(void) {
    players();
    calls();
    at_the_stop();
    samples();
    by_hand();
    any_record();
    printf("ramps: %d passed, %d failed\n", passed, failed);
    return failed != 0;
}
