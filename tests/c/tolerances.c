/* Tolerances from C: their making, the players that are made with them and keep them, what the near tests then do, conversions, and records
 * that no call made. tests/c_cases.py builds and runs it. */
#include <math.h>
#include "check.h"

enum { FRAMES = NETTHIMBLE_FRAMES };

static netthimble_tolerances tolerances(double near, double near_zero, float relabel) {
    netthimble_tolerances t;
    t.near = near;
    t.near_zero = near_zero;
    t.relabel = relabel;
    return t;
}

static netthimble_options options(netthimble_tolerances t) {
    netthimble_options o = netthimble_default_options();
    o.tolerances = t;
    return o;
}

/* The same bits in every field; there are four bytes behind the last one. */
static bool alike(netthimble_tolerances a, netthimble_tolerances b) {
    return memcmp(&a.near, &b.near, 8) == 0 && memcmp(&a.near_zero, &b.near_zero, 8) == 0 && memcmp(&a.relabel, &b.relabel, 4) == 0;
}

/* ---- making */

typedef void *(*making)(void *, double, double, float);

/* The bytes of the record that the making writes, of accepted tolerances and of refused ones. */
static void record(void) {
    size_t field[] = {0, 8, 16, 24}, size[] = {8, 8, 4, 4};
    making make = (making)(any)netthimble_tolerances_new;
    for (int refused = 0; refused < 2; refused++) {
        netthimble_tolerated r;
        double near = refused ? 2.0 : 0.25;
        fill();
        CHECK(make(one, near, 0.5, 0.75f) == one && make(two, near, 0.5, 0.75f) == two);
        for (size_t i = 0; i < 4; i++) CHECK(written(field[i], size[i]));
        CHECK(untouched(sizeof r));
        memcpy(&r, one, sizeof r);
        CHECK(refused ? r.refusal == 18 && alike(r.tolerances, tolerances(0, 0, 0)) : r.refusal == 0 && alike(r.tolerances, tolerances(0.25, 0.5, 0.75f)));
    }
    CHECK(netthimble_options_size() == sizeof(netthimble_options));
    CHECK(netthimble_fits());
    CHECK(alike(netthimble_default_options().tolerances, tolerances(1.0 / 67108864, 1.0 / 67108864, 0.1f)));
}

/* 18, zeros, and the old ones behind the pointer. */
static void refused_tolerances(double near, double near_zero, float relabel) {
    netthimble_tolerances old = tolerances(0.25, -0.0, 0.75f), t = old;
    netthimble_tolerated r = netthimble_tolerances_new(near, near_zero, relabel);
    CHECK(r.refusal == NETTHIMBLE_TOLERANCE && alike(r.tolerances, tolerances(0, 0, 0)));
    CHECK(netthimble_tolerances_set(&t, near, near_zero, relabel) == 18 && alike(t, old));
}

static void made_tolerances(double near, double near_zero, float relabel) {
    netthimble_tolerances t = tolerances(9, 9, 9);
    netthimble_tolerated r = netthimble_tolerances_new(near, near_zero, relabel);
    CHECK(r.refusal == 0 && alike(r.tolerances, tolerances(near, near_zero, relabel)));
    CHECK(netthimble_tolerances_set(&t, near, near_zero, relabel) == 0 && alike(t, r.tolerances));
}

static const double inside[] = {0.0, -0.0, 1.0, 4.9406564584124654e-324, 1.0 / 67108864, 0.1, 0.99999999999999989};
static const double outside[] = {1.0000000000000002, 2.0, -4.9406564584124654e-324, -0.5, NAN, -NAN, INFINITY, -INFINITY, 1.7976931348623157e308};
static const float inside_single[] = {0.0f, -0.0f, 1.0f, 1.4e-45f, 0.1f, 0.99999994f};
static const float outside_single[] = {1.00000012f, 2.0f, -1.4e-45f, -0.5f, NAN, -NAN, INFINITY, -INFINITY, 3.4028235e38f};
enum { INSIDE = 7, OUTSIDE = 9, SINGLES = 6 };

static void makings(void) {
    for (size_t i = 0; i < INSIDE; i++)
        for (size_t k = 0; k < INSIDE; k++)
            for (size_t n = 0; n < SINGLES; n++) made_tolerances(inside[i], inside[k], inside_single[n]);
    for (size_t i = 0; i < OUTSIDE; i++) {
        for (size_t k = 0; k < INSIDE; k++) {
            refused_tolerances(outside[i], inside[k], 1.0f);
            refused_tolerances(inside[k], outside[i], -0.0f);
            refused_tolerances(inside[k], 1.0, outside_single[i]);
        }
        for (size_t k = 0; k < OUTSIDE; k++) {
            refused_tolerances(outside[i], outside[k], 0.5f);
            refused_tolerances(0.0, outside[i], outside_single[k]);
            refused_tolerances(outside[i], outside[k], outside_single[i]);
        }
    }
}

/* ---- players */

/* Tolerances that some call made, and that none did. */
static const netthimble_tolerances kinds[] = {
    {1.0 / 67108864, 1.0 / 67108864, 0.1f}, {0.0, 1.0, 0.5f}, {1.0, -0.0, 1.0f}, {9.094947017729282e-13, 0.25, 0.0f},
    {NAN, -1.0, INFINITY}, {2.0, NAN, -1.0f}, {-INFINITY, INFINITY, NAN}, {-1.0, 2.0, 2.0f},
};
enum { KINDS = 8 };

/* A player keeps them as they are, and is otherwise the one that is made for the rate alone. 2 comes before all else. */
static void players(void) {
    float bad[] = {0.0f, -48000.0f, 2999.0f, 768001.0f, NAN, INFINITY};
    for (size_t i = 0; i < KINDS; i++) {
        netthimble_player p = zeroed(), plain = netthimble_new(48000.0f).player;
        netthimble_told t = netthimble_new_with(48000.0f, options(kinds[i]));
        CHECK(t.refusal == 0 && alike(t.player.tolerances, kinds[i]) && same(&t.player, &plain) == (i == 0));
        CHECK(netthimble_player_new_with(&p, 48000.0f, options(kinds[i])) == 0 && same(&p, &t.player));
        plain.tolerances = kinds[i];
        CHECK(same(&p, &plain));
        for (size_t k = 0; k < sizeof bad / sizeof *bad; k++) {
            netthimble_player nobody = netthimble_new(bad[k]).player;
            t = netthimble_new_with(bad[k], options(kinds[i]));
            CHECK(t.refusal == 2 && same(&t.player, &nobody));
            CHECK(netthimble_player_new_with(&p, bad[k], options(kinds[i])) == 2 && same(&p, &plain));
        }
    }
    CHECK(alike(netthimble_new(NAN).player.tolerances, netthimble_default_options().tolerances));
}

/* Every call keeps them, an accepted one and a refused one. */
static void kept(void) {
    uint32_t *samples = lent(400, 0x3F800000), *out = lent(4096, 7);
    for (size_t i = 0; i < KINDS; i++) {
        netthimble_player p = zeroed();
        netthimble_tolerances t = kinds[i];
        CHECK(netthimble_player_new_with(&p, 48000.0f, options(t)) == 0);
        CHECK(netthimble_player_stop(&p, 1) == 11 && alike(p.tolerances, t));
        CHECK(netthimble_player_start(&p, 0.001, 0.0001, 1) == 0 && alike(p.tolerances, t));
        CHECK(netthimble_player_start(&p, 0, 0, 1) == 10 && alike(p.tolerances, t));
        CHECK(netthimble_player_set_buffer(&p, 33, 12, 48000.0f, samples, 400) == 1 && alike(p.tolerances, t));
        CHECK(netthimble_player_set_buffer(&p, 2, 200, 48000.0f, samples, 400) == 0 && alike(p.tolerances, t));
        CHECK(netthimble_player_loop(&p, true) == 0 && alike(p.tolerances, t));
        CHECK(netthimble_player_loop_start(&p, 0.0005) == 0 && alike(p.tolerances, t));
        CHECK(netthimble_player_loop_start(&p, NAN) == 9 && alike(p.tolerances, t));
        CHECK(netthimble_player_loop_end(&p, 0.002) == 0 && alike(p.tolerances, t));
        CHECK(netthimble_player_stop(&p, 9) == 0 && alike(p.tolerances, t));
        for (int n = 0; n < 12; n++) {
            netthimble_player q = p;
            double time = n < 11 ? n * FRAMES / 48000.0 : 10;
            float rate = n % 3 ? 1.0f : n < 6 ? 0.75f : -2.0f;
            CHECK(netthimble_player_preview(&p, out, 4096, samples, 400, time, rate, 1).refusal == 0 && alike(p.tolerances, t));
            CHECK(netthimble_player_preview_cents(&p, out, 4096, samples, 400, time, rate, 50).refusal == 0 && alike(p.tolerances, t));
            CHECK(netthimble_player_process_cents(&q, out, 4096, samples, 400, time, rate, 50).refusal == 0 && alike(q.tolerances, t));
            CHECK(netthimble_player_process(&p, out, 4096, samples, 400, time, rate, 1).refusal == 0 && alike(p.tolerances, t));
            CHECK(netthimble_player_process(&p, out, 4096, samples, 400, time, rate, 1).refusal == 13 && alike(p.tolerances, t));
            CHECK(netthimble_player_process_cents(&p, out, 4096, samples, 399, 99, rate, 0).refusal == 1 && alike(p.tolerances, t));
        }
        CHECK(p.render_state.ended);
    }
}

/* ---- what the near tests do */

/* Counts frames from 1: sample i of `out` is the frame that it plays, plus 1, and 0 for none. */
static uint32_t *ramp(size_t frames) {
    uint32_t *samples = lent(frames, 0);
    for (size_t i = 0; i < frames; i++) samples[i] = netthimble_bits((float)(i + 1));
    return samples;
}

/* A player of 100 frames at 48,000, started at 0. */
static netthimble_player begun(netthimble_tolerances t, const uint32_t *samples, double duration) {
    netthimble_player p = zeroed();
    CHECK(netthimble_player_new_with(&p, 48000.0f, options(t)) == 0);
    CHECK(netthimble_player_set_buffer(&p, 1, 100, 48000.0f, samples, 100) == 0);
    CHECK(netthimble_player_start(&p, 0, 0, duration) == 0);
    return p;
}

/* At 768,000 a call is asked for at sample 50 of a block `seconds` after the context began: the sample that it begins at. */
static size_t begins(netthimble_tolerances t, double seconds) {
    static uint32_t out[4096];
    uint32_t call = 0x3F800000;
    netthimble_player p = zeroed();
    CHECK(netthimble_player_new_with(&p, 768000.0f, options(t)) == 0);
    CHECK(netthimble_player_set_buffer(&p, 1, 1, 768000.0f, &call, 1) == 0);
    CHECK(netthimble_player_start(&p, seconds + 50 / 768000.0, 0, NETTHIMBLE_NEVER) == 0);
    CHECK(netthimble_player_process(&p, out, 4096, &call, 1, seconds, 1, 1).refusal == 0);
    for (size_t i = 0; i < FRAMES; i++)
        if (out[i] == call) return i;
    return FRAMES;
}

/* A start counts as reached at the first sample that is near: 2^-26 of 100 s is more than one sample, of an hour 41. */
static void starts(void) {
    netthimble_tolerances plain = netthimble_default_options().tolerances, tight = tolerances(1 / 1099511627776.0, plain.near_zero, plain.relabel);
    CHECK(begins(plain, 60) == 50 && begins(plain, 100) == 49 && begins(plain, 600) == 44 && begins(plain, 3600) == 9);
    CHECK(begins(tight, 60) == 50 && begins(tight, 100) == 50 && begins(tight, 600) == 50 && begins(tight, 3600) == 50);
    CHECK(begins(tolerances(1, 0, 0), 3600) == 0 && begins(tolerances(2, 0, 0), 3600) == FRAMES); /* with 2 the duration is near too */
}

/* Of a duration of 20.3 samples 21 play; near half of it is near its end, and with 1 everything but the start. */
static void durations(void) {
    double near[] = {1.0 / 67108864, 0, -1, NAN, 0.5, 1, 2};
    size_t plays[] = {21, 21, 21, 21, 11, 1, 0};
    uint32_t *samples = ramp(100), *out = lent(4096, 7);
    for (size_t i = 0; i < 7; i++) {
        netthimble_player p = begun(tolerances(near[i], 1e-9, 0.1f), samples, 20.3 / 48000);
        CHECK(netthimble_player_process(&p, out, 4096, samples, 100, 0, 1, 1).refusal == 0 && p.render_state.ended);
        for (size_t k = 0; k < FRAMES; k++) CHECK(out[k] == (k < plays[i] ? samples[k] : 0));
    }
}

/* Looped from frame 10 to frame 50: the frame that sample i plays, plus 1. */
static size_t in_loop(size_t i, double near) {
    size_t period = near == 0.03 ? 39 : 40;  /* frame 49 is near 50 */
    if (near == 0.25) return i < 8 ? i + 1 : 11; /* frame 8 is near 10, and so is frame 11: the playhead stays */
    return (i < 10 ? i : 10 + (i - 10) % period) + 1;
}

static void loops(void) {
    double near[] = {1.0 / 67108864, 1 / 1099511627776.0, 0.03, 0.25};
    uint32_t *samples = ramp(100), *out = lent(4096, 7);
    for (size_t i = 0; i < 4; i++) {
        netthimble_player p = begun(tolerances(near[i], 1e-9, 0.1f), samples, NETTHIMBLE_NEVER);
        CHECK(netthimble_player_loop(&p, true) == 0);
        CHECK(netthimble_player_loop_start(&p, 10 / 48000.0) == 0 && netthimble_player_loop_end(&p, 50 / 48000.0) == 0);
        CHECK(netthimble_player_process(&p, out, 4096, samples, 100, 0, 1, 1).refusal == 0);
        for (size_t k = 0; k < FRAMES; k++) CHECK(fabsf(netthimble_float(out[k]) - (float)in_loop(k, near[i])) < 1e-3f);
    }
}

/* A playhead that is less than `near_zero` from 0 goes back to it: with a step of that size it goes on, with the next larger one it stays. */
static void zeros(void) {
    double step = 1.0 / 48000, near_zero[] = {1.0 / 67108864, 0, -1, NAN, step, nextafter(step, 1), 1, INFINITY};
    uint32_t *samples = ramp(100), *out = lent(4096, 7);
    for (size_t i = 0; i < 8; i++) {
        netthimble_player p = begun(tolerances(0, near_zero[i], 0.1f), samples, 100.0 / 48000);
        CHECK(netthimble_player_process(&p, out, 4096, samples, 100, 0, 1, 1).refusal == 0);
        for (size_t k = 0; k < 90; k++) CHECK(fabsf(netthimble_float(out[k]) - (i < 5 ? (float)(k + 1) : 1.0f)) < 1e-3f);
    }
}

/* ---- conversions: 48,000 and 48,000.5, 0.5 apart */

static void converts(netthimble_tolerances t, float rate, bool relabels) {
    netthimble_shape s = shape(1, 3, 48000.0f);
    uint32_t *samples = ramp(3), *out = lent(4, 7), *other = lent(4, 7);
    samples[2] = 0x7F800001; /* a NaN, whose bits a copy keeps */
    netthimble_shaped a = netthimble_converted_shape_with(s, 3, rate, t), b = netthimble_convert_with(s, samples, 3, rate, t, out, a.shape.frames);
    CHECK(a.refusal == 0 && b.refusal == 0 && a.shape.channels == 1 && b.shape.channels == 1 && a.shape.rate == rate && b.shape.rate == rate);
    CHECK(a.shape.frames == b.shape.frames && a.shape.frames == (relabels || rate <= 48000 ? 3u : 4u));
    CHECK(out[0] == samples[0] && relabels == (out[1] == samples[1] && out[2] == samples[2]));
    CHECK(netthimble_convert_with(s, samples, 3, rate, t, other, 5).refusal == 8);
    CHECK(netthimble_convert_with(s, samples, 2, NAN, t, other, 4).refusal == 1);
    CHECK(netthimble_convert_with(s, samples, 3, NAN, t, other, 4).refusal == 2);
    CHECK(netthimble_converted_shape_with(shape(1, 16777216, 3000.0f), 16777216, 768000.0f, t).refusal == (t.relabel == INFINITY ? 0 : 7));
    CHECK(all(other, 0, 4, 7));
}

static void conversions(void) {
    float just_below = nextafterf(0.5f, 0);
    netthimble_tolerances plain = netthimble_default_options().tolerances;
    converts(plain, 48000.5f, false);
    converts(plain, 48000.09375f, true);
    for (size_t i = 0; i < 2; i++) {
        float rate = i ? 48000.5f : 47999.5f;
        converts(tolerances(0, 0, 0.5f), rate, true);
        converts(tolerances(NAN, -1, 0.5f), rate, true);
        converts(tolerances(1, 1, just_below), rate, false);
        converts(tolerances(1, 1, 0), rate, false);
        converts(tolerances(0, 0, 1), rate, true);
        converts(tolerances(0, 0, INFINITY), rate, true);
        converts(tolerances(1, 1, NAN), rate, false);
        converts(tolerances(1, 1, -1), rate, false);
    }
    converts(tolerances(1, 1, 0), 48000.0f, true);
    converts(tolerances(1, 1, -0.0f), 48000.0f, true);
    converts(tolerances(0, 0, 2.0f), 48002.0f, true);
    /* of a record that no call made: below 0 and NaN no two rates are equal, so equal ones are converted, which keeps the place of each frame */
    converts(tolerances(0, 0, -1), 48000.0f, false);
    converts(tolerances(0, 0, NAN), 48000.0f, false);
}

/* ---- a record that no call made */

/* Zeros are tolerances that a call makes too: only what is equal is near. They are not the defaults. */
static void zeroed_options(void) {
    netthimble_options o;
    netthimble_player p = zeroed(), q = zeroed();
    memset(&o, 0, sizeof o);
    CHECK(alike(netthimble_tolerances_new(0, 0, 0).tolerances, o.tolerances));
    CHECK(netthimble_player_new_with(&p, 48000.0f, o) == 0 && netthimble_player_new(&q, 48000.0f) == 0);
    CHECK(alike(p.tolerances, tolerances(0, 0, 0)) && !same(&p, &q));
}

/* Blocks of any tolerances: the answered channels alone are written, and a second player of the same record does the same. */
static void any_record(void) {
    double odd[] = {0, -0.0, NAN, 2.0, -1, INFINITY, -INFINITY, 1e-300, 1e300};
    uint32_t *samples = ramp(400), *out = lent(4096, 7), *again = lent(4096, 7);
    for (size_t i = 0; i < 9; i++) {
        for (size_t k = 0; k < 9; k++) {
            netthimble_player p = begun(tolerances(odd[i], odd[k], (float)odd[i]), samples, 0.02), q;
            CHECK(netthimble_player_loop(&p, k % 2) == 0);
            CHECK(netthimble_player_loop_start(&p, 0.0003) == 0 && netthimble_player_loop_end(&p, 0.0015) == 0);
            q = p;
            for (int n = 0; n < 9; n++) {
                float rate = n < 3 ? 1.0f : n < 6 ? 1.5f : -0.75f;
                netthimble_block a = netthimble_player_process(&p, out, 4096, samples, 100, n * FRAMES / 48000.0, rate, 1);
                netthimble_block b = netthimble_player_process(&q, again, 4096, samples, 100, n * FRAMES / 48000.0, rate, 1);
                CHECK(a.refusal == 0 && a.channels == 1 && b.refusal == 0 && same(&p, &q));
                CHECK(memcmp(out, again, 4 * 4096) == 0 && all(out, FRAMES, 4096, 7));
            }
        }
    }
}

int main(void) {
    record();
    makings();
    players();
    kept();
    starts();
    durations();
    loops();
    zeros();
    conversions();
    zeroed_options();
    any_record();
    printf("tolerances: %d passed, %d failed\n", passed, failed);
    return failed != 0;
}
