/* The C library by single calls: the records' bytes, refusals by number and in their order, what stays unchanged, slices up to their last
 * element. Each lent slice ends at a page that nobody may touch. tests/c_cases.py builds and runs it. */
#include <fenv.h>
#include <math.h>
#include <xmmintrin.h>
#include "check.h"

/* ---- the records' bytes */

typedef void *(*returning)(void *, float);

static void bytes(void) {
    returning make = (returning)(any)netthimble_new;
    fill();
    CHECK(make(one, 48000.0f) == one);
    CHECK(make(two, 48000.0f) == two);
    for (size_t i = 0; i < TOLD_FIELDS; i++) CHECK(written(field_at[i], field_size[i]));
    CHECK(untouched(sizeof(netthimble_told)));
    CHECK(netthimble_player_size() == sizeof(netthimble_player));
    netthimble_told t;
    memcpy(&t, one, sizeof t);
    CHECK(t.refusal == 0 && t.player.sample_rate == 48000.0f);
    CHECK(t.player.start_time == NETTHIMBLE_NEVER && t.player.stop_time == NETTHIMBLE_NEVER && t.player.duration == NETTHIMBLE_NEVER);
    CHECK(t.player.offset == 0 && t.player.loop_state.start == 0 && t.player.loop_state.end == 0 && t.player.render_state.buffer_time == 0);
    CHECK(!t.player.loop_state.is_looping && !t.player.render_state.ended && !t.player.has_start && !t.player.has_buffer && !t.player.has_block);
}

/* ---- players */

static void rates(void) {
    float bad[] = {0.0f, -48000.0f, 2999.0f, 768001.0f, NAN, INFINITY, -INFINITY};
    for (size_t i = 0; i < sizeof bad / sizeof *bad; i++) CHECK(netthimble_new(bad[i]).refusal == 2);
    CHECK(netthimble_new(3000.0f).refusal == 0 && netthimble_new(768000.0f).refusal == 0);
    /* the player of a refused rate never plays */
    netthimble_player nobody = netthimble_new(NAN).player;
    uint32_t *out = lent(4096, 7), *frame = lent(1, 7);
    CHECK(nobody.render_state.ended);
    CHECK(netthimble_start(nobody, 0, 0, 1).refusal == 10);
    CHECK(netthimble_player_set_buffer(&nobody, 1, 1, 48000.0f, frame, 1) == 10);
    CHECK(netthimble_player_process(&nobody, out, 4096, NULL, 0, 0, 1, 1).refusal == 1);
    CHECK(netthimble_player_process(&nobody, out, 4096, frame, 1, 0, 1, 1).refusal == 1);
    CHECK(netthimble_player_process_cents(&nobody, out, 4096, frame, 1, 0, 1, 100).refusal == 1);
    CHECK(netthimble_player_process_cents(&nobody, out, 4096, frame, 1, 0, 1, 12001).refusal == 16);
    CHECK(all(out, 0, 4096, 7));
}

static void messages(void) {
    netthimble_player fresh = zeroed(), p, q;
    double bad[] = {NAN, INFINITY, -INFINITY, -1.0, -4.9e-324};
    CHECK(netthimble_player_new(&fresh, 48000.0f) == 0);
    CHECK(netthimble_stop(fresh, 1).refusal == 11);
    CHECK(netthimble_stop(fresh, -1).refusal == 9);
    CHECK(netthimble_player_start(&fresh, -0.0, 0, NETTHIMBLE_NEVER) == 0);
    CHECK(netthimble_player_new(&fresh, 48000.0f) == 0);
    for (size_t i = 0; i < 5; i++) {
        p = fresh;
        CHECK(netthimble_player_start(&p, bad[i], 0, 1) == 9);
        CHECK(netthimble_player_start(&p, 0, bad[i], 1) == 9);
        CHECK(netthimble_player_start(&p, 0, 0, bad[i]) == 9);
        CHECK(netthimble_player_stop(&p, bad[i]) == 9);
        CHECK(netthimble_player_loop_start(&p, bad[i]) == (i < 3 ? 9u : 0u));
        CHECK(netthimble_player_loop_end(&p, bad[i]) == (i < 3 ? 9u : 0u));
        CHECK(i >= 3 || same(&p, &fresh));
        netthimble_told t = netthimble_start(fresh, bad[i], 0, 1);
        CHECK(t.refusal == 9 && same(&t.player, &fresh));
    }
    p = fresh;
    CHECK(netthimble_player_start(&p, 1, 2, 3) == 0);
    CHECK(p.start_time == 1 && p.offset == 2 && p.duration == 3 && p.has_start && !same(&p, &fresh));
    q = p;
    CHECK(netthimble_player_start(&p, 4, 5, 6) == 10);
    CHECK(netthimble_player_start(&p, -4, 5, 6) == 9);
    CHECK(same(&p, &q));
    CHECK(netthimble_player_stop(&p, 9) == 0 && p.stop_time == 9);
    CHECK(netthimble_player_loop(&p, true) == 0 && p.loop_state.is_looping);
    CHECK(netthimble_player_loop(&p, false) == 0 && !p.loop_state.is_looping);
    CHECK(netthimble_player_loop_start(&p, 0.25) == 0 && p.loop_state.start == 0.25);
    CHECK(netthimble_player_loop_end(&p, 0.5) == 0 && p.loop_state.end == 0.5);
}

static void buffer_call(void) {
    netthimble_player fresh = zeroed(), p;
    uint32_t *samples = lent(6, 0x3F800000);
    CHECK(netthimble_player_new(&fresh, 48000.0f) == 0);
    p = fresh;
    CHECK(netthimble_player_set_buffer(&p, 0, 6, 48000.0f, samples, 6) == 1);
    CHECK(netthimble_player_set_buffer(&p, 33, 6, 48000.0f, samples, 6) == 1);
    CHECK(netthimble_player_set_buffer(&p, 1, 16777217, 48000.0f, samples, 6) == 1);
    CHECK(netthimble_player_set_buffer(&p, (size_t)1 << 63, 2, 48000.0f, samples, 0) == 1);
    CHECK(netthimble_player_set_buffer(&p, 2, 3, 48000.0f, samples, 5) == 1);
    CHECK(netthimble_player_set_buffer(&p, 2, 3, NAN, samples, 5) == 1);
    CHECK(netthimble_player_set_buffer(&p, 2, 3, NAN, samples, 6) == 2);
    CHECK(netthimble_player_set_buffer(&p, 2, 0, 48000.0f, NULL, 0) == 12);
    CHECK(same(&p, &fresh));
    CHECK(netthimble_player_set_buffer(&p, 2, 3, 24000.0f, samples, 6) == 0);
    CHECK(p.has_buffer && p.shape.channels == 2 && p.shape.frames == 3 && p.shape.rate == 24000.0f && p.loop_state.end == 3.0 / 24000.0);
    CHECK(netthimble_player_set_buffer(&p, 2, 0, 48000.0f, NULL, 0) == 10);
    CHECK(all(samples, 0, 6, 0x3F800000));
}

/* ---- the calls that store in lent memory */

/* One of them, with values that are refused or not; by value it answers the same. */
typedef uint32_t (*storing)(netthimble_player *p, bool refused);

static uint32_t by_new(netthimble_player *p, bool refused) {
    return netthimble_player_new(p, refused ? 2999.9f : 44100.0f);
}

static uint32_t by_new_with(netthimble_player *p, bool refused) {
    netthimble_options options = netthimble_default_options();
    CHECK(netthimble_tolerances_set(&options.tolerances, 0.25, 0.5, 0.75f) == 0);
    return netthimble_player_new_with(p, refused ? NAN : 44100.0f, options);
}

static uint32_t by_start(netthimble_player *p, bool refused) {
    return netthimble_player_start(p, 1, refused ? -2 : 2, 3);
}

static uint32_t by_stop(netthimble_player *p, bool refused) {
    return netthimble_player_stop(p, refused ? NAN : 9);
}

static uint32_t by_loop_start(netthimble_player *p, bool refused) {
    return netthimble_player_loop_start(p, refused ? INFINITY : 0.25);
}

static uint32_t by_loop_end(netthimble_player *p, bool refused) {
    return netthimble_player_loop_end(p, refused ? NAN : 0.5);
}

static uint32_t by_set_buffer(netthimble_player *p, bool refused) {
    return netthimble_player_set_buffer(p, 1, refused ? 0 : 1, 48000.0f, (const uint32_t *)"abcd", refused ? 0 : 1);
}

/* Refused, each leaves every byte, those between the fields too: of a fresh player, of one that has received everything, and of memory that
 * no call made, all 0 or all 1. Such memory has a start and a buffer, so each message to it that could alter it is tried. */
static void refused_stores(void) {
    const storing calls[] = {by_new, by_new_with, by_start, by_stop, by_loop_start, by_loop_end, by_set_buffer};
    const uint32_t number[] = {2, 2, 9, 9, 9, 9, 12};
    uint32_t *samples = lent(2, 0x3F800000);
    netthimble_player kinds[4];
    memset(kinds, 0, sizeof kinds);
    memset(&kinds[3], 1, sizeof kinds[3]);
    CHECK(netthimble_player_new(&kinds[0], 48000.0f) == 0);
    kinds[1] = kinds[0];
    CHECK(netthimble_player_set_buffer(&kinds[1], 2, 1, 48000.0f, samples, 2) == 0 && netthimble_player_start(&kinds[1], 4, 5, 6) == 0);
    for (size_t k = 0; k < 4; k++) {
        for (size_t i = 0; i < sizeof calls / sizeof *calls; i++) {
            netthimble_player p, before;
            memcpy(&p, &kinds[k], sizeof p);
            memcpy(&before, &p, sizeof p);
            CHECK(calls[i](&p, true) == (number[i] == 12 && k % 2 ? 10 : number[i]));
            CHECK(memcmp(&p, &before, sizeof p) == 0);
        }
        netthimble_player p;
        memcpy(&p, &kinds[k], sizeof p);
        CHECK(netthimble_player_start(&p, 0, 0, 1) == (k % 2 ? 10 : 0) && (memcmp(&p, &kinds[k], sizeof p) == 0) == (k % 2 == 1));
        memcpy(&p, &kinds[k], sizeof p);
        CHECK(netthimble_player_stop(&p, 1) == (k % 2 ? 0 : 11) && (memcmp(&p, &kinds[k], sizeof p) == 0) == (k % 2 == 0));
    }
    netthimble_tolerances t, before;
    memset(&t, 1, sizeof t);
    memcpy(&before, &t, sizeof t);
    CHECK(netthimble_tolerances_set(&t, 0, 2, 0) == 18 && memcmp(&t, &before, sizeof t) == 0);
}

/* Accepted, each stores what the call by value answers, in every field; and stores as much in memory that no call made. */
static void accepted_stores(void) {
    uint32_t *samples = lent(2, 0x3F800000);
    netthimble_player fresh = netthimble_new(48000.0f).player, full = fresh, made = netthimble_new(44100.0f).player;
    CHECK(netthimble_player_set_buffer(&full, 2, 1, 48000.0f, samples, 2) == 0);
    for (int k = 0; k < 2; k++) {
        netthimble_player p, before = k ? full : fresh;
        netthimble_told told[6];
        storing calls[] = {by_start, by_stop, by_loop_start, by_loop_end};
        told[0] = netthimble_start(before, 1, 2, 3);
        told[1] = netthimble_stop(told[0].player, 9);
        told[2] = netthimble_loop_start(told[1].player, 0.25);
        told[3] = netthimble_loop_end(told[2].player, 0.5);
        told[4] = netthimble_loop(told[3].player, true);
        told[5] = netthimble_loop(told[4].player, false);
        p = before;
        for (int i = 0; i < 4; i++) CHECK(calls[i](&p, false) == 0 && told[i].refusal == 0 && same(&p, &told[i].player));
        CHECK(!same(&p, &before));
        for (int i = 4; i < 6; i++) {
            CHECK(netthimble_player_loop(&p, i == 4) == 0 && told[i].refusal == 0 && same(&p, &told[i].player));
            CHECK(p.loop_state.is_looping == (i == 4));
        }
        memset(&p, k, sizeof p);
        CHECK(by_new(&p, false) == 0 && same(&p, &made));
        memset(&p, k, sizeof p);
        CHECK(by_new_with(&p, false) == 0 && !same(&p, &made));
        CHECK(p.tolerances.near == 0.25 && p.tolerances.near_zero == 0.5 && p.tolerances.relabel == 0.75f);
        p.tolerances = made.tolerances;
        CHECK(same(&p, &made));
    }
}

/* What a call by value answers where it is refused: a message the player that it was handed, the making one that never plays, others zeros. */
static void refused_by_value(void) {
    netthimble_player fresh = netthimble_new(48000.0f).player, nobody = netthimble_new(NAN).player;
    netthimble_player started = netthimble_start(fresh, 1, 2, 3).player;
    netthimble_told told[] = {netthimble_start(started, 1, 2, 3), netthimble_start(started, NAN, 2, 3), netthimble_stop(started, -1),
                              netthimble_loop_start(started, NAN), netthimble_loop_end(started, INFINITY)};
    uint32_t number[] = {10, 9, 9, 9, 9};
    for (int i = 0; i < 5; i++) CHECK(told[i].refusal == number[i] && same(&told[i].player, &started));
    CHECK(netthimble_stop(fresh, 1).refusal == 11);
    CHECK(nobody.render_state.ended && nobody.has_start && nobody.has_buffer && nobody.shape.channels == 0 && nobody.sample_rate == 0);
    netthimble_tolerated t = netthimble_tolerances_new(2, 0, 0);
    CHECK(t.refusal == 18 && t.tolerances.near == 0 && t.tolerances.near_zero == 0 && t.tolerances.relabel == 0);
}

/* ---- blocks */

/* When the count of channels falls, and what keep-alive and ended say. A clip of two channels and 200 frames starts at sample 160: block 0 waits,
 * block 1 holds the start and block 2 the end, and after it nothing is to come. A silent block answers one channel, and leaves the second as
 * the last block left it. */
static void counts(void) {
    const struct {
        size_t channels;
        bool keep_alive, ended;
    } expected[] = {{1, true, false}, {2, true, false}, {2, true, true}, {1, false, true}, {1, false, true}};
    uint32_t *samples = lent(400, 0x3F800000), *out = lent(4096, 7);
    netthimble_player p = zeroed(), q;
    CHECK(netthimble_player_new(&p, 48000.0f) == 0 && netthimble_player_set_buffer(&p, 2, 200, 48000.0f, samples, 400) == 0);
    q = p;
    CHECK(netthimble_player_start(&p, 160 / 48000.0, 0, NETTHIMBLE_NEVER) == 0);
    for (int n = 0; n < 5; n++) {
        netthimble_block b = netthimble_player_process(&p, out, 4096, samples, 400, n * 128 / 48000.0, 1, 1);
        CHECK(b.refusal == 0 && b.channels == expected[n].channels && b.keep_alive == expected[n].keep_alive && b.ended == expected[n].ended);
        CHECK(n > 0 || all(out, 128, 256, 7));
        CHECK(n < 1 || n > 2 || memcmp(out, out + 128, 4 * 128) == 0);
        CHECK(n < 3 || (all(out, 0, 128, 0) && netthimble_float(out[128]) > 0.9f && netthimble_float(out[231]) > 0.9f && all(out, 233, 256, 0)));
        CHECK(all(out, 256, 4096, 7));
    }
    /* a player that has received no start is silent, and not kept alive; it has not ended, and may still be started */
    netthimble_block b = netthimble_player_process(&q, out, 4096, samples, 400, 0, 1, 1);
    CHECK(b.refusal == 0 && b.channels == 1 && !b.keep_alive && !b.ended && netthimble_player_start(&q, 0, 0, 1) == 0);
    /* a refused block answers no channel, and not that the player has ended */
    b = netthimble_player_process(&p, out, 4096, samples, 400, 0, 1, 1);
    CHECK(b.refusal == 13 && b.channels == 0 && !b.keep_alive && !b.ended && p.render_state.ended);
}

/* Without a buffer no samples are lent: silence, nothing plays. */
static void silence(void) {
    netthimble_player p = zeroed();
    uint32_t *samples = lent(6, 0), *out = lent(4096, 7);
    CHECK(netthimble_player_new(&p, 48000.0f) == 0);
    netthimble_player q = p;
    netthimble_block b = netthimble_player_process(&q, out, 4096, NULL, 0, 0, 1, 1);
    CHECK(b.refusal == 0 && !b.keep_alive && !b.ended && b.channels == 1 && b.position == 0);
    CHECK(all(out, 0, 128, 0) && all(out, 128, 4096, 7));
    CHECK(netthimble_player_process(&p, out, 4096, samples, 6, 0, 1, 1).refusal == 1);
}

/* A player at 48,000 with two channels of three frames, 1 2 3 and 4 5 6, started at 0 and looped. */
static netthimble_player looped(uint32_t *samples) {
    netthimble_player p = zeroed();
    for (uint32_t i = 0; i < 6; i++) samples[i] = i + 1;
    CHECK(netthimble_player_new(&p, 48000.0f) == 0);
    CHECK(netthimble_player_set_buffer(&p, 2, 3, 48000.0f, samples, 6) == 0);
    CHECK(netthimble_player_start(&p, 0, 0, NETTHIMBLE_NEVER) == 0);
    CHECK(netthimble_player_loop(&p, true) == 0);
    return p;
}

/* Refusals in their order: 8, 13, 14, 1. */
static void refused_blocks(void) {
    uint32_t *samples = lent(6, 0), *out = lent(4097, 7);
    netthimble_player p = looped(samples), q = p;
    netthimble_block b;
    double bad_time[] = {NAN, INFINITY, -INFINITY, -1, 1073741824.5};
    double bad_factor[] = {NAN, 0, -1, INFINITY, 2.6e-20, 3.7e19};
    CHECK((b = netthimble_player_process(&p, out, 4097, samples, 5, NAN, NAN, NAN)).refusal == 8);
    CHECK((b = netthimble_player_process(&p, out, 4095, samples, 6, 0, 1, 1)).refusal == 8);
    CHECK((b = netthimble_player_process(&p, NULL, 0, samples, 6, 0, 1, 1)).refusal == 8);
    for (size_t i = 0; i < 5; i++) CHECK((b = netthimble_player_process(&p, out + 1, 4096, samples, 5, bad_time[i], NAN, 1)).refusal == 13);
    for (size_t i = 0; i < 6; i++) CHECK((b = netthimble_player_process(&p, out + 1, 4096, samples, 5, 0, 1, bad_factor[i])).refusal == 14);
    CHECK((b = netthimble_player_process(&p, out + 1, 4096, samples, 5, 0, NAN, 1)).refusal == 14);
    CHECK((b = netthimble_player_process(&p, out + 1, 4096, samples, 5, 0, INFINITY, 1)).refusal == 14);
    CHECK((b = netthimble_player_process(&p, out + 1, 4096, samples, 5, 0, 1, 1)).refusal == 1);
    CHECK((b = netthimble_player_process(&p, out + 1, 4096, NULL, 0, 0, 1, 1)).refusal == 1);
    CHECK(!b.keep_alive && !b.ended && b.channels == 0 && b.position == 0);
    CHECK(same(&p, &q) && all(out, 0, 4097, 7));
}

/* Two channels, each looped; all else is untouched. */
static void blocks(void) {
    uint32_t *samples = lent(6, 0), *out = lent(4097, 7);
    netthimble_player p = looped(samples);
    netthimble_block b;
    CHECK((b = netthimble_player_process(&p, out + 1, 4096, samples, 6, 0, 1, 1)).refusal == 0);
    for (uint32_t i = 0; i < 128; i++) CHECK(out[1 + i] == i % 3 + 1 && out[129 + i] == i % 3 + 4);
    CHECK(out[0] == 7 && all(out, 257, 4097, 7));
    CHECK(b.keep_alive && !b.ended && b.channels == 2 && b.position == p.render_state.buffer_time);
    CHECK((b = netthimble_player_process(&p, out + 1, 4096, samples, 6, 0, 1, 1)).refusal == 13);
    CHECK((b = netthimble_player_process(&p, out + 1, 4096, samples, 6, 128.0 / 48000.0, 0.5f, 1)).refusal == 0);
    CHECK(b.channels == 2 && !p.render_state.is_aligned);
}

/* ---- cents. All the factors are compared with the table's rule by tests/c_cases.py, from what factors.c prints. */

static const int32_t bad_cents[] = {-12001, 12001, INT32_MIN, INT32_MAX, -13200, 100000};

static void factors(void) {
    netthimble_factored r = netthimble_factor(0);
    CHECK(r.refusal == 0 && r.factor == 1.0);
    CHECK((r = netthimble_factor(-1200)).refusal == 0 && r.factor == 0.5);
    CHECK((r = netthimble_factor(1200)).refusal == 0 && r.factor == 2.0);
    CHECK((r = netthimble_factor(-1)).refusal == 0 && r.factor == 2146243570.0 / 2147483648.0);
    CHECK((r = netthimble_factor(12000)).refusal == 0 && r.factor == 1024.0);
    CHECK((r = netthimble_factor(-12000)).refusal == 0 && r.factor == 1.0 / 1024.0);
    for (size_t i = 0; i < sizeof bad_cents / sizeof *bad_cents; i++)
        CHECK((r = netthimble_factor(bad_cents[i])).refusal == NETTHIMBLE_CENTS && r.factor == 0.0 && !signbit(r.factor));
}

static bool same_answer(netthimble_block a, netthimble_block b) {
    return memcmp(&a.position, &b.position, sizeof a.position) == 0 && a.channels == b.channels && a.refusal == b.refusal
        && a.keep_alive == b.keep_alive && a.ended == b.ended;
}

/* A block by cents is the block by their factor, from the same player: in its answer, the player and the whole output. Every block of a
 * looped clip of two channels is so, aligned with 0 cents and not with others; forwards, and then backwards. */
static void cents_blocks(void) {
    int32_t cents[] = {0, 1, -1, 50, 700, -1199, -1200, 1200, 12000, -12000};
    uint32_t *samples = lent(400, 0), *out = lent(4096, 7), *by_factor = lent(4096, 7), *plain = lent(4096, 7);
    netthimble_player fresh = zeroed(), p;
    CHECK(netthimble_player_new(&fresh, 48000.0f) == 0);
    for (size_t i = 0; i < 400; i++) samples[i] = netthimble_bits((float)(i * 37 % 101) - 50.0f);
    CHECK(netthimble_player_set_buffer(&fresh, 2, 200, 48000.0f, samples, 400) == 0);
    CHECK(netthimble_player_start(&fresh, 0, 0, NETTHIMBLE_NEVER) == 0 && netthimble_player_loop(&fresh, true) == 0);
    p = fresh;
    CHECK(netthimble_player_process(&p, plain, 4096, samples, 400, 0, 1, 1).refusal == 0);
    for (size_t i = 0; i < sizeof cents / sizeof *cents; i++) {
        netthimble_factored f = netthimble_factor(cents[i]);
        CHECK(f.refusal == 0);
        p = fresh;
        for (int n = 0; n < 4; n++) {
            netthimble_player q = p;
            float rate = n < 3 ? 1.0f : -0.5f;
            double time = n * 128 / 48000.0;
            netthimble_block a = netthimble_player_process_cents(&p, out, 4096, samples, 400, time, rate, cents[i]);
            netthimble_block b = netthimble_player_process(&q, by_factor, 4096, samples, 400, time, rate, f.factor);
            CHECK(a.refusal == 0 && a.channels == 2 && same_answer(a, b) && same(&p, &q));
            CHECK(memcmp(out, by_factor, 4 * 4096) == 0 && all(out, 256, 4096, 7));
            CHECK(p.render_state.is_aligned == (cents[i] == 0 && n < 3));
            CHECK(n > 0 || (memcmp(out, plain, 4 * 4096) == 0) == (cents[i] == 0));
        }
    }
}

/* Refusals in their order: 8, 13, 16, 14, 1. */
static void refused_cents(void) {
    uint32_t *samples = lent(6, 0), *out = lent(4097, 7);
    netthimble_player p = looped(samples), q = p;
    netthimble_block b;
    CHECK((b = netthimble_player_process_cents(&p, out, 4097, samples, 5, NAN, NAN, 12001)).refusal == 8);
    CHECK((b = netthimble_player_process_cents(&p, NULL, 0, samples, 6, 0, 1, 0)).refusal == 8);
    CHECK((b = netthimble_player_process_cents(&p, out + 1, 4096, samples, 5, NAN, NAN, 12001)).refusal == 13);
    CHECK((b = netthimble_player_process_cents(&p, out + 1, 4096, samples, 5, -1, 1, 12001)).refusal == 13);
    for (size_t i = 0; i < sizeof bad_cents / sizeof *bad_cents; i++) {
        CHECK((b = netthimble_player_process_cents(&p, out + 1, 4096, samples, 5, 0, NAN, bad_cents[i])).refusal == 16);
        CHECK(!b.keep_alive && !b.ended && b.channels == 0 && b.position == 0);
        CHECK((b = netthimble_player_process_cents(&p, out + 1, 4096, samples, 6, 0, 1, bad_cents[i])).refusal == 16);
    }
    CHECK((b = netthimble_player_process_cents(&p, out + 1, 4096, samples, 5, 0, NAN, 12000)).refusal == 14);
    CHECK((b = netthimble_player_process_cents(&p, out + 1, 4096, samples, 5, 0, INFINITY, -12000)).refusal == 14);
    CHECK((b = netthimble_player_process_cents(&p, out + 1, 4096, samples, 5, 0, 1, 12000)).refusal == 1);
    CHECK((b = netthimble_player_process_cents(&p, out + 1, 4096, NULL, 0, 0, 1, -12000)).refusal == 1);
    CHECK(!b.keep_alive && !b.ended && b.channels == 0 && b.position == 0);
    CHECK(same(&p, &q) && all(out, 0, 4097, 7));
    CHECK((b = netthimble_player_process_cents(&p, out + 1, 4096, samples, 6, 0, 1, 12000)).refusal == 0);
    CHECK(out[0] == 7 && !same(&p, &q));
    CHECK((b = netthimble_player_process_cents(&p, out + 1, 4096, samples, 6, 0, 1, 12001)).refusal == 13);
}

/* A silent block in cents asks for no factor, and is the block by their factor all the same: without a clip, before the start and at its
 * very end, after the end, and at a rate that is no number. Bad cents are refused of silent players too. */
static void silent_cents(void) {
    int32_t cents[] = {0, 50, -1, 1200, -12000, 12001, INT32_MIN};
    uint32_t *samples = lent(6, 0), *out = lent(4096, 7), *by_factor = lent(4096, 7);
    netthimble_player silent[4];
    silent[0] = zeroed();
    CHECK(netthimble_player_new(&silent[0], 48000.0f) == 0);
    silent[1] = silent[0];
    CHECK(netthimble_player_start(&silent[1], 0, 0, NETTHIMBLE_NEVER) == 0);
    silent[2] = silent[0];
    CHECK(netthimble_player_set_buffer(&silent[2], 2, 3, 48000.0f, samples, 6) == 0);
    CHECK(netthimble_player_start(&silent[2], 128 / 48000.0, 0, NETTHIMBLE_NEVER) == 0);
    silent[3] = silent[2];
    CHECK(netthimble_player_stop(&silent[3], 0) == 0);
    CHECK(netthimble_player_process(&silent[3], out, 4096, samples, 6, 0, 1, 1).ended);
    for (size_t i = 0; i < 4; i++) {
        for (size_t k = 0; k < sizeof cents / sizeof *cents; k++) {
            for (int n = 0; n < 2; n++) {
                netthimble_player p = silent[i], q = p;
                netthimble_factored f = netthimble_factor(cents[k]);
                float rate = n == 0 ? 1.0f : NAN;
                double time = i < 3 ? 0 : 1;
                size_t len = i < 2 ? 0 : 6;
                netthimble_block a = netthimble_player_process_cents(&p, out, 4096, samples, len, time, rate, cents[k]);
                netthimble_block b = netthimble_player_process(&q, by_factor, 4096, samples, len, time, rate, f.factor);
                if (f.refusal) b.refusal = NETTHIMBLE_CENTS;
                CHECK(a.refusal == (f.refusal ? f.refusal : n == 0 ? 0 : 14));
                CHECK(same_answer(a, b) && same(&p, &q) && memcmp(out, by_factor, 4 * 4096) == 0);
            }
        }
    }
}

/* ---- previews */

/* A player in a page that can only be read. */
static const netthimble_player *unwritable(const netthimble_player *p) {
    static void *page = NULL;
    if (!page) page = mmap(NULL, 4096, PROT_READ | PROT_WRITE, MAP_PRIVATE | MAP_ANONYMOUS, -1, 0);
    if (page == MAP_FAILED || mprotect(page, 4096, PROT_READ | PROT_WRITE)) exit(3);
    memcpy(page, p, sizeof *p);
    if (mprotect(page, 4096, PROT_READ)) exit(3);
    return (const netthimble_player *)page;
}

/* A preview is the block on a copy: its answer and its whole output, with a factor and in cents; the player stays, byte for byte, and goes on
 * as a twin that nobody looked at. Aligned, sub-sample, backwards, and past the end of a clip of two channels, looped and not. */
static void previews(void) {
    uint32_t *samples = lent(400, 0), *out = lent(4096, 7), *second = lent(4096, 9), *third = lent(4096, 9);
    for (size_t i = 0; i < 400; i++) samples[i] = netthimble_bits((float)(i * 37 % 101) - 50.0f);
    for (int on = 0; on < 2; on++) {
        netthimble_player p = zeroed(), twin;
        for (size_t i = 0; i < 4096; i++) second[i] = 9;
        CHECK(netthimble_player_new(&p, 48000.0f) == 0);
        CHECK(netthimble_player_preview(unwritable(&p), second, 4096, NULL, 0, 0, 1, 1).channels == 1 && all(second, 0, 128, 0) && all(second, 128, 4096, 9));
        CHECK(netthimble_player_set_buffer(&p, 2, 200, 48000.0f, samples, 400) == 0);
        CHECK(netthimble_player_start(&p, 0, 0, NETTHIMBLE_NEVER) == 0 && netthimble_player_loop(&p, on != 0) == 0);
        twin = p;
        for (int n = 0; n < 8; n++) {
            float rate = n < 2 ? 1.0f : n < 4 ? 0.75f : on ? -0.5f : 2.0f;
            double time = n * 128 / 48000.0;
            int32_t cents = n % 2 ? -50 : 0;
            netthimble_player before = p;
            memset(second, 9, 4 * 4096);
            memset(third, 9, 4 * 4096);
            memset(out, 9, 4 * 4096);
            netthimble_block a = netthimble_player_preview(unwritable(&p), second, 4096, samples, 400, time, rate, netthimble_factor(cents).factor);
            netthimble_block c = netthimble_player_preview_cents(unwritable(&p), third, 4096, samples, 400, time, rate, cents);
            CHECK(netthimble_player_preview(&p, second, 4096, samples, 400, time, rate, netthimble_factor(cents).factor).refusal == 0);
            CHECK(memcmp(&p, &before, sizeof p) == 0);
            netthimble_block b = netthimble_player_process(&p, out, 4096, samples, 400, time, rate, netthimble_factor(cents).factor);
            CHECK(a.refusal == 0 && same_answer(a, b) && same_answer(c, b));
            CHECK(memcmp(second, out, 4 * 4096) == 0 && memcmp(third, out, 4 * 4096) == 0);
            CHECK(netthimble_player_process_cents(&twin, out, 4096, samples, 400, time, rate, cents).refusal == 0 && same(&p, &twin));
        }
        CHECK(p.render_state.ended == (on == 0));
    }
}

/* A preview's refusals are the block's own, in its order; the second output is then untouched. */
static void refused_previews(void) {
    uint32_t *samples = lent(6, 0), *out = lent(4097, 7);
    netthimble_player p = looped(samples), q = p;
    netthimble_block b;
    CHECK((b = netthimble_player_preview(&p, out, 4097, samples, 5, NAN, NAN, NAN)).refusal == 8);
    CHECK((b = netthimble_player_preview(&p, NULL, 0, samples, 6, 0, 1, 1)).refusal == 8);
    CHECK((b = netthimble_player_preview(&p, out + 1, 4096, samples, 5, NAN, NAN, NAN)).refusal == 13);
    CHECK((b = netthimble_player_preview(&p, out + 1, 4096, samples, 5, 0, NAN, 1)).refusal == 14);
    CHECK((b = netthimble_player_preview(&p, out + 1, 4096, samples, 5, 0, 1, 0)).refusal == 14);
    CHECK((b = netthimble_player_preview(&p, out + 1, 4096, samples, 5, 0, 1, 1)).refusal == 1);
    CHECK(!b.keep_alive && !b.ended && b.channels == 0 && b.position == 0);
    CHECK((b = netthimble_player_preview_cents(&p, out, 4097, samples, 5, NAN, NAN, 12001)).refusal == 8);
    CHECK((b = netthimble_player_preview_cents(&p, out + 1, 4096, samples, 5, NAN, NAN, 12001)).refusal == 13);
    for (size_t i = 0; i < sizeof bad_cents / sizeof *bad_cents; i++)
        CHECK((b = netthimble_player_preview_cents(&p, out + 1, 4096, samples, 5, 0, NAN, bad_cents[i])).refusal == 16);
    CHECK((b = netthimble_player_preview_cents(&p, out + 1, 4096, samples, 5, 0, NAN, 12000)).refusal == 14);
    CHECK((b = netthimble_player_preview_cents(&p, out + 1, 4096, samples, 5, 0, 1, -12000)).refusal == 1);
    CHECK(!b.keep_alive && !b.ended && b.channels == 0 && b.position == 0);
    CHECK(all(out, 0, 4097, 7) && memcmp(&p, &q, sizeof p) == 0);
    CHECK(netthimble_player_process(&p, out + 1, 4096, samples, 6, 0, 1, 1).refusal == 0);
    CHECK(netthimble_player_preview(&p, out + 1, 4096, samples, 6, 0, 1, 1).refusal == 13);
    CHECK(netthimble_player_preview(&p, out + 1, 4096, samples, 6, 1, 1, 1).refusal == 0);
    /* the player of a refused rate shows nothing */
    netthimble_player nobody = netthimble_new(NAN).player;
    CHECK(netthimble_player_preview(&nobody, out + 1, 4096, samples, 6, 0, 1, 1).refusal == 1);
    CHECK(netthimble_player_preview_cents(&nobody, out + 1, 4096, samples, 6, 0, 1, 12001).refusal == 16);
}

/* ---- clips and buffers */

static void clips(void) {
    unsigned char file[] = {16, 0, 1, 0, 2, 0, 0, 0, 0, 0x80, 0x3B, 0x47, 16, 0, 0, 0, 1, 2, 3, 4, 5, 6, 7, 8};
    uint32_t *samples = lent(2, 7);
    netthimble_shaped r = netthimble_clip_shape(file, sizeof file);
    CHECK(r.refusal == 0 && r.shape.channels == 1 && r.shape.frames == 2 && r.shape.rate == 48000.0f);
    for (size_t n = 0; n < sizeof file; n++) CHECK(netthimble_clip_shape(file, n).refusal == 15);
    CHECK(netthimble_clip_shape(NULL, 0).refusal == 15);
    r = netthimble_clip_shape(file, 12);
    CHECK(r.shape.channels == 0 && r.shape.frames == 0 && r.shape.rate == 0.0f);
    CHECK(netthimble_clip_frames(file, sizeof file - 1, samples, 1) == 15);
    CHECK(netthimble_clip_frames(file, sizeof file, samples, 1) == 8);
    CHECK(netthimble_clip_frames(file, sizeof file, NULL, 0) == 8);
    CHECK(all(samples, 0, 2, 7));
    CHECK(netthimble_clip_frames(file, sizeof file, samples, 2) == 0);
    CHECK(samples[0] == 0x04030201 && samples[1] == 0x08070605);
    file[11] = 0;
    CHECK(netthimble_clip_frames(file, sizeof file, samples, 1) == 2);
}

/* ---- clips with an onset */

static void put(uint8_t *at, size_t count, size_t value) {
    for (size_t i = 0; i < count; i++) at[i] = (uint8_t)(value >> (8 * i));
}

/* The file's bytes by the layout (docs/REFERENCE.md, 'Clip file'), up to a page that nobody may touch: the old header, or the new one, which has the
 * onset. Sample i is 0x7F800001 + i, the pattern of a NaN. */
static uint8_t *clip_file(bool is_new, netthimble_shape s, uint32_t onset, size_t *len) {
    size_t fields = is_new ? 16 : 12, header = fields + 4 * s.channels;
    *len = header + 4 * s.frames * s.channels;
    uint8_t *file = (uint8_t *)lent_room(*len);
    put(file, 2, header);
    put(file + 2, 2, s.channels);
    put(file + 4, 4, s.frames);
    put(file + 8, 4, netthimble_bits(s.rate));
    if (is_new) put(file + 12, 4, onset);
    for (size_t c = 0; c < s.channels; c++) put(file + fields + 4 * c, 4, header + 4 * s.frames * c);
    for (size_t i = 0; i < s.channels * s.frames; i++) put(file + header + 4 * i, 4, 0x7F800001 + i);
    return file;
}

static bool counted(const uint32_t *samples, size_t len) {
    for (size_t i = 0; i < len; i++)
        if (samples[i] != 0x7F800001 + i) return false;
    return true;
}

static bool is_shape(netthimble_shape a, netthimble_shape b) {
    return a.channels == b.channels && a.frames == b.frames && netthimble_bits(a.rate) == netthimble_bits(b.rate);
}

typedef void *(*reading)(void *, const uint8_t *, size_t);

/* The bytes of the record that the reader with an onset writes, of an accepted clip and of a refused one. */
static void onset_record(void) {
    size_t field[] = {0, 8, 16, 24, 28}, size[] = {8, 8, 4, 4, 4}, len;
    uint8_t *file = clip_file(true, shape(2, 3, 44100.0f), 2, &len);
    reading read = (reading)(any)netthimble_clip_with_onset;
    for (size_t cut = 0; cut < 2; cut++) {
        netthimble_shaped_with_onset r;
        fill();
        CHECK(read(one, file + cut, len - cut) == one && read(two, file + cut, len - cut) == two);
        for (size_t i = 0; i < 5; i++) CHECK(written(field[i], size[i]));
        CHECK(untouched(sizeof r));
        memcpy(&r, one, sizeof r);
        CHECK(cut ? r.refusal == 15 && is_shape(r.shape, shape(0, 0, 0)) && r.onset == 0 : r.refusal == 0 && is_shape(r.shape, shape(2, 3, 44100.0f)) && r.onset == 2);
    }
}

/* A file that is accepted: by the new reader with either header, by the old one with the old header alone. */
static void accepted_clip(bool is_new, netthimble_shape s, uint32_t onset) {
    size_t len, count = s.channels * s.frames;
    uint8_t *file = clip_file(is_new, s, onset, &len);
    uint32_t *samples = lent(count, 7), *others = lent(count, 7);
    netthimble_shaped_with_onset r = netthimble_clip_with_onset(file, len);
    netthimble_shaped old = netthimble_clip_shape(file, len);
    CHECK(r.refusal == 0 && is_shape(r.shape, s) && r.onset == (is_new ? onset : 0));
    CHECK(netthimble_clip_frames_with_onset(file, len, samples, count) == 0 && counted(samples, count));
    CHECK(old.refusal == (is_new ? 15 : 0) && is_shape(old.shape, is_new ? shape(0, 0, 0) : s));
    CHECK(netthimble_clip_frames(file, len, others, count) == old.refusal);
    CHECK(is_new ? all(others, 0, count, 7) : counted(others, count));
    uint32_t *longer = lent(count + 1, 7);
    CHECK(netthimble_clip_frames_with_onset(file, len, longer, count + 1) == 8);
    CHECK(netthimble_clip_frames_with_onset(file, len, longer + 2, count - 1) == 8);
    CHECK(netthimble_clip_frames_with_onset(file, len, NULL, 0) == 8);
    CHECK(all(longer, 0, count + 1, 7));
}

/* A file that both readers refuse: with the same number, but the old one refuses any header except its own with 15. The slice is of a wrong
 * length, which is said last. */
static void refused_clip(uint32_t number, const uint8_t *file, size_t len) {
    uint32_t *samples = lent(3, 7);
    netthimble_shaped_with_onset r = netthimble_clip_with_onset(file, len);
    CHECK(r.refusal == number && is_shape(r.shape, shape(0, 0, 0)) && r.onset == 0);
    CHECK(netthimble_clip_frames_with_onset(file, len, samples, 3) == number);
    bool is_old = len >= 4 && file[0] + 256 * file[1] == 12 + 4 * (file[2] + 256 * file[3]);
    CHECK(netthimble_clip_shape(file, len).refusal == (is_old ? number : 15));
    CHECK(netthimble_clip_frames(file, len, samples, 3) == (is_old ? number : 15));
    CHECK(all(samples, 0, 3, 7));
}

static void refused_shape(uint32_t number, bool is_new, netthimble_shape s, uint32_t onset) {
    size_t len;
    uint8_t *file = clip_file(is_new, s, onset, &len);
    refused_clip(number, file, len);
}

static void clips_with_onset(void) {
    size_t len;
    for (int is_new = 0; is_new < 2; is_new++) {
        accepted_clip(is_new, shape(1, 1, 48000.0f), 0);
        accepted_clip(is_new, shape(2, 3, 3000.0f), 2);
        accepted_clip(is_new, shape(32, 5, 768000.0f), 4);
        accepted_clip(is_new, shape(1, is_new ? 16379 : 16380, 44100.0f), 16378);
        uint8_t *file = clip_file(is_new, shape(2, 1, 48000.0f), 0, &len);
        for (size_t cut = 1; cut <= len; cut++) {
            refused_clip(15, file + cut, len - cut);
            uint8_t *shorter = (uint8_t *)lent_room(len - cut);
            memcpy(shorter, file, len - cut);
            refused_clip(15, shorter, len - cut);
        }
        /* the order: 15, 1, 2, 17 */
        refused_shape(15, is_new, shape(33, 0, NAN), 9);
        refused_shape(15, is_new, shape(1, 16381, NAN), UINT32_MAX);
        refused_shape(1, is_new, shape(33, 1, NAN), 9);
        refused_shape(1, is_new, shape(0, 1, NAN), 9);
        refused_shape(1, is_new, shape(0, UINT32_MAX, 48000.0f), 0);
        refused_shape(2, is_new, shape(1, 1, NAN), 9);
        refused_shape(2, is_new, shape(32, 1, 2999.9f), 1);
        refused_shape(2, is_new, shape(2, 2, 768001.0f), UINT32_MAX);
    }
    refused_clip(15, NULL, 0);
    refused_shape(17, true, shape(1, 1, 48000.0f), 1);
    refused_shape(17, true, shape(2, 2, 48000.0f), 2);
    refused_shape(17, true, shape(32, 5, 48000.0f), UINT32_MAX);
}

/* ---- writing clips */

static uint32_t *counting(size_t len) {
    uint32_t *samples = lent(len, 0);
    for (size_t i = 0; i < len; i++) samples[i] = (uint32_t)(0x7F800001 + i);
    return samples;
}

static bool sevens(const uint8_t *bytes, size_t len) {
    for (size_t i = 0; i < len; i++)
        if (bytes[i] != 7) return false;
    return true;
}

/* A clip that is written: by the words' bytes, and to no byte more; with a slice of another length it is refused with 8. */
static void written_clip(netthimble_shape s, uint32_t onset) {
    size_t count = s.channels * s.frames, len;
    uint8_t *expected = clip_file(true, s, onset, &len), *file = (uint8_t *)lent_room(len + 1);
    uint32_t *samples = counting(count);
    netthimble_count r = netthimble_clip_length(s, count, onset);
    CHECK(r.refusal == 0 && r.count == len && len <= 65536);
    memset(file, 7, len + 1);
    CHECK(netthimble_clip_write(s, onset, samples, count, file, len + 1) == 8);
    CHECK(netthimble_clip_write(s, onset, samples, count, file + 2, len - 1) == 8);
    CHECK(netthimble_clip_write(s, onset, samples, count, NULL, 0) == 8);
    CHECK(sevens(file, len + 1));
    CHECK(netthimble_clip_write(s, onset, samples, count, file + 1, len) == 0);
    CHECK(file[0] == 7 && memcmp(file + 1, expected, len) == 0 && counted(samples, count));
    netthimble_shaped_with_onset read = netthimble_clip_with_onset(file + 1, len);
    CHECK(read.refusal == 0 && is_shape(read.shape, s) && read.onset == onset);
    memset(samples, 0, 4 * count);
    CHECK(netthimble_clip_frames_with_onset(file + 1, len, samples, count) == 0 && counted(samples, count));
}

/* One that is not: neither has a length, nor is written to a file of any, and 8 is said last. */
static void unwritten_clip(uint32_t number, netthimble_shape s, size_t len, uint32_t onset) {
    uint32_t *samples = counting(len);
    uint8_t *file = (uint8_t *)lent_room(64);
    netthimble_count r = netthimble_clip_length(s, len, onset);
    CHECK(r.refusal == number && r.count == 0);
    memset(file, 7, 64);
    for (size_t room = 0; room <= 64; room += 8) CHECK(netthimble_clip_write(s, onset, samples, len, file + 64 - room, room) == number);
    CHECK(sevens(file, 64));
}

static void written_clips(void) {
    written_clip(shape(1, 1, 48000.0f), 0);
    written_clip(shape(2, 3, 3000.0f), 2);
    written_clip(shape(32, 5, 768000.0f), 0);
    written_clip(shape(1, 16379, 44100.0f), 16378); /* 65,536 bytes */
    written_clip(shape(32, 510, 44100.0f), 256);
    /* 15: no frames, or a file over 65,536 bytes, however large the numbers are */
    size_t huge[] = {65536, (size_t)1 << 30, (size_t)1 << 32, (size_t)1 << 61, (size_t)1 << 62, (size_t)1 << 63, SIZE_MAX / 4, SIZE_MAX / 4 + 1, SIZE_MAX};
    for (size_t i = 0; i < sizeof huge / sizeof *huge; i++) {
        for (size_t k = 0; k < sizeof huge / sizeof *huge; k++) unwritten_clip(15, shape(huge[i], huge[k], NAN), 0, 9);
        unwritten_clip(15, shape(huge[i], 1, 48000.0f), 0, 0);
        unwritten_clip(15, shape(huge[i], 0, 48000.0f), 0, 0);
        unwritten_clip(15, shape(1, huge[i], 48000.0f), 1, 0);
        unwritten_clip(1, shape(0, huge[i], NAN), 0, 9);
    }
    unwritten_clip(15, shape(0, 0, NAN), 9, 9);
    unwritten_clip(15, shape(1, 0, 48000.0f), 0, 0);
    unwritten_clip(15, shape(1, 16380, NAN), 9, UINT32_MAX);
    unwritten_clip(15, shape(32, 511, 48000.0f), 32 * 511, 0);
    unwritten_clip(15, shape(8191, 1, 48000.0f), 8191, 0);
    /* 1, 2 and 17 */
    unwritten_clip(1, shape(8190, 1, 48000.0f), 8190, 0);
    unwritten_clip(1, shape(0, 1, NAN), 0, 9);
    unwritten_clip(1, shape(33, 1, NAN), 33, 9);
    unwritten_clip(1, shape(2, 3, NAN), 5, 9);
    unwritten_clip(1, shape(2, 3, 48000.0f), 7, 0);
    float bad[] = {NAN, 2999.9f, 768001.0f, -48000.0f, 0.0f, INFINITY, -INFINITY};
    for (size_t i = 0; i < sizeof bad / sizeof *bad; i++) unwritten_clip(2, shape(1, 2, bad[i]), 2, (uint32_t)i);
    unwritten_clip(17, shape(1, 2, 48000.0f), 2, 2);
    unwritten_clip(17, shape(32, 5, 48000.0f), 160, UINT32_MAX);
}

static void copies(void) {
    uint32_t *samples = lent(8, 0), *some = lent(3, 9);
    for (uint32_t i = 0; i < 8; i++) samples[i] = i;
    netthimble_copy r = netthimble_copy_from_channel(2, 4, samples, 8, some, 3, 1, 3);
    CHECK(r.refusal == 0 && r.count == 1 && some[0] == 7 && some[1] == 9 && some[2] == 9);
    r = netthimble_copy_from_channel(2, 4, samples, 8, some, 3, 1, SIZE_MAX);
    CHECK(r.refusal == 0 && r.count == 0 && some[0] == 7);
    r = netthimble_copy_from_channel(2, 4, samples, 7, some, 3, 2, 0);
    CHECK(r.refusal == 1 && r.count == 0);
    CHECK(netthimble_copy_from_channel(2, 4, samples, 8, some, 3, 2, 0).refusal == 3);
    CHECK(netthimble_copy_from_channel(2, 4, samples, 8, NULL, 0, 1, 0).count == 0);
    CHECK(some[0] == 7 && some[1] == 9 && some[2] == 9);
    r = netthimble_copy_to_channel(2, 4, samples, 8, some, 3, 1, 2);
    CHECK(r.refusal == 0 && r.count == 2 && samples[5] == 5 && samples[6] == 7 && samples[7] == 9);
    CHECK(netthimble_copy_to_channel(2, 4, samples, 8, some, 3, SIZE_MAX, 0).refusal == 3);
    CHECK(netthimble_copy_to_channel(0, 4, samples, 8, some, 3, 0, 0).refusal == 1);
    CHECK(samples[0] == 0 && samples[4] == 4 && samples[6] == 7 && samples[7] == 9);
}

static void buffers(void) {
    netthimble_shape a = shape(1, 2, 24000.0f), b = shape(1, 2, 48000.0f), odd = shape(1, 2, 0.0f);
    uint32_t *samples = lent(2, 0), *out = lent(4, 7), *half = lent(1, 7);
    samples[1] = netthimble_bits(3.0f);
    netthimble_shaped r = netthimble_convert(a, samples, 2, 48000.0f, out, 4);
    CHECK(r.refusal == 0 && r.shape.channels == 1 && r.shape.frames == 4 && r.shape.rate == 48000.0f);
    for (int i = 0; i < 4; i++) CHECK(netthimble_float(out[i]) == (i < 2 ? 1.5f * (float)i : 3.0f));
    CHECK(netthimble_convert(a, samples, 2, 48000.0f, out, 3).refusal == 8);
    CHECK(netthimble_convert(a, samples, 1, NAN, out, 3).refusal == 1);
    CHECK(netthimble_convert(a, samples, 2, NAN, out, 3).refusal == 2);
    CHECK(netthimble_converted_shape(shape(1, 16777216, 3000.0f), 16777216, 768000.0f).refusal == 7);
    r = netthimble_convert(b, samples, 2, 24000.0f, half, 1);
    CHECK(r.refusal == 0 && r.shape.channels == 1 && r.shape.frames == 1 && r.shape.rate == 24000.0f && half[0] == samples[0]);
    CHECK(netthimble_convert(b, samples, 2, 24000.0f, half, 0).refusal == 8);
    CHECK(netthimble_extend(a, samples, 2, b, samples, 2, out, 4).refusal == 4);
    CHECK(netthimble_extend(a, samples, 2, odd, samples, 2, out, 4).refusal == 2);
    CHECK(netthimble_extend(a, samples, 2, a, samples, 2, out, 3).refusal == 8);
    CHECK(netthimble_extended_shape(shape(1, 16777216, 48000.0f), 16777216, shape(1, 1, 48000.0f), 1).refusal == 7);
    CHECK(netthimble_float(out[3]) == 3.0f);
    r = netthimble_extend(a, samples, 2, a, samples, 2, out, 4);
    CHECK(r.refusal == 0 && r.shape.frames == 4 && out[1] == out[3] && out[0] == 0 && out[2] == 0);
    netthimble_parts s = netthimble_split(a, samples, 2, 1, half, 1, out + 3, 1);
    CHECK(s.refusal == 0 && s.first.frames == 1 && s.rest.frames == 1 && s.first.rate == 24000.0f && half[0] == 0 && out[3] == samples[1]);
    CHECK(netthimble_split(a, samples, 2, 3, half, 1, out + 3, 1).refusal == 5);
    CHECK(netthimble_split(a, samples, 2, 2, half, 1, out + 3, 1).refusal == 8);
    CHECK(netthimble_split_shapes(a, 3, 1).refusal == 1);
}

/* ---- the floating-point mode */

static void floats(void) {
    int other[] = {FE_UPWARD, FE_DOWNWARD, FE_TOWARDZERO};
    CHECK(netthimble_is_ieee());
    for (size_t i = 0; i < 3; i++) {
        fesetround(other[i]);
        bool ieee = netthimble_is_ieee();
        fesetround(FE_TONEAREST);
        CHECK(!ieee);
    }
    unsigned flags[] = {0x8000, 0x0040};
    for (size_t i = 0; i < 2; i++) {
        unsigned before = _mm_getcsr();
        _mm_setcsr(before | flags[i]);
        bool ieee = netthimble_is_ieee();
        _mm_setcsr(before);
        CHECK(!ieee);
    }
    CHECK(netthimble_is_ieee());
}

int main(void) {
    floats();
    bytes();
    rates();
    messages();
    buffer_call();
    refused_stores();
    accepted_stores();
    refused_by_value();
    counts();
    silence();
    refused_blocks();
    blocks();
    factors();
    cents_blocks();
    refused_cents();
    silent_cents();
    previews();
    refused_previews();
    clips();
    onset_record();
    clips_with_onset();
    written_clips();
    copies();
    buffers();
    printf("cases: %d passed, %d failed\n", passed, failed);
    return failed != 0;
}
