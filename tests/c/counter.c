/* The counting player from C: its making, its blocks beside the rule in a line of C and beside the first player, refused blocks, and records that
 * no call made. tests/c_cases.py builds and runs it. */
#include "check.h"

enum { FRAMES = NETTHIMBLE_FRAMES, RATE = 48000 };

static bool alike(netthimble_counter a, netthimble_counter b) {
    return a.channels == b.channels && a.frames == b.frames && a.next == b.next && a.looping == b.looping;
}

static netthimble_counter counter(size_t channels, size_t frames, size_t next, bool looping) {
    netthimble_counter c;
    c.channels = channels;
    c.frames = frames;
    c.next = next;
    c.looping = looping;
    return c;
}

/* ---- making */

typedef void *(*making)(void *, size_t, size_t, bool);

/* The bytes of the record that the making writes. */
static void record(void) {
    size_t field[] = {0, 8, 16, 24, 32}, size[] = {8, 8, 8, 1, 4};
    making make = (making)(any)netthimble_counter_new;
    for (size_t channels = 2; channels < 50; channels += 40) {
        netthimble_counter_made made;
        fill();
        CHECK(make(one, channels, 300, true) == one && make(two, channels, 300, true) == two);
        for (size_t i = 0; i < 5; i++) CHECK(written(field[i], size[i]));
        CHECK(untouched(sizeof made));
        memcpy(&made, one, sizeof made);
        CHECK(made.refusal == (channels == 2 ? 0 : 1));
        CHECK(alike(made.counter, channels == 2 ? counter(2, 300, 0, true) : counter(0, 0, 0, false)));
    }
    CHECK(netthimble_counter_size() == sizeof(netthimble_counter) && netthimble_fits());
}

/* 1 for the shape comes before 12 for no frames. A refused counter is zeros, and each of its blocks is refused. */
static void makings(void) {
    static const struct {
        size_t channels, frames;
        uint32_t refusal;
    } cases[] = {
        {0, 3, 1}, {33, 3, 1}, {1, 16777217, 1}, {33, 0, 1}, {0, 0, 1}, {1, SIZE_MAX, 1}, {SIZE_MAX, SIZE_MAX, 1},
        {(size_t)1 << 32, (size_t)1 << 32, 1}, {1, 0, 12}, {32, 0, 12}, {1, 1, 0}, {32, 16777216, 0},
    };
    uint32_t *out = lent(4096, 7), *frame = lent(1, 9);
    for (size_t i = 0; i < sizeof cases / sizeof *cases; i++) {
        for (int looping = 0; looping < 2; looping++) {
            netthimble_counter_made made = netthimble_counter_new(cases[i].channels, cases[i].frames, looping);
            CHECK(made.refusal == cases[i].refusal);
            if (made.refusal == 0) {
                CHECK(alike(made.counter, counter(cases[i].channels, cases[i].frames, 0, looping)));
                continue;
            }
            CHECK(alike(made.counter, counter(0, 0, 0, false)));
            CHECK(netthimble_counter_process(&made.counter, out, 4096, NULL, 0).refusal == 1);
            CHECK(netthimble_counter_process(&made.counter, out, 4096, frame, 1).refusal == 1);
            CHECK(all(out, 0, 4096, 7) && alike(made.counter, counter(0, 0, 0, false)));
        }
    }
}

/* ---- blocks */

/* Every sample has bits of its own. */
static uint32_t *sounds(size_t len) {
    uint32_t *samples = lent(len, 0);
    for (size_t i = 0; i < len; i++) samples[i] = (uint32_t)(i + 1) * 2654435761u;
    return samples;
}

/* The rule. */
static uint32_t sample(const uint32_t *channel, size_t frames, bool looping, size_t at) {
    return looping ? channel[at % frames] : at < frames ? channel[at] : 0;
}

/* A refused block answers its number alone, and changes nothing. */
static void refuses(netthimble_counter *c, uint32_t *out, size_t out_len, const uint32_t *samples, size_t len, uint32_t refusal) {
    netthimble_counter before = *c;
    netthimble_counted r = netthimble_counter_process(c, out, out_len, samples, len);
    CHECK(r.refusal == refusal && r.channels == 0 && !r.keep_alive && !r.ended && alike(*c, before));
}

static void refused(netthimble_counter *c, uint32_t *out, const uint32_t *samples, size_t len) {
    refuses(c, out, 4095, samples, len, 8);
    refuses(c, out, 0, samples, len - 1, 8);
    refuses(c, out, 4096, samples, len - 1, 1);
    refuses(c, out, 4096, NULL, 0, 1);
}

/* A player of the clip, started at 0. */
static netthimble_player begun(size_t channels, size_t frames, bool looping, const uint32_t *samples) {
    netthimble_player p = zeroed();
    CHECK(netthimble_player_new(&p, RATE) == 0 && netthimble_player_set_buffer(&p, channels, frames, RATE, samples, channels * frames) == 0);
    CHECK(netthimble_player_start(&p, 0, 0, NETTHIMBLE_NEVER) == 0 && netthimble_player_loop(&p, looping) == 0);
    return p;
}

/* The counter beside the rule and beside the first player: when the latter ends, in blocks, or 0 if it doesn't. */
static size_t beside(size_t channels, size_t frames, bool looping, size_t blocks) {
    size_t len = channels * frames, end = 0;
    uint32_t *samples = sounds(len), *out = lent(4096, 7), *other = lent(4096, 7);
    netthimble_counter c = netthimble_counter_new(channels, frames, looping).counter;
    netthimble_player p = begun(channels, frames, looping, samples);
    for (size_t n = 0; n < blocks; n++) {
        bool over = !looping && FRAMES * n >= frames;
        bool makes_fit = !looping && FRAMES * (n + 1) == frames, after_fit = !looping && FRAMES * n == frames;
        for (size_t i = 0; i < 4096; i++) out[i] = other[i] = 7;
        refused(&c, out, samples, len);
        CHECK(all(out, 0, 4096, 7));
        netthimble_counted r = netthimble_counter_process(&c, out, 4096, samples, len);
        netthimble_block b = netthimble_player_process(&p, other, 4096, samples, len, (double)(FRAMES * n) / RATE, 1, 1);
        CHECK(r.refusal == 0 && r.channels == (over ? 1 : channels) && r.keep_alive == !over);
        CHECK(r.ended == (!looping && FRAMES * (n + 1) >= frames));
        for (size_t d = 0; d < r.channels; d++)
            for (size_t i = 0; i < FRAMES; i++) CHECK(out[FRAMES * d + i] == sample(samples + frames * d, frames, looping, FRAMES * n + i));
        CHECK(all(out, FRAMES * r.channels, 4096, 7));
        CHECK(memcmp(out, other, 4 * FRAMES * (r.channels < b.channels ? r.channels : b.channels)) == 0);
        CHECK(makes_fit || r.ended == b.ended);
        CHECK(after_fit || (r.keep_alive == b.keep_alive && r.channels == b.channels));
        if (b.ended && end == 0) end = n + 1;
    }
    return end;
}

static void blocks(void) {
    size_t frames[] = {1, 2, 3, 64, 100, 127, 128, 129, 192, 255, 256, 257, 300, 384, 640, 1000}, channels[] = {1, 2, 32};
    for (size_t i = 0; i < sizeof frames / sizeof *frames; i++)
        for (size_t k = 0; k < 3; k++)
            for (int looping = 0; looping < 2; looping++) beside(channels[k], frames[i], looping, frames[i] / FRAMES + 12);
    /* the two ways in which an exact fit ends the first player: after the counter, or with it */
    CHECK(beside(1, 640, false, 8) == 6 && beside(1, 128, false, 3) == 1);
}

/* ---- a record that no call made: past the last frame it has ended; of a shape outside the bounds each block is refused */
static void any_record(void) {
    size_t past[] = {5, 6, 128, SIZE_MAX - 127, SIZE_MAX};
    uint32_t *samples = sounds(64), *out = lent(4096, 7);
    for (size_t i = 0; i < 5; i++) {
        for (int looping = 0; looping < 2; looping++) {
            netthimble_counter c = counter(1, 5, past[i], looping), empty = counter(3, 0, past[i], looping);
            netthimble_counted r = netthimble_counter_process(&c, out, 4096, samples, 5), s;
            CHECK(r.refusal == 0 && r.channels == 1 && !r.keep_alive && r.ended && alike(c, counter(1, 5, past[i], looping)));
            CHECK(all(out, 0, FRAMES, 0) && all(out, FRAMES, 4096, 7));
            s = netthimble_counter_process(&empty, out, 4096, NULL, 0);
            CHECK(s.refusal == 0 && s.channels == 1 && !s.keep_alive && s.ended);
            c = counter(33, 1, 0, looping);
            refuses(&c, out, 4096, samples, 33, 1);
            c = counter(1, 16777217, 0, looping);
            refuses(&c, out, 4096, samples, 64, 1);
        }
    }
}

int main(void) {
    record();
    makings();
    blocks();
    any_record();
    printf("counter: %d passed, %d failed\n", passed, failed);
    return failed != 0;
}
