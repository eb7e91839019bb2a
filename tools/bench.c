/* The runs of `replay bench` (oracle/rust/replay/bench.rs), of ours, and memcpy as the limit: lines `name ns`.
   Blocks are called from Rattle (crates/player_c), as the Rust's from Rust, and once more through the C library: names with `-c`, and
   with `-cents` where the call is the one in cents: at 0 of them, and below at others. `-preview` are previews of the
   players that stand before the first 256 blocks of a run, and `-shown` the block call on copies of them. `-ahead` is a preview
   before each block of a run, and `-twin` what a block takes in its place: the block call of a second player beside the first.
   `-none`, `-outside` and `-inside` are blocks of a player without a ramp, past its rising ramp with a stop that is far off, and
   within it. `-count` are
   blocks of a counting player. */
#include <math.h>
#include "measure.h"

extern bool player_blocks(uint32_t *out, size_t out_len, const uint32_t *samples, size_t samples_len, size_t channels, size_t frames, bool looped, float rate, size_t blocks);

enum { BLOCKS = 4000, STATES = 256, MILLION = 1000000, EARLIER = 8, SHORT_RAMP = 480, LONG_RAMP = 48000 };
static const float RATE = 48000.0f;
static uint32_t out[4096], second[4096];

/* A player that has played nothing yet, with a ramp of so many frames. */
static netthimble_player begun_with(size_t ramp, size_t channels, size_t frames, bool looped, const uint32_t *words) {
    netthimble_options options = netthimble_default_options();
    options.ramp = ramp;
    netthimble_told made = netthimble_new_with(RATE, options);
    netthimble_player p = made.player;
    must(made.refusal);
    must(netthimble_player_set_buffer(&p, channels, frames, RATE, words, channels * frames));
    must(netthimble_player_loop(&p, looped));
    must(netthimble_player_start(&p, 0.0, 0.0, 1.7976931348623157e308));
    return p;
}

static netthimble_player begun(size_t channels, size_t frames, bool looped, const uint32_t *words) {
    return begun_with(0, channels, frames, looped, words);
}

static double from_rattle(size_t channels, size_t frames, bool looped, float rate, const uint32_t *words) {
    double t = now();
    if (!player_blocks(out, 4096, words, channels * frames, channels, frames, looped, rate, BLOCKS)) must(1);
    return (now() - t) / BLOCKS;
}

/* Blocks of a player through the C library: by the factor of the cents, or in cents. */
static double blocks_of(netthimble_player p, const uint32_t *words, size_t len, float rate, int32_t cents, bool in_cents) {
    double factor = netthimble_factor(cents).factor, t = now();
    for (size_t n = 0; n < BLOCKS; n++) {
        double time = (double)(128 * n) / RATE;
        if (in_cents) must(netthimble_player_process_cents(&p, out, 4096, words, len, time, rate, cents).refusal);
        else must(netthimble_player_process(&p, out, 4096, words, len, time, rate, factor).refusal);
    }
    return (now() - t) / BLOCKS;
}

/* Previews of the players that stand before the first blocks of a run, in turn; or the block call on a copy of each. */
static double shown_of(const netthimble_player *before, const uint32_t *words, size_t len, float rate, bool preview) {
    static netthimble_player copies[BLOCKS];
    for (size_t n = 0; n < BLOCKS; n++) copies[n] = before[n % STATES];
    double t = now();
    for (size_t n = 0; n < BLOCKS; n++) {
        double time = (double)(128 * (n % STATES)) / RATE;
        if (preview) must(netthimble_player_preview(&copies[n], out, 4096, words, len, time, rate, 1.0).refusal);
        else must(netthimble_player_process(&copies[n], out, 4096, words, len, time, rate, 1.0).refusal);
    }
    return (now() - t) / BLOCKS;
}

static void previewed(const char *name, netthimble_player p, const uint32_t *words, size_t len, float rate) {
    netthimble_player before[STATES];
    for (size_t n = 0; n < STATES; n++) {
        before[n] = p;
        must(netthimble_player_process(&p, out, 4096, words, len, (double)(128 * n) / RATE, rate, 1.0).refusal);
    }
    double block = 1e300, preview = 1e300;
    for (int turn = 0; turn < 3; turn++) {
        block = fmin(block, shown_of(before, words, len, rate, false));
        preview = fmin(preview, shown_of(before, words, len, rate, true));
    }
    printf("%s-shown %.1f\n%s-preview %.1f\n", name, block, name, preview);
}

static double pairs_of(netthimble_player p, const uint32_t *words, size_t len, float rate, bool preview) {
    netthimble_player twin = p;
    double t = now();
    for (size_t n = 0; n < BLOCKS; n++) {
        double time = (double)(128 * n) / RATE;
        if (preview) must(netthimble_player_preview(&p, second, 4096, words, len, time, rate, 1.0).refusal);
        else must(netthimble_player_process(&twin, second, 4096, words, len, time, rate, 1.0).refusal);
        must(netthimble_player_process(&p, out, 4096, words, len, time, rate, 1.0).refusal);
    }
    return (now() - t) / BLOCKS;
}

/* The same two calls in a run of blocks: a block counts half of two players' run, and a preview what it adds to one's. */
static void ahead(const char *name, netthimble_player p, const uint32_t *words, size_t len, float rate) {
    double twins = 1e300, with = 1e300;
    for (int turn = 0; turn < 3; turn++) {
        twins = fmin(twins, pairs_of(p, words, len, rate, false));
        with = fmin(with, pairs_of(p, words, len, rate, true));
    }
    printf("%s-twin %.1f\n%s-ahead %.1f\n", name, twins / 2, name, with - twins / 2);
}

/* The block call from a player on that stands before block number EARLIER, for STATES blocks, and again from there. */
static double stretches_of(netthimble_player before, const uint32_t *words, size_t len, float rate) {
    netthimble_player p = before;
    double t = now();
    for (size_t n = 0; n < BLOCKS; n++) {
        if (n % STATES == 0) p = before;
        must(netthimble_player_process(&p, out, 4096, words, len, (double)(128 * (EARLIER + n % STATES)) / RATE, rate, 1.0).refusal);
    }
    return (now() - t) / BLOCKS;
}

/* The same blocks without a ramp, past the rising one and before the falling one, and all within the rising one. */
static void ramped(const char *name, size_t channels, size_t frames, bool looped, const uint32_t *words, float rate) {
    size_t ramps[] = {0, SHORT_RAMP, LONG_RAMP}, len = channels * frames;
    const char *kinds[] = {"none", "outside", "inside"};
    netthimble_player before[3];
    double best[] = {1e300, 1e300, 1e300};
    for (int k = 0; k < 3; k++) {
        before[k] = begun_with(ramps[k], channels, frames, looped, words);
        if (k > 0) must(netthimble_player_stop(&before[k], 1e6));
        for (size_t n = 0; n < EARLIER; n++) must(netthimble_player_process(&before[k], out, 4096, words, len, (double)(128 * n) / RATE, rate, 1.0).refusal);
    }
    for (int turn = 0; turn < 3; turn++)
        for (int k = 0; k < 3; k++) best[k] = fmin(best[k], stretches_of(before[k], words, len, rate));
    for (int k = 0; k < 3; k++) printf("%s-%s %.1f\n", name, kinds[k], best[k]);
}

static double from_c(size_t channels, size_t frames, bool looped, float rate, const uint32_t *words, bool in_cents) {
    return blocks_of(begun(channels, frames, looped, words), words, channels * frames, rate, 0, in_cents);
}

/* Blocks of a counting player through the C library. */
static double counted(size_t channels, size_t frames, bool looped, const uint32_t *words) {
    netthimble_counter_made made = netthimble_counter_new(channels, frames, looped);
    netthimble_counter counter = made.counter;
    must(made.refusal);
    double t = now();
    for (size_t n = 0; n < BLOCKS; n++) must(netthimble_counter_process(&counter, out, 4096, words, channels * frames).refusal);
    return (now() - t) / BLOCKS;
}

/* One channel, looped, at other cents; or silent, since its start lies past every block. */
static void detuned(const char *name, bool silent, float rate, int32_t cents) {
    size_t frames = 1000;
    uint32_t *words = frames_of(frames, true);
    netthimble_player p = begun(1, frames, true, words);
    if (silent) {
        netthimble_told made = netthimble_new(RATE);
        p = made.player;
        must(netthimble_player_set_buffer(&p, 1, frames, RATE, words, frames));
        must(netthimble_player_start(&p, 1e6, 0.0, NETTHIMBLE_NEVER));
    }
    double c = 1e300, in_cents = 1e300;
    for (int turn = 0; turn < 3; turn++) {
        c = fmin(c, blocks_of(p, words, frames, rate, cents, false));
        in_cents = fmin(in_cents, blocks_of(p, words, frames, rate, cents, true));
    }
    printf("%s-c %.1f\n%s-cents %.1f\n", name, c, name, in_cents);
    if (silent && cents == 0) {
        previewed("silent", p, words, frames, rate);
        ahead("silent", p, words, frames, rate);
    }
    free(words);
}

static void block(const char *name, size_t channels, bool looped, float rate, bool noise) {
    size_t frames = looped ? 1000 : 128 * (BLOCKS + 2);
    uint32_t *words = frames_of(channels * frames, noise);
    double rattle = 1e300, c = 1e300, cents = 1e300, count = 1e300;
    for (int turn = 0; turn < 3; turn++) {
        rattle = fmin(rattle, from_rattle(channels, frames, looped, rate, words));
        c = fmin(c, from_c(channels, frames, looped, rate, words, false));
        cents = fmin(cents, from_c(channels, frames, looped, rate, words, true));
        if (rate == 1.0f) count = fmin(count, counted(channels, frames, looped, words));
    }
    if (rate == 1.0f) printf("%s-%zu-count %.1f\n", name, channels, count);
    printf("%s-%zu %.1f\n%s-%zu-c %.1f\n%s-%zu-cents %.1f\n", name, channels, rattle, name, channels, c, name, channels, cents);
    char label[64];
    snprintf(label, sizeof label, "%s-%zu", name, channels);
    previewed(label, begun(channels, frames, looped, words), words, channels * frames, rate);
    ahead(label, begun(channels, frames, looped, words), words, channels * frames, rate);
    ramped(label, channels, frames, looped, words, rate);
    free(words);
}

/* The frames of unlooped blocks by memcpy, the limit for an aligned block. */
static void limit(size_t channels) {
    size_t frames = 128 * (BLOCKS + 2);
    uint32_t *words = frames_of(channels * frames, true);
    double best = 1e300;
    for (int turn = 0; turn < 3; turn++) {
        double t = now();
        for (size_t n = 0; n < BLOCKS; n++) {
            for (size_t c = 0; c < channels; c++) memcpy(out + 128 * c, words + c * frames + 128 * n, 512);
            __asm__ volatile("" : : "r"(out) : "memory");
        }
        best = fmin(best, (now() - t) / BLOCKS);
    }
    printf("memcpy-once-%zu %.0f\n", channels, best);
    free(words);
}

static void blocks(void) {
    size_t counts[] = {1, 2, 8, 32};
    const char *names[] = {"aligned-once", "aligned-looped", "subsample-once", "subsample-looped"};
    for (int kind = 0; kind < 4; kind++)
        for (int c = 0; c < 4; c++) block(names[kind], counts[c], kind % 2, kind < 2 ? 1.0f : 0.75f, true);
    block("subsample-whole-numbers", 32, false, 0.75f, false);
    detuned("aligned-at-1200-cents", false, 0.5f, 1200);
    detuned("subsample-at-50-cents", false, 1.0f, 50);
    detuned("silent-at-0-cents", true, 1.0f, 0);
    detuned("silent-at-50-cents", true, 1.0f, 50);
    for (int c = 0; c < 4; c++) limit(counts[c]);
}

#define BEST(name, call) { \
    double best = 1e300; \
    for (int turn = 0; turn < 3; turn++) { \
        double t = now(); \
        call; \
        __asm__ volatile("" : : : "memory"); \
        best = fmin(best, now() - t); \
    } \
    printf("%s %.0f\n", name, best); }

/* A conversion of a million frames a channel, 44,100 to 48,000. */
static void conversion(size_t channels) {
    netthimble_shape source = {channels, MILLION, 44100.0f};
    size_t given = channels * MILLION, made = channels * netthimble_converted_shape(source, given, RATE).shape.frames;
    uint32_t *words = frames_of(given, true), *to = frames_of(made, true);
    char name[64];
    snprintf(name, sizeof name, "convert-%zu", channels);
    BEST(name, must(netthimble_convert(source, words, given, RATE, to, made).refusal))
    free(words);
    free(to);
}

static void buffers(void) {
    uint32_t *words = frames_of(MILLION, true), *to = frames_of(MILLION, true);
    BEST("copy-from-channel", must(netthimble_copy_from_channel(1, MILLION, words, MILLION, to, MILLION, 0, 0).refusal))
    BEST("copy-to-channel", must(netthimble_copy_to_channel(1, MILLION, to, MILLION, words, MILLION, 0, 0).refusal))
    BEST("memcpy-million", memcpy(to, words, 4 * MILLION))
    free(words);
    free(to);
    size_t counts[] = {1, 2, 8};
    for (int c = 0; c < 3; c++) conversion(counts[c]);
}

int main(void) {
    blocks();
    buffers();
}
