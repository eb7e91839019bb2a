/* Plays a clip of two channels to two ears, and then one of one channel to both, as a callback does that is asked for left and right in turn. The
 * sound begins within the second block and ends within the third. Where nothing sounds a block answers one channel alone, and leaves the others
 * of its output as they were: so `interleave` reads the count at each block.
 *
 *     tools/build_library
 *     cc -Iinclude -o target/c/ears examples/c/ears.c target/c/libnetthimble.a -lm
 *     target/c/ears
 */
#include <stdio.h>
#include "netthimble.h"

enum { CLIP_FRAMES = 200, EARS = 2, BLOCKS = 5 };

static const float SAMPLE_RATE = 48000.0f;

/* A player's record is static, or set to zeros: it is never memory in which nothing was stored. */
static netthimble_player player;
static uint32_t clip[EARS * CLIP_FRAMES];
static uint32_t out[NETTHIMBLE_OUT];

/* A block for both ears. A clip of one channel goes to both; an ear whose channel the block does not answer gets silence, and so do both of a
 * refused block, which answers none. */
static void interleave(float *ears, netthimble_block block, size_t clip_channels) {
    for (size_t ear = 0; ear < EARS; ear++) {
        size_t c = clip_channels == 1 ? 0 : ear;
        for (size_t i = 0; i < NETTHIMBLE_FRAMES; i++)
            ears[EARS * i + ear] = c < block.channels ? netthimble_float(out[NETTHIMBLE_FRAMES * c + i]) : 0.0f;
    }
}

static int refused(const char *call, uint32_t number) {
    printf("%s: refused with %u\n", call, (unsigned)number);
    return 1;
}

/* Plays the first channels of the clip from sample 160 on, which is sample 32 of the second block. */
static int play(size_t channels) {
    static float ears[EARS * NETTHIMBLE_FRAMES];
    uint32_t refusal;
    if ((refusal = netthimble_player_new(&player, SAMPLE_RATE)) != 0) return refused("new", refusal);
    if ((refusal = netthimble_player_set_buffer(&player, channels, CLIP_FRAMES, SAMPLE_RATE, clip, channels * CLIP_FRAMES)) != 0) return refused("set_buffer", refusal);
    if ((refusal = netthimble_player_start(&player, 160 / 48000.0, 0.0, NETTHIMBLE_NEVER)) != 0) return refused("start", refusal);
    for (int n = 0; n < BLOCKS; n++) {
        netthimble_block block = netthimble_player_process(&player, out, NETTHIMBLE_OUT, clip, channels * CLIP_FRAMES, n * NETTHIMBLE_FRAMES / 48000.0, 1.0f, 1.0);
        if (block.refusal != 0) return refused("block", block.refusal);
        interleave(ears, block, channels);
        printf("%d in the clip, block %d answers %d: left", (int)channels, n, (int)block.channels);
        for (size_t i = 0; i < NETTHIMBLE_FRAMES; i += 42) printf(" %g", (double)ears[EARS * i]);
        printf(", right");
        for (size_t i = 0; i < NETTHIMBLE_FRAMES; i += 42) printf(" %g", (double)ears[EARS * i + 1]);
        printf(", keep_alive %d, ended %d\n", block.keep_alive, block.ended);
    }
    return 0;
}

int main(void) {
    if (!netthimble_fits()) return printf("not the library of this header\n"), 1;
    if (!netthimble_is_ieee()) return printf("not the default floating-point mode\n"), 1;
    for (size_t i = 0; i < CLIP_FRAMES; i++) {
        clip[i] = netthimble_bits(0.5f);                /* left */
        clip[CLIP_FRAMES + i] = netthimble_bits(-0.25f); /* right */
    }
    return play(2) || play(1);
}
