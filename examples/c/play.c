/* Plays a clip file, looped, and prints each block's first samples, position and whether the player has ended.
 *
 *     tools/build_library
 *     cc -Iinclude -o target/c/play examples/c/play.c target/c/libnetthimble.a -lm
 *     target/c/play examples/tone/clip.bin       (or examples/onset/clip.bin, which has an onset)
 */
#include <stdio.h>
#include <stdlib.h>
#include "netthimble.h"

/* A file's bytes. No clip file is longer than 65,536 bytes; one byte more is enough to have a longer file refused. */
static uint8_t file[65537];
static uint32_t out[NETTHIMBLE_OUT];

/* A player's record is static, or set to zeros: it is never memory in which nothing was stored. */
static netthimble_player player;

static int refused(const char *call, uint32_t number) {
    printf("%s: refused with %u\n", call, (unsigned)number);
    return 1;
}

int main(int count, char **words) {
    if (!netthimble_fits()) return printf("not the library of this header\n"), 1;
    if (!netthimble_is_ieee()) return printf("not the default floating-point mode\n"), 1;
    FILE *stream = fopen(count > 1 ? words[1] : "examples/tone/clip.bin", "rb");
    size_t len = stream ? fread(file, 1, sizeof file, stream) : 0;
    netthimble_shaped_with_onset clip = netthimble_clip_with_onset(file, len);
    if (clip.refusal != 0) return refused("clip", clip.refusal);

    size_t samples_len = clip.shape.channels * clip.shape.frames;
    uint32_t *samples = (uint32_t *)malloc(4 * samples_len);
    if (samples == NULL) return 1;
    uint32_t refusal = netthimble_clip_frames_with_onset(file, len, samples, samples_len);
    if (refusal != 0) return refused("frames", refusal);
    printf("clip: %zu channel(s) of %zu frames at %g, onset %u\n", clip.shape.channels, clip.shape.frames, clip.shape.rate, (unsigned)clip.onset);

    /* a player at the clip's rate, started at 0 and looped */
    if ((refusal = netthimble_player_new(&player, clip.shape.rate)) != 0) return refused("new", refusal);
    if ((refusal = netthimble_player_set_buffer(&player, clip.shape.channels, clip.shape.frames, clip.shape.rate, samples, samples_len)) != 0) return refused("set_buffer", refusal);
    if ((refusal = netthimble_player_start(&player, 0.0, 0.0, NETTHIMBLE_NEVER)) != 0) return refused("start", refusal);
    if ((refusal = netthimble_player_loop(&player, true)) != 0) return refused("loop", refusal);

    /* a second start is refused, and the player stays as it was */
    refused("a second start", netthimble_player_start(&player, 1.0, 0.0, NETTHIMBLE_NEVER));

    /* five blocks, and a stop inside the fifth */
    for (int n = 0; n < 5; n++) {
        double time = 128.0 * n / clip.shape.rate;
        if (n == 4) netthimble_player_stop(&player, time + 64.0 / clip.shape.rate);
        netthimble_block block = netthimble_player_process(&player, out, NETTHIMBLE_OUT, samples, samples_len, time, 1.0f, 1.0);
        if (block.refusal != 0) return refused("block", block.refusal);
        /* the clip's first channel; a block that is silent answers one channel alone (examples/c/ears.c) */
        printf("block %d: %08X %08X %08X .. %08X, position %.9f, ended %d\n", n, (unsigned)out[0], (unsigned)out[1], (unsigned)out[2], (unsigned)out[127], block.position, block.ended);
    }
    free(samples);
    fclose(stream);
    return 0;
}
