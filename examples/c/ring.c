/* Messages beside an audio thread. A player belongs to one thread at a time, and has no lock inside: so the audio thread alone calls it, and another
 * thread hands it messages through a ring buffer of one writer and one reader, which never waits. Here a loop in a second thread stands for a
 * device's callback; the main thread sends messages as fast as it can meanwhile, and then has the clip played to its last frame.
 *
 *     tools/build_library
 *     cc -std=c11 -pthread -Iinclude -o target/c/ring examples/c/ring.c target/c/libnetthimble.a -lm
 *     target/c/ring
 */
#include <pthread.h>
#include <stdatomic.h>
#include <stdio.h>
#include <string.h>
#include "netthimble.h"

enum { SLOTS = 64, CLIP_FRAMES = 300, BLOCKS = 2000, MOST_BLOCKS = 1000000 };

static const float SAMPLE_RATE = 48000.0f;

/* ---- the messages, and the ring that they go through */

typedef struct {
    enum { START, STOP, LOOP } kind;
    double when; /* of START and STOP, in seconds of the context */
    bool on;     /* of LOOP */
} message;

/* Both counts only grow. The writer alone moves `sent`, once the slot is filled; the reader alone moves `taken`, once the slot is read. */
static message ring[SLOTS];
static atomic_size_t sent, taken;

/* For the one writer: false where the ring is full, and then nothing is sent. */
static bool send_message(message m) {
    size_t at = atomic_load_explicit(&sent, memory_order_relaxed);
    if (at - atomic_load_explicit(&taken, memory_order_acquire) == SLOTS) return false;
    ring[at % SLOTS] = m;
    atomic_store_explicit(&sent, at + 1, memory_order_release);
    return true;
}

/* For the one reader: false where the ring is empty. */
static bool take_message(message *m) {
    size_t at = atomic_load_explicit(&taken, memory_order_relaxed);
    if (at == atomic_load_explicit(&sent, memory_order_acquire)) return false;
    *m = ring[at % SLOTS];
    atomic_store_explicit(&taken, at + 1, memory_order_release);
    return true;
}

/* ---- the audio thread: all that calls the player once it is running */

static netthimble_player player;
static uint32_t clip[CLIP_FRAMES];
static uint32_t out[NETTHIMBLE_OUT];
static atomic_int blocks;

/* The answers that an engineer would look at later: a callback prints nothing. Of several refusals the first is kept. */
static uint32_t refusal;
static size_t lost, next, silent;

static void keep(uint32_t number) {
    if (refusal == 0) refusal = number;
}

static uint32_t obey(message m) {
    if (m.kind == START) return netthimble_player_start(&player, m.when, 0.0, NETTHIMBLE_NEVER);
    if (m.kind == STOP) return netthimble_player_stop(&player, m.when);
    return netthimble_player_loop(&player, m.on);
}

/* The device: counts each sample that is neither the clip's next frame nor silence after the last one. */
static void hear(const uint32_t *samples) {
    for (size_t i = 0; i < NETTHIMBLE_FRAMES; i++) {
        if (silent == 0 && samples[i] == clip[next]) next = (next + 1) % CLIP_FRAMES;
        else if (next == 0 && samples[i] == 0) silent++;
        else lost++;
    }
}

/* What a callback does: all the messages that wait, also behind a refused one, then a block. A refused block leaves `out` as it was, with the last
 * block's samples: zeros go out in their place, and the next block may play again. False once nothing more is to come. */
static bool callback(int n) {
    message m;
    while (take_message(&m)) keep(obey(m));
    netthimble_block block = netthimble_player_process(&player, out, NETTHIMBLE_OUT, clip, CLIP_FRAMES, n * NETTHIMBLE_FRAMES / 48000.0, 1.0f, 1.0);
    keep(block.refusal);
    if (block.refusal != 0) memset(out, 0, sizeof out);
    hear(out);
    return !block.ended;
}

/* A host may have changed the floating-point mode of its own thread alone: so it is asked for here. */
static void *audio(void *unused) {
    int n = 0;
    if (!netthimble_is_ieee()) {
        printf("not the default floating-point mode\n");
        n = MOST_BLOCKS;
    }
    while (n < MOST_BLOCKS && callback(n)) atomic_store(&blocks, ++n);
    atomic_store(&blocks, MOST_BLOCKS);
    return unused;
}

/* ---- the other thread */

/* Sends it, as soon as there is room; false once the audio thread has done. */
static bool send_when_room(message m) {
    while (!send_message(m))
        if (atomic_load(&blocks) == MOST_BLOCKS) return false;
    return true;
}

int main(void) {
    pthread_t thread;
    message start = {START, 0.0, false}, on = {LOOP, 0.0, true}, off = {LOOP, 0.0, false};
    if (!netthimble_fits()) return printf("not the library of this header\n"), 1;
    for (size_t i = 0; i < CLIP_FRAMES; i++) clip[i] = netthimble_bits((float)(i + 1) / 1024.0f);
    if (netthimble_player_new(&player, SAMPLE_RATE) != 0) return 1;
    if (netthimble_player_set_buffer(&player, 1, CLIP_FRAMES, SAMPLE_RATE, clip, CLIP_FRAMES) != 0) return 1;
    /* from here on the player is the audio thread's; these two wait in the ring for its first block */
    send_message(start);
    send_message(on);
    if (pthread_create(&thread, NULL, audio, NULL) != 0) return 1;
    /* the same message all the time, while at least 2,000 blocks are played; then the loop is switched off, and the clip plays to its end */
    while (atomic_load(&blocks) < BLOCKS)
        if (!send_when_room(on)) break;
    send_when_room(off);
    pthread_join(thread, NULL);
    bool ended = player.render_state.ended && next == 0;
    printf("refused with %u, frames lost: %zu\n", (unsigned)refusal, lost);
    printf("ended after the last frame: %s\n", ended ? "yes" : "no");
    return refusal != 0 || lost != 0 || !ended;
}
