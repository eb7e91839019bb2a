/* Two builds of the library and a second copy of the first, in turns: tools/compare_libraries.py.
   Use: compare_libraries OLD.so NEW.so OLD.so ROUNDS. Prints a table; of the times of a row, the lower quartile. */
#include "measure.h"

enum { LIBRARIES = 3, NOISE = 0, WHOLE, HALF_WAY, ALIGNED, IN_CENTS, PREVIEW, SILENT, KINDS };
static const char *NAMES[KINDS] = {"sub-sample", "sub-sample, whole numbers", "sub-sample, half way", "aligned",
                                   "sub-sample, in cents", "preview, sub-sample", "silent"};

/* Room for a player of any library, with a refusal behind it. A record this large is passed on the stack and returned through a pointer that is
   passed first; all else is passed in registers. So a library takes as much of this one as its own record is long. */
typedef struct {
    uint64_t words[64];
} room;

static struct {
    size_t (*size)(void);
    void *(*make)(room *, float);
    void *(*start)(room *, room, double, double, double);
    void *(*loop)(room *, room, bool);
    uint32_t (*set_buffer)(room *, size_t, size_t, float, const uint32_t *, size_t);
    netthimble_block (*block)(room *, uint32_t *, size_t, const uint32_t *, size_t, double, float, double);
    netthimble_block (*in_cents)(room *, uint32_t *, size_t, const uint32_t *, size_t, double, float, int32_t);
    netthimble_block (*preview)(const room *, uint32_t *, size_t, const uint32_t *, size_t, double, float, double);
} calls[LIBRARIES];
static uint32_t out[4096];

/* The refusal behind a library's player. */
static uint32_t refusal_of(int which, const room *told) {
    uint32_t refusal;
    memcpy(&refusal, (const char *)told + calls[which].size(), sizeof refusal);
    return refusal;
}

/* A fresh player of a library, looped, with its clip. */
static room begun(int which, double when, size_t channels, size_t frames, const uint32_t *words) {
    room p, told;
    calls[which].make(&p, 48000.0f);
    must(refusal_of(which, &p));
    must(calls[which].set_buffer(&p, channels, frames, 48000.0f, words, channels * frames));
    calls[which].loop(&told, p, true);
    must(refusal_of(which, &told));
    calls[which].start(&p, told, when, 0.0, NETTHIMBLE_NEVER);
    must(refusal_of(which, &p));
    return p;
}

/* Some blocks of a fresh player. */
static double blocks(int which, int kind, room p, const uint32_t *words, size_t len, size_t count) {
    float rate = kind == ALIGNED ? 1.0f : kind == HALF_WAY ? 0.5f : 0.75f;
    double t = now();
    for (size_t n = 0; n < count; n++) {
        double time = 128.0 * n / 48000;
        if (kind == IN_CENTS) calls[which].in_cents(&p, out, 4096, words, len, time, rate, 0);
        else if (kind == PREVIEW) calls[which].preview(&p, out, 4096, words, len, time, rate, 1.0);
        else calls[which].block(&p, out, 4096, words, len, time, rate, 1.0);
    }
    return (now() - t) / count;
}

static void row(int kind, size_t channels, int rounds) {
    size_t frames = 4096, len = channels * frames, count = kind == ALIGNED || kind == SILENT ? 200 : channels < 8 ? 6 : 2;
    uint32_t *words = frames_of(len, kind != WHOLE);
    double *times[LIBRARIES];
    room p[LIBRARIES];
    for (int v = 0; v < LIBRARIES; v++) {
        p[v] = begun(v, kind == SILENT ? 1e6 : 0.0, channels, frames, words);
        times[v] = malloc(8 * rounds);
    }
    for (int r = 0; r < rounds; r++)
        for (int k = 0; k < LIBRARIES; k++) {
            int v = (k + r) % LIBRARIES;
            blocks(v, kind, p[v], words, len, count);
            times[v][r] = blocks(v, kind, p[v], words, len, count);
        }
    for (int v = 0; v < LIBRARIES; v++) qsort(times[v], rounds, 8, order);
    double old = times[0][rounds / 4];
    double new = times[1][rounds / 4], again = times[2][rounds / 4];
    printf("| %s, %zu | %.0f | %.0f | %.3f | %.3f |\n", NAMES[kind], channels, old, new, new / old, again / old);
    for (int v = 0; v < LIBRARIES; v++) free(times[v]);
    free(words);
}

int main(int argc, char **argv) {
    if (argc != 2 + LIBRARIES) return 2;
    for (int v = 0; v < LIBRARIES; v++) {
        void *library = opened(argv[1 + v]);
        calls[v].size = found(library, "netthimble_player_size");
        if (calls[v].size() + 8 > sizeof(room)) return fprintf(stderr, "compare: a record of %zu bytes\n", calls[v].size()), 1;
        calls[v].make = found(library, "netthimble_new");
        calls[v].start = found(library, "netthimble_start");
        calls[v].loop = found(library, "netthimble_loop");
        calls[v].set_buffer = found(library, "netthimble_player_set_buffer");
        calls[v].block = found(library, "netthimble_player_process");
        calls[v].in_cents = found(library, "netthimble_player_process_cents");
        calls[v].preview = found(library, "netthimble_player_preview");
    }
    printf("| block, channels | old, ns | new, ns | new by old | old by old |\n|---|---|---|---|---|\n");
    for (int kind = 0; kind < KINDS; kind++)
        for (size_t channels = 1; channels <= 32; channels *= channels < 2 ? 2 : 4)
            row(kind, channels, atoi(argv[1 + LIBRARIES]));
}
