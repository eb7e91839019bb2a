/* The calls that play a block, of each library that is named, in turns: tools/compare_calls.py. Use: compare_calls TURNS LIBRARY.so ..
   A line for each row and library: its name, the library's number, the block call's time, its ratio to the first library's, and the ratios of
   the other calls to the block call. */
#include "measure.h"

/* AFTER is the block call once more, on copies of the players before each block, as the previews are called. */
enum { BLOCK, IN_CENTS, PREVIEW, PREVIEW_IN_CENTS, AFTER, CALLS, LIBRARIES = 4, STATES = 200 };
static struct {
    netthimble_block (*block)(netthimble_player *, uint32_t *, size_t, const uint32_t *, size_t, double, float, double);
    netthimble_block (*in_cents)(netthimble_player *, uint32_t *, size_t, const uint32_t *, size_t, double, float, int32_t);
    netthimble_block (*preview)(const netthimble_player *, uint32_t *, size_t, const uint32_t *, size_t, double, float, double);
    netthimble_block (*preview_in_cents)(const netthimble_player *, uint32_t *, size_t, const uint32_t *, size_t, double, float, int32_t);
    netthimble_told (*make)(float);
    netthimble_told (*loop)(netthimble_player, bool);
    netthimble_told (*start)(netthimble_player, double, double, double);
    uint32_t (*set_buffer)(netthimble_player *, size_t, size_t, float, const uint32_t *, size_t);
    netthimble_factored (*factor)(int32_t);
} calls[LIBRARIES];
static int libraries, turns;
static uint32_t out[4096];
static netthimble_player before[LIBRARIES][STATES], copies[STATES];
static double times[LIBRARIES][CALLS][1000];

/* A run of blocks from the player `p` on, by one of the calls. */
static double run(int v, int call, netthimble_player p, const uint32_t *words, size_t len, float rate, int32_t cents, size_t count) {
    double factor = calls[v].factor(cents).factor;
    memcpy(copies, before[v], count * sizeof *copies);
    double t = now();
    for (size_t n = 0; n < count; n++) {
        double time = 128.0 * n / 48000;
        netthimble_player *q = call == BLOCK || call == IN_CENTS ? &p : copies + n;
        netthimble_block told = call == IN_CENTS ? calls[v].in_cents(q, out, 4096, words, len, time, rate, cents)
            : call == PREVIEW                    ? calls[v].preview(q, out, 4096, words, len, time, rate, factor)
            : call == PREVIEW_IN_CENTS           ? calls[v].preview_in_cents(q, out, 4096, words, len, time, rate, cents)
                                                 : calls[v].block(q, out, 4096, words, len, time, rate, factor);
        must(told.refusal);
    }
    return (now() - t) / count;
}

static netthimble_player begun(int v, double when, size_t channels, size_t frames, const uint32_t *words) {
    netthimble_told told = calls[v].make(48000.0f);
    must(told.refusal);
    must(calls[v].set_buffer(&told.player, channels, frames, 48000.0f, words, channels * frames));
    told = calls[v].loop(told.player, true);
    must(told.refusal);
    told = calls[v].start(told.player, when, 0.0, NETTHIMBLE_NEVER);
    must(told.refusal);
    return told.player;
}

static double median(double *a, double *b) {
    static double ratios[1000];
    for (int r = 0; r < turns; r++) ratios[r] = b ? a[r] / b[r] : a[r];
    qsort(ratios, turns, 8, order);
    return ratios[turns / 2];
}

static void row(const char *name, size_t channels, double when, float rate, int32_t cents, size_t count) {
    size_t frames = 4096, len = channels * frames;
    uint32_t *words = frames_of(len, true);
    netthimble_player p[LIBRARIES];
    for (int v = 0; v < libraries; v++) {
        netthimble_player q = p[v] = begun(v, when, channels, frames, words);
        for (size_t n = 0; n < count; n++) {
            before[v][n] = q;
            must(calls[v].block(&q, out, 4096, words, len, 128.0 * n / 48000, rate, calls[v].factor(cents).factor).refusal);
        }
    }
    for (int r = 0; r < turns; r++)
        for (int k = 0; k < libraries * CALLS; k++) {
            int j = (k + r) % (libraries * CALLS), v = j / CALLS, call = j % CALLS;
            run(v, call, p[v], words, len, rate, cents, count);
            times[v][call][r] = run(v, call, p[v], words, len, rate, cents, count);
        }
    for (int v = 0; v < libraries; v++)
        printf("%s, %zu;%d;%f;%f;%f;%f;%f\n", name, channels, v, median(times[v][BLOCK], NULL), median(times[v][BLOCK], times[0][BLOCK]),
               median(times[v][IN_CENTS], times[v][BLOCK]), median(times[v][PREVIEW], times[v][AFTER]), median(times[v][PREVIEW_IN_CENTS], times[v][AFTER]));
    free(words);
}

int main(int argc, char **argv) {
    turns = atoi(argv[1]);
    libraries = argc - 2;
    for (int v = 0; v < libraries; v++) {
        void *library = opened(argv[2 + v]);
        calls[v].block = found(library, "netthimble_player_process");
        calls[v].in_cents = found(library, "netthimble_player_process_cents");
        calls[v].preview = found(library, "netthimble_player_preview");
        calls[v].preview_in_cents = found(library, "netthimble_player_preview_cents");
        calls[v].make = found(library, "netthimble_new");
        calls[v].loop = found(library, "netthimble_loop");
        calls[v].start = found(library, "netthimble_start");
        calls[v].set_buffer = found(library, "netthimble_player_set_buffer");
        calls[v].factor = found(library, "netthimble_factor");
    }
    row("silent, no cents", 1, 1e6, 1.0f, 0, STATES);
    row("silent, 50 cents", 1, 1e6, 1.0f, 50, STATES);
    for (size_t c = 1; c <= 32; c *= c < 2 ? 2 : 4) row("aligned, no cents", c, 0.0, 1.0f, 0, STATES);
    for (size_t c = 1; c <= 32; c *= c < 2 ? 2 : 4) row("aligned, 1200 cents", c, 0.0, 0.5f, 1200, STATES);
    for (size_t c = 1; c <= 32; c *= c < 2 ? 2 : 4) row("sub-sample, no cents", c, 0.0, 0.75f, 0, 160 / (c + 1));
    for (size_t c = 1; c <= 32; c *= c < 2 ? 2 : 4) row("sub-sample, 50 cents", c, 0.0, 1.0f, 50, 160 / (c + 1));
}
