/* `trial` over the C library: plays clip.bin of the working folder and obeys the lines of standard input (docs/REFERENCE.md, 'trial').
 * tests/c_cases.py compares what it prints with what `trial` prints. */
#include "text.h"

static uint32_t out[NETTHIMBLE_OUT];

static void print_block(size_t number, netthimble_block b) {
    printf("B %zu %d %d %zu\n", number, b.keep_alive, b.ended, b.channels);
    for (size_t c = 0; c < b.channels; c++) print_runs(c, out + NETTHIMBLE_FRAMES * c, NETTHIMBLE_FRAMES);
}

/* A message's answer: the refusal's number, 0 for none; false if the line is no message. */
static bool message(netthimble_player *p, const word *w, size_t count, uint32_t *refusal) {
    double x, y, z;
    if (count == 4 && is(w[0], "S") && f64_word(w[1], &x) && f64_word(w[2], &y) && f64_word(w[3], &z)) *refusal = netthimble_player_start(p, x, y, z);
    else if (count == 2 && is(w[0], "T") && f64_word(w[1], &x)) *refusal = netthimble_player_stop(p, x);
    else if (count == 2 && is(w[0], "P") && f64_word(w[1], &x)) *refusal = netthimble_player_loop_start(p, x);
    else if (count == 2 && is(w[0], "E") && f64_word(w[1], &x)) *refusal = netthimble_player_loop_end(p, x);
    else if (count == 2 && is(w[0], "L") && (is(w[1], "0") || is(w[1], "1"))) *refusal = netthimble_player_loop(p, is(w[1], "1"));
    else return false;
    return true;
}

int main(void) {
    size_t file_len = 0, len, number = 0;
    FILE *stream = fopen("clip.bin", "rb");
    char *file = stream ? read_all(stream, &file_len) : NULL;
    netthimble_shaped_with_onset clip = netthimble_clip_with_onset((const uint8_t *)file, file_len);
    size_t samples_len = clip.shape.channels * clip.shape.frames;
    uint32_t *samples = words_of(samples_len, 0);
    static netthimble_player p;
    uint32_t refusal = clip.refusal;
    if (refusal == 0) refusal = netthimble_clip_frames_with_onset((const uint8_t *)file, file_len, samples, samples_len);
    if (refusal == 0) refusal = netthimble_player_new(&p, clip.shape.rate);
    if (refusal == 0) refusal = netthimble_player_set_buffer(&p, clip.shape.channels, clip.shape.frames, clip.shape.rate, samples, samples_len);
    if (refusal != 0) return printf("X %" PRIu32 "\n", refusal) < 0;
    char *text = read_all(stdin, &len);
    for (size_t from = 0; from < len;) {
        word w[MOST_WORDS];
        const char *end = (const char *)memchr(text + from, '\n', len - from);
        size_t size = end ? (size_t)(end - text) - from : len - from;
        size_t count = split(text + from, size, w);
        from += size + 1;
        if (count == 1 && is(w[0], "B")) {
            netthimble_block b = netthimble_player_process(&p, out, NETTHIMBLE_OUT, samples, samples_len, 128.0 * (double)number / clip.shape.rate, 1.0f, 1.0);
            refusal = b.refusal;
            if (refusal == 0) print_block(number, b);
            number++;
        } else if (count == 0 || !message(&p, w, count, &refusal)) {
            printf("X 0\n");
            refusal = 0;
        }
        if (refusal != 0) printf("X %" PRIu32 "\n", refusal);
    }
    return 0;
}
