/* The replay protocol (oracle/PROTOCOL.md) over the C library: every call of the header, every field of a player.
 * tests/c_cases.py holds it to the recorded answers of the Rust original, crates/replay/stdout. */
#include <sys/mman.h>
#include "text.h"

enum { MOST_OUT = 65536, MOST_FRAMES = 16777216, MOST_SAMPLES = 536870912 };

static bool has_player;
static netthimble_player player;
static uint32_t *clip;
static size_t clip_len;

/* The call that waits for its words: its name, its numbers, and the words that it has and needs. */
static char call;
static size_t number[6];
static float rate[3];
static double tolerance[2];
static uint32_t *words;
static size_t got, needed;

/* The tolerances that a conversion is handed, if any. */
static bool is_handed;
static netthimble_tolerances handed;

static void refused(uint32_t refusal) {
    printf("X %" PRIu32 "\n", refusal);
}

static void print_shape(char name, netthimble_shape s, const uint32_t *samples) {
    printf("%c %zu %zu %08" PRIX32 "\n", name, s.channels, s.frames, netthimble_bits(s.rate));
    for (size_t c = 0; c < s.channels; c++) print_runs(c, samples + s.frames * c, s.frames);
}

static netthimble_shape shape(size_t channels, size_t frames, float sample_rate) {
    netthimble_shape s;
    s.channels = channels;
    s.frames = frames;
    s.rate = sample_rate;
    return s;
}

/* ---- the calls, once their words are there */

static void set_buffer(void) {
    uint32_t refusal = netthimble_player_set_buffer(&player, number[0], number[1], rate[0], words, needed);
    if (refusal != 0) {
        refused(refusal);
        return;
    }
    clip = words;
    clip_len = needed;
    words = NULL;
}

static void copy_from(void) {
    uint32_t *destination = words_of(number[4], 0xDEADBEEF);
    netthimble_copy r = netthimble_copy_from_channel(number[0], number[1], words, needed, destination, number[4], number[2], number[3]);
    if (r.refusal != 0) {
        refused(r.refusal);
    } else {
        printf("K %zu\n", r.count);
        print_runs(0, destination, number[4]);
    }
    free(destination);
}

static void copy_to(void) {
    size_t len = number[0] * number[1];
    netthimble_copy r = netthimble_copy_to_channel(number[0], number[1], words, len, words + len, number[4], number[2], number[3]);
    if (r.refusal != 0) {
        refused(r.refusal);
        return;
    }
    printf("K %zu\n", r.count);
    print_shape('K', shape(number[0], number[1], 48000.0f), words);
}

static void extend(void) {
    netthimble_shape a = shape(number[0], number[1], rate[0]), b = shape(number[2], number[3], rate[1]);
    size_t m = a.channels * a.frames, n = b.channels * b.frames;
    netthimble_shaped r = netthimble_extended_shape(a, m, b, n);
    if (r.refusal != 0) {
        refused(r.refusal);
        return;
    }
    size_t len = r.shape.channels * r.shape.frames;
    uint32_t *out = words_of(len, 0xDEADBEEF);
    r = netthimble_extend(a, words, m, b, words + m, n, out, len);
    if (r.refusal != 0) refused(r.refusal);
    else print_shape('J', r.shape, out);
    free(out);
}

static void part(void) {
    netthimble_shape s = shape(number[0], number[1], rate[0]);
    netthimble_parts r = netthimble_split_shapes(s, needed, number[2]);
    if (r.refusal != 0) {
        refused(r.refusal);
        return;
    }
    size_t m = r.first.channels * r.first.frames, n = r.rest.channels * r.rest.frames;
    uint32_t *first = words_of(m, 0xDEADBEEF), *rest = words_of(n, 0xDEADBEEF);
    r = netthimble_split(s, words, needed, number[2], first, m, rest, n);
    if (r.refusal != 0) {
        refused(r.refusal);
    } else {
        print_shape('V', r.first, first);
        print_shape('V', r.rest, rest);
    }
    free(first);
    free(rest);
}

static netthimble_shaped converted_shape(netthimble_shape s) {
    return is_handed ? netthimble_converted_shape_with(s, needed, rate[1], handed) : netthimble_converted_shape(s, needed, rate[1]);
}

static netthimble_shaped converted(netthimble_shape s, uint32_t *out, size_t len) {
    return is_handed ? netthimble_convert_with(s, words, needed, rate[1], handed, out, len) : netthimble_convert(s, words, needed, rate[1], out, len);
}

static void convert(void) {
    netthimble_shape s = shape(number[0], number[1], rate[0]);
    netthimble_shaped r = converted_shape(s);
    if (r.refusal != 0) {
        refused(r.refusal);
        return;
    }
    size_t len = r.shape.channels * r.shape.frames;
    uint32_t *out = words_of(len, 0xDEADBEEF);
    r = converted(s, out, len);
    if (r.refusal != 0) refused(r.refusal);
    else print_shape('Q', r.shape, out);
    free(out);
}

static void make_call(void) {
    if (call == 'C') set_buffer();
    if (call == 'F') copy_from();
    if (call == 'T') copy_to();
    if (call == 'J') extend();
    if (call == 'V') part();
    if (call == 'Q') convert();
    free(words);
    words = NULL;
    call = 0;
}

/* ---- lines */

static bool is_bad_shape(size_t channels, size_t frames) {
    return channels < 1 || channels > 32 || frames > MOST_FRAMES;
}

/* Whether the words are those of a call's first line; its numbers are stored. In a form, d is a decimal, f an f32 and g an f64. */
static bool is_call(const word *w, size_t count, const char *name, const char *form) {
    size_t numbers = 0, rates = 0, others = 0;
    if (!is(w[0], name) || count != 1 + strlen(form)) return false;
    for (size_t i = 0; form[i]; i++) {
        bool ok = form[i] == 'd' ? dec(w[i + 1], &number[numbers++]) : form[i] == 'f' ? f32_word(w[i + 1], &rate[rates++]) : f64_word(w[i + 1], &tolerance[others++]);
        if (!ok) return false;
    }
    return true;
}

static void await(char name, bool two, size_t more) {
    if (is_bad_shape(number[0], number[1]) || (two && is_bad_shape(number[2], number[3]))) {
        refused(NETTHIMBLE_SHAPE);
        return;
    }
    call = name;
    needed = number[0] * number[1] + (two ? number[2] * number[3] : 0) + more;
    got = 0;
    words = words_of(needed, 0);
    if (needed == 0) make_call();
}

/* A conversion, with the tolerances of its line or none: these are made before the shape is looked at. */
static void await_conversion(bool with) {
    uint32_t refusal = with ? netthimble_tolerances_set(&handed, tolerance[0], tolerance[1], rate[2]) : 0;
    is_handed = with;
    if (refusal != 0) refused(refusal);
    else await('Q', false, 0);
}

static bool first_line(const word *w, size_t count) {
    if (has_player && is_call(w, count, "C", "ddf")) await('C', false, 0);
    else if (is_call(w, count, "KF", "ddddd") && number[4] <= MOST_FRAMES) await('F', false, 0);
    else if (is_call(w, count, "KT", "ddddd") && number[4] <= MOST_FRAMES) await('T', false, number[4]);
    else if (is_call(w, count, "J", "ddfddf")) await('J', true, 0);
    else if (is_call(w, count, "V", "ddfd")) await('V', false, 0);
    else if (is_call(w, count, "Q", "ddff")) await_conversion(false);
    else if (is_call(w, count, "Q", "ddffggf")) await_conversion(true);
    else return false;
    return true;
}

/* Whether the line gives words to the call that waits. */
static bool more_words(const word *w, size_t count) {
    if (count < 2 || !is(w[0], "W") || count - 1 > needed - got) return false;
    for (size_t i = 1; i < count; i++) {
        uint64_t bits;
        if (!hex(w[i], 8, &bits)) return false;
        words[got + i - 1] = (uint32_t)bits;
    }
    got += count - 1;
    if (got == needed) make_call();
    return true;
}

static bool message(const word *w, size_t count) {
    double x, y, z;
    uint32_t refusal;
    if (count == 4 && is(w[0], "S") && f64_word(w[1], &x) && f64_word(w[2], &y) && f64_word(w[3], &z)) refusal = netthimble_player_start(&player, x, y, z);
    else if (count == 2 && is(w[0], "T") && f64_word(w[1], &x)) refusal = netthimble_player_stop(&player, x);
    else if (count == 2 && is(w[0], "P") && f64_word(w[1], &x)) refusal = netthimble_player_loop_start(&player, x);
    else if (count == 2 && is(w[0], "E") && f64_word(w[1], &x)) refusal = netthimble_player_loop_end(&player, x);
    else if (count == 2 && is(w[0], "L") && (is(w[1], "0") || is(w[1], "1"))) refusal = netthimble_player_loop(&player, is(w[1], "1"));
    else return false;
    if (refusal != 0) refused(refusal);
    return true;
}

/* The number of 32 bits in two's complement. */
static bool i32_word(word w, int32_t *value) {
    uint64_t bits;
    if (!hex(w, 8, &bits)) return false;
    *value = bits < 0x80000000 ? (int32_t)bits : -1 - (int32_t)(0xFFFFFFFF - bits);
    return true;
}

/* A block by its factor (B) or in cents (D), or a preview of it (M, N). */
static netthimble_block rendered(char kind, uint32_t *out, size_t out_len, const uint32_t *samples, size_t len, double time, float speed, double factor, int32_t cents) {
    if (kind == 'B') return netthimble_player_process(&player, out, out_len, samples, len, time, speed, factor);
    if (kind == 'D') return netthimble_player_process_cents(&player, out, out_len, samples, len, time, speed, cents);
    if (kind == 'M') return netthimble_player_preview(&player, out, out_len, samples, len, time, speed, factor);
    return netthimble_player_preview_cents(&player, out, out_len, samples, len, time, speed, cents);
}

/* Samples of another length than the clip's are pages that hold zeros. */
static bool block(const word *w, size_t count) {
    static uint32_t first[MOST_OUT], second[MOST_OUT];
    double time, factor = 1;
    float speed;
    int32_t cents = 0;
    size_t out_len = NETTHIMBLE_OUT, len = clip_len;
    const uint32_t *samples = clip;
    if (count < 4 || count > 6 || !f64_word(w[1], &time) || !f32_word(w[2], &speed)) return false;
    bool previews = is(w[0], "M") || is(w[0], "N"), by_factor = is(w[0], "B") || is(w[0], "M");
    if (!by_factor && !is(w[0], "D") && !is(w[0], "N")) return false;
    if (by_factor ? !f64_word(w[3], &factor) : !i32_word(w[3], &cents)) return false;
    uint32_t *out = previews ? second : first;
    if (count > 4 && (!dec(w[4], &out_len) || out_len > MOST_OUT)) return false;
    if (count > 5 && (!dec(w[5], &len) || len > MOST_SAMPLES)) return false;
    if (len != clip_len && len != 0) samples = (const uint32_t *)mmap(NULL, 4 * len, PROT_READ, MAP_PRIVATE | MAP_ANONYMOUS | MAP_NORESERVE, -1, 0);
    if (samples == MAP_FAILED) exit(3);
    char kind = previews ? (by_factor ? 'M' : 'N') : by_factor ? 'B' : 'D';
    netthimble_block b = rendered(kind, out, out_len, samples, len, time, speed, factor, cents);
    if (len != clip_len && len != 0) munmap((void *)samples, 4 * len);
    if (b.refusal != 0) {
        refused(b.refusal);
        return true;
    }
    printf("%c %d %d %zu %016" PRIX64 "\n", kind == 'D' ? 'B' : kind, b.keep_alive, b.ended, b.channels, bits64(b.position));
    for (size_t c = 0; c < b.channels; c++) print_runs(c, out + NETTHIMBLE_FRAMES * c, NETTHIMBLE_FRAMES);
    return true;
}

static void print_player(void) {
    const netthimble_player *p = &player;
    printf("Z %016" PRIX64 " %016" PRIX64 " %016" PRIX64 " %016" PRIX64, bits64(p->start_time), bits64(p->stop_time), bits64(p->offset), bits64(p->duration));
    printf(" %d %016" PRIX64 " %016" PRIX64, p->loop_state.is_looping, bits64(p->loop_state.start), bits64(p->loop_state.end));
    printf(" %016" PRIX64 " %d %d %016" PRIX64, bits64(p->render_state.buffer_time), p->render_state.started, p->render_state.entered_loop, bits64(p->render_state.buffer_time_elapsed));
    printf(" %d %d %d %d", p->render_state.is_aligned, p->render_state.ended, p->has_start, p->has_buffer);
    if (p->has_block) printf(" %016" PRIX64 "\n", bits64(p->block_time));
    else printf(" none\n");
}

static void print_ramp(void) {
    printf("Y %zu %" PRIu64, player.ramp.length, player.ramp.count);
    if (player.ramp.has_stop_sample) printf(" %" PRIu64 "\n", player.ramp.stop_sample);
    else printf(" none\n");
}

/* Makes a player, with tolerances and a ramp where the words name them; false where they are no such line. */
static bool make_player(const word *w, size_t count) {
    float sample_rate, relabel;
    double near, near_zero;
    netthimble_options options = netthimble_default_options();
    uint32_t refusal = 0;
    if ((count != 2 && count != 3 && count != 5 && count != 6) || !is(w[0], "R") || !f32_word(w[1], &sample_rate)) return false;
    if (count % 3 == 0 && !dec(w[count - 1], &options.ramp)) return false;
    if (count >= 5) {
        if (!f64_word(w[2], &near) || !f64_word(w[3], &near_zero) || !f32_word(w[4], &relabel)) return false;
        refusal = netthimble_tolerances_set(&options.tolerances, near, near_zero, relabel);
    }
    if (refusal == 0) refusal = count == 2 ? netthimble_player_new(&player, sample_rate) : netthimble_player_new_with(&player, sample_rate, options);
    free(clip);
    clip = NULL;
    clip_len = 0;
    has_player = refusal == 0;
    if (refusal != 0) refused(refusal);
    return true;
}

static void obey(const char *line, size_t len) {
    word w[MOST_WORDS];
    size_t count = split(line, len, w);
    if (call != 0) {
        if (count > 0 && more_words(w, count)) return;
        call = 0;
        free(words);
        words = NULL;
        printf("X 0\n");
    }
    if (len > 0 && line[0] == '#') printf("%.*s\n", (int)len, line);
    else if (count > 0 && make_player(w, count)) return;
    else if (count == 1 && is(w[0], "Z") && has_player) print_player();
    else if (count == 1 && is(w[0], "Y") && has_player) print_ramp();
    else if (count == 0 || !(first_line(w, count) || (has_player && (message(w, count) || block(w, count))))) printf("X 0\n");
}

int main(void) {
    size_t len;
    char *text = read_all(stdin, &len);
    for (size_t from = 0; from < len;) {
        const char *end = (const char *)memchr(text + from, '\n', len - from);
        size_t size = end ? (size_t)(end - text) - from : len - from;
        obey(text + from, size);
        from += size + 1;
    }
    free(text);
    return 0;
}
