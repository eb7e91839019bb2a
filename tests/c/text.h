/* What the test programs that read and write lines share: words of a line, numbers as bits in hex, and runs of equal words. */
#ifndef TEXT_H
#define TEXT_H
#include <inttypes.h>
#include <stdio.h>
#include <stdlib.h>
#include "netthimble.h"

enum { MOST_WORDS = 256 };

typedef struct {
    const char *at;
    size_t len;
} word;

/* The words of a line, parted by exactly one space; 0 if it has an empty word or too many. */
static inline size_t split(const char *line, size_t len, word *words) {
    size_t count = 0, from = 0;
    for (size_t i = 0; i <= len; i++) {
        if (i < len && line[i] != ' ') continue;
        if (i == from || count == MOST_WORDS) return 0;
        words[count].at = line + from;
        words[count++].len = i - from;
        from = i + 1;
    }
    return count;
}

static inline bool is(word w, const char *text) {
    return strlen(text) == w.len && memcmp(w.at, text, w.len) == 0;
}

/* Exactly `digits` upper-case hex digits. */
static inline bool hex(word w, size_t digits, uint64_t *value) {
    if (w.len != digits) return false;
    *value = 0;
    for (size_t i = 0; i < digits; i++) {
        char c = w.at[i];
        if (!(('0' <= c && c <= '9') || ('A' <= c && c <= 'F'))) return false;
        *value = 16 * *value + (uint64_t)(c <= '9' ? c - '0' : c - 'A' + 10);
    }
    return true;
}

static inline bool f32_word(word w, float *value) {
    uint64_t bits;
    if (!hex(w, 8, &bits)) return false;
    *value = netthimble_float((uint32_t)bits);
    return true;
}

static inline bool f64_word(word w, double *value) {
    uint64_t bits;
    if (!hex(w, 16, &bits)) return false;
    memcpy(value, &bits, 8);
    return true;
}

/* 1 to 19 decimal digits. */
static inline bool dec(word w, size_t *value) {
    if (w.len < 1 || w.len > 19) return false;
    *value = 0;
    for (size_t i = 0; i < w.len; i++) {
        if (w.at[i] < '0' || w.at[i] > '9') return false;
        *value = 10 * *value + (size_t)(w.at[i] - '0');
    }
    return true;
}

static inline uint64_t bits64(double value) {
    uint64_t bits;
    memcpy(&bits, &value, 8);
    return bits;
}

/* A line for each run of equal words of a channel. */
static inline void print_runs(size_t channel, const uint32_t *words, size_t len) {
    size_t first = 0;
    for (size_t i = 1; i <= len; i++) {
        if (i < len && words[i] == words[first]) continue;
        printf("%zu %zu %zu %08" PRIX32 "\n", channel, first, i - first, words[first]);
        first = i;
    }
}

/* `len` words, each set to `value`; at least one, so that the pointer is never null. */
static inline uint32_t *words_of(size_t len, uint32_t value) {
    uint32_t *words = (uint32_t *)malloc(4 * (len ? len : 1));
    if (!words) exit(3);
    for (size_t i = 0; i < len; i++) words[i] = value;
    return words;
}

/* All of a stream. */
static inline char *read_all(FILE *stream, size_t *len) {
    size_t room = 1 << 16;
    char *text = (char *)malloc(room);
    *len = 0;
    for (;;) {
        if (!text) exit(3);
        size_t got = fread(text + *len, 1, room - *len, stream);
        *len += got;
        if (got == 0) return text;
        if (*len == room) text = (char *)realloc(text, room *= 2);
    }
}
#endif
