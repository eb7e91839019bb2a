/* What the programs that measure share: the time, frames to play, refusals that end the program, and the calls of a library that is opened. */
#ifndef MEASURE_H
#define MEASURE_H
#include <dlfcn.h>
#include <netthimble.h>
#include <stdio.h>
#include <stdlib.h>
#include <string.h>
#include <time.h>

/* Nanoseconds. */
static inline double now(void) {
    struct timespec t;
    clock_gettime(CLOCK_MONOTONIC, &t);
    return t.tv_sec * 1e9 + t.tv_nsec;
}

static inline int order(const void *a, const void *b) { return (*(double *)a > *(double *)b) - (*(double *)a < *(double *)b); }

/* Noise between -1 and 1, or the whole numbers from 0 on. */
static inline uint32_t *frames_of(size_t count, bool noise) {
    uint32_t state = 1, *words = malloc(4 * count);
    if (!words) abort();
    for (size_t i = 0; i < count; i++) {
        state = state * 1664525u + 1013904223u;
        float f = noise ? (float)(int32_t)state / 2147483648.0f : (float)i;
        memcpy(words + i, &f, 4);
    }
    return words;
}

static inline void must(uint32_t refusal) {
    if (refusal) exit((fprintf(stderr, "refused with %u\n", (unsigned)refusal), 1));
}

static inline void *opened(const char *file) {
    void *library = dlopen(file, RTLD_NOW | RTLD_LOCAL);
    if (!library) exit((fprintf(stderr, "%s\n", dlerror()), 1));
    return library;
}

static inline void *found(void *library, const char *name) {
    void *call = dlsym(library, name);
    if (!call) exit((fprintf(stderr, "%s\n", dlerror()), 1));
    return call;
}
#endif
