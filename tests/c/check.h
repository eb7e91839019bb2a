/* What the test programs by single calls share: facts that are counted, lent memory up to a page that nobody may touch, the fields of a player,
 * and the bytes that an answer writes. */
#ifndef CHECK_H
#define CHECK_H
#include <stdio.h>
#include <stdlib.h>
#include <sys/mman.h>
#include "netthimble.h"

static int passed, failed;

#define CHECK(fact) check((fact), #fact, __LINE__)

static inline void check(bool ok, const char *what, int line) {
    if (ok) passed++;
    else printf("line %d: not so: %s\n", line, what), failed++;
}

/* `size` bytes up to a page that nobody may touch; never freed. */
static inline void *lent_room(size_t size) {
    size_t page = 4096, room = (size + page) / page * page;
    char *at = (char *)mmap(NULL, room + page, PROT_READ | PROT_WRITE, MAP_PRIVATE | MAP_ANONYMOUS, -1, 0);
    if (at == MAP_FAILED || mprotect(at + room, page, PROT_NONE) != 0) exit(3);
    return at + room - size;
}

/* `len` words there, each set to `value`. */
static inline uint32_t *lent(size_t len, uint32_t value) {
    uint32_t *words = (uint32_t *)lent_room(4 * len);
    for (size_t i = 0; i < len; i++) words[i] = value;
    return words;
}

static inline bool all(const uint32_t *words, size_t from, size_t to, uint32_t value) {
    for (size_t i = from; i < to; i++)
        if (words[i] != value) return false;
    return true;
}

static inline netthimble_shape shape(size_t channels, size_t frames, float rate) {
    netthimble_shape s;
    s.channels = channels;
    s.frames = frames;
    s.rate = rate;
    return s;
}

/* A record in which no call has stored yet, as it may be lent to the call that makes a player. */
static inline netthimble_player zeroed(void) {
    netthimble_player p;
    memset(&p, 0, sizeof p);
    return p;
}

/* Where the fields of a player lie, and the bytes of each; then those of a refusal behind it. */
static const size_t field_at[] = {0, 8, 16, 24, 32, 40, 48, 56, 64, 72, 73, 80, 88, 89, 96, 97, 104, 112, 120, 128, 136, 144, 152, 160, 168, 176, 184, 192, 200};
static const size_t field_size[] = {4, 8, 8, 8, 8, 1, 8, 8, 8, 1, 1, 8, 1, 1, 1, 1, 8, 8, 4, 1, 8, 8, 8, 4, 8, 8, 1, 8, 4};
enum { PLAYER_FIELDS = 28, TOLD_FIELDS = PLAYER_FIELDS + 1 };

/* The same bytes in every field. */
static inline bool same(const netthimble_player *a, const netthimble_player *b) {
    for (size_t i = 0; i < PLAYER_FIELDS; i++)
        if (memcmp((const char *)a + field_at[i], (const char *)b + field_at[i], field_size[i]) != 0) return false;
    return true;
}

/* On x86-64 a large record is returned through a pointer that is passed first; so the library can write straight into the memory here, over
 * bytes of two fillings: a byte that is the same after both was written. */

typedef void (*any)(void);

static unsigned char one[256], two[256];

static inline void fill(void) {
    memset(one, 0xAA, sizeof one);
    memset(two, 0x55, sizeof two);
}

static inline bool written(size_t from, size_t size) {
    for (size_t i = from; i < from + size; i++)
        if (one[i] != two[i]) return false;
    return true;
}

/* Whether the bytes behind a record of `size` are those that they were filled with. */
static inline bool untouched(size_t size) {
    for (size_t i = size; i < sizeof one; i++)
        if (one[i] != 0xAA || two[i] != 0x55) return false;
    return true;
}
#endif
