/* The staircase from C: cases by hand, refusals at both sides of each limit, the bytes that are written, and that the list of lapses is only read,
 * up to a page that nobody may touch. tests/staircase_cases.py holds it against a reading in Python. */
#include "check.h"

enum { PLACES = NETTHIMBLE_TRIALS };

/* Entries up to a page that nobody may touch. */
static size_t *entries(size_t len, const size_t *from) {
    size_t *lapses = (size_t *)lent_room(sizeof(size_t) * len);
    for (size_t i = 0; i < len; i++) lapses[i] = from[i];
    return lapses;
}

static bool is(const netthimble_tracked *t, size_t trials, const int *levels, const char *heard, size_t reversals) {
    for (size_t k = 0; k < PLACES; k++) {
        if (t->track.levels[k] != (k < trials ? levels[k] : 0)) return false;
        if (t->track.heard[k] != (k < trials && heard[k] == '1')) return false;
    }
    return t->track.reversals == reversals && t->refusal == 0;
}

static bool is_refused(const netthimble_tracked *t) {
    for (size_t k = 0; k < PLACES; k++)
        if (t->track.levels[k] != 0 || t->track.heard[k]) return false;
    return t->track.reversals == 0 && t->refusal == NETTHIMBLE_STAIRCASE;
}

static void by_hand(void) {
    const size_t four[] = {4}, many[] = {SIZE_MAX, 4, 8, 1000, 4, 4};
    const int still[] = {0, 0, 0, 0, 0, 3, 3, 0}, part[] = {2, 2, 0, 0, 0, 5, 5, 0}, top[] = {118, 120, 120, 115, 120, 120, 115};
    netthimble_tracked t = netthimble_staircase(0, 0, 3, 7, entries(1, four), 1);
    CHECK(is(&t, 7, still, "1111011", 0));
    t = netthimble_staircase(0, 0, 3, 8, entries(1, four), 1);
    CHECK(is(&t, 8, still, "11110111", 1));
    t = netthimble_staircase(2, 0, 5, 8, entries(1, four), 1);
    CHECK(is(&t, 8, part, "11110111", 2));
    t = netthimble_staircase(2, 0, 5, 8, entries(6, many), 6);
    CHECK(is(&t, 8, part, "11110111", 2));
    t = netthimble_staircase(118, 120, 5, 7, NULL, 0);
    CHECK(is(&t, 7, top, "0110110", 3));
}

static uint32_t refusal(uint64_t start, uint64_t threshold, uint64_t step, size_t trials) {
    netthimble_tracked t = netthimble_staircase(start, threshold, step, trials, NULL, 0);
    CHECK(t.refusal == 0 || is_refused(&t));
    return t.refusal;
}

/* Both sides of each limit; then numbers that would be good ones if they wrapped at 2^32, and -1. */
static void refusals(void) {
    const uint64_t far[] = {UINT64_C(1) << 32, (UINT64_C(1) << 32) + 5, (uint64_t)-1};
    CHECK(refusal(120, 120, 20, 1000) == 0 && refusal(0, 0, 1, 1) == 0);
    CHECK(refusal(121, 0, 1, 1) == 22 && refusal(0, 121, 1, 1) == 22);
    CHECK(refusal(0, 0, 0, 1) == 22 && refusal(0, 0, 21, 1) == 22);
    CHECK(refusal(0, 0, 1, 0) == 22 && refusal(0, 0, 1, 1001) == 22);
    for (size_t i = 0; i < 3; i++) {
        CHECK(refusal(far[i], 0, 1, 1) == 22 && refusal(0, far[i], 1, 1) == 22);
        CHECK(refusal(0, 0, far[i], 1) == 22 && refusal(0, 0, 1, (size_t)far[i]) == 22);
    }
}

/* Every entry from 0 to 1,999 twice, the last trial's among them: all replies of 1,000 trials are reversed. */
static void all_reversed(void) {
    size_t listed[4000];
    for (size_t i = 0; i < 4000; i++) listed[i] = i / 2;
    size_t *lapses = entries(4000, listed);
    netthimble_tracked t = netthimble_staircase(60, 60, 1, 1000, lapses, 4000);
    CHECK(t.refusal == 0 && memcmp(lapses, listed, sizeof listed) == 0);
    for (size_t k = 0; k < PLACES; k++) CHECK(t.track.levels[k] == (k < 60 ? 60 + k : 120) && !t.track.heard[k]);
    CHECK(t.track.reversals == 0);
}

/* On x86-64 a large record is returned through a pointer that is passed first: the library writes straight over bytes of two fillings. */
typedef void (*returns)(void *, uint64_t, uint64_t, uint64_t, size_t, const size_t *, size_t);

static void record(void) {
    static unsigned char first[4096], second[4096];
    returns call = (returns)(any)netthimble_staircase;
    for (uint64_t step = 0; step < 2; step++) {
        memset(first, 0xAA, sizeof first);
        memset(second, 0x55, sizeof second);
        call(first, 5, 3, step, 9, NULL, 0);
        call(second, 5, 3, step, 9, NULL, 0);
        CHECK(memcmp(first, second, 2012) == 0); /* levels, replies, reversals and the refusal; then padding to 2,016 */
        for (size_t i = 2016; i < sizeof first; i++) CHECK(first[i] == 0xAA && second[i] == 0x55);
    }
}

int main(void) {
    by_hand();
    refusals();
    all_reversed();
    record();
    printf("staircase: %d passed, %d failed\n", passed, failed);
    return failed != 0;
}
