/* Rounding, the fused step and narrowing, ours beside C's: tools/bench_rounding.py. Use: bench_rounding ROUNDS, or bench_rounding agree COUNT */
#include <inttypes.h>
#include <math.h>
#include "measure.h"

extern double rounding_fma(double, double, double);
extern uint32_t rounding_narrow(double);
extern uint32_t rounding_fma_narrow(double, double, double);
extern double rounding_floor(double);
extern uint64_t rounding_truncate(double);

static uint64_t state = 88172645463325252u;
static uint64_t any(void) {
    state ^= state << 13;
    state ^= state >> 7;
    state ^= state << 17;
    return state * 2685821657736338717u;
}
static uint64_t bits(double x) { uint64_t b; memcpy(&b, &x, 8); return b; }

/* C's, each behind a call as the others are */
static __attribute__((noinline)) uint32_t c_narrow(double x) { float f = (float)x; uint32_t b; memcpy(&b, &f, 4); return b; }
static __attribute__((noinline)) uint64_t c_truncate(double x) {
    if (!(x > -1)) return 0;
    return x >= 18446744073709551616.0 ? UINT64_MAX : (uint64_t)x;
}
static double (*volatile c_fma)(double, double, double) = fma;
static __attribute__((noinline)) uint32_t c_fma_narrow(double a, double b, double c) { return c_narrow(c_fma(a, b, c)); }
static double (*volatile c_floor)(double) = floor;

enum { N = 4096, TURNS = 5 };
static double A[N], B[N], C[N], P[N], H[N];
static volatile uint64_t sink;

#define RUN(name, expr) { \
    uint64_t sum = 0; \
    double t = now(); \
    for (int k = 0; k < TURNS; k++) \
        for (int i = 0; i < N; i++) { \
            double a = A[i], b = B[i], c = C[i], p = P[i], h = H[i]; \
            (void)a; (void)b; (void)c; (void)p; (void)h; \
            sum += (expr); \
        } \
    printf(name " %f\n", (now() - t) / (N * TURNS)); \
    sink = sum; }

static double of(uint64_t b) { double x; memcpy(&x, &b, 8); return x; }
static double frame(void) { return (float)((double)(int64_t)any() * 0x1p-63); }
static uint64_t apart[] = {0, 0, 1, 2, 3, 500, 513, 600, 1u << 28};

/* An f64 near the f32's range, or a tie of two f32 values, normal or not, and what lies beside one. */
static double any_tie(void) {
    uint64_t sign = any() & 1u << 31, b = (uint64_t)(895 + any() % 258) << 52 | (any() >> 41) << 29 | 1u << 28;
    uint64_t d = apart[any() % 9];
    if (any() % 4 == 0) return of(any());
    if (any() % 4 == 0) return of((bits((2 * (any() >> (41 + any() % 22)) + 1) * 0x1p-150) + d - 2) | sign << 32);
    return of((any() & 1 ? b + d : b - d) | sign << 32);
}

static int agree(uint64_t count) {
    uint64_t tied = 0, differ = 0;
    for (uint64_t n = 0; n < count; n++) {
        double x = any_tie(), k = (any() >> 11) * 0x1p-53, a, b = frame(), c;
        switch (any() % 5) {
        case 0: a = 1 - k; c = k * frame(); break;
        case 1: a = 0.5; c = 0.5 * frame(); break;
        case 2: k = (any() % 4095 + 1) * 0x1p-12; a = 1 - k; c = k * frame(); break;
        case 3: a = 1 - k; c = of(bits(x - a * b) + any() % 5 - 2); break;
        default: a = of(any()); b = of(any()); c = any() & 1 ? of(any()) : x - a * b;
        }
        double sum = c_fma(a, b, c);
        uint32_t narrowed = c_narrow(x), sum_narrowed = c_narrow(sum);
        if (x != x) narrowed = 0x7FC00000;
        if (sum != sum) sum_narrowed = 0x7FC00000;
        tied += bits(sum) % (1u << 29) == 1u << 28;
        if (rounding_narrow(x) != narrowed || rounding_fma_narrow(a, b, c) != sum_narrowed) {
            if (!differ++) printf("%a; %a %a %a\n", x, a, b, c);
        }
    }
    printf("%" PRIu64 " of each, %" PRIu64 " sums on a tie, %" PRIu64 " differ\n", count, tied, differ);
    return differ != 0;
}

int main(int argc, char **argv) {
    int rounds = 0;
    uint64_t count = 0;
    if (argc == 3) return sscanf(argv[2], "%" SCNu64, &count) == 1 ? agree(count) : 2;
    sscanf(argv[argc - 1], "%d", &rounds);
    for (int i = 0; i < N; i++) { /* as the player's: a fraction, a frame, the other product, a position in frames, half a frame */
        double k = (any() >> 11) * 0x1p-53;
        A[i] = 1 - k;
        B[i] = (float)((double)(int64_t)any() * 0x1p-63);
        C[i] = k * (float)((double)(int64_t)any() * 0x1p-63);
        P[i] = (any() >> 11) * 0x1p-29;
        H[i] = (float)((double)(int64_t)any() * 0x1p-63) * 0.5;
    }
    for (int r = 0; r < rounds; r++) {
        RUN("fma ours", bits(rounding_fma(a, b, c)))
        RUN("fma C", bits(c_fma(a, b, c)))
        RUN("narrow ours", rounding_narrow(a))
        RUN("narrow C", c_narrow(a))
        RUN("fma_narrow ours", rounding_fma_narrow(a, b, c))
        RUN("fma_narrow C", c_fma_narrow(a, b, c))
        RUN("tied ours", rounding_fma_narrow(0.5, b, h))
        RUN("tied C", c_fma_narrow(0.5, b, h))
        RUN("floor ours", bits(rounding_floor(p)))
        RUN("floor C", bits(c_floor(p)))
        RUN("truncate ours", rounding_truncate(p))
        RUN("truncate C", c_truncate(p))
    }
}
