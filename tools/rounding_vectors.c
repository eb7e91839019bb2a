/* Answers by the processor, for tools/rounding_vectors.py: lines of an operation's number and three operands, as hex digits of their bits. */
#include <inttypes.h>
#include <math.h>
#include <stdio.h>
#include <string.h>

static double f64(uint64_t b) { double x; memcpy(&x, &b, 8); return x; }
static float f32(uint64_t b) { uint32_t n = b; float x; memcpy(&x, &n, 4); return x; }
static uint64_t bits(double x) { uint64_t b; memcpy(&b, &x, 8); return x != x ? 0x7FF8000000000000u : b; }
static uint64_t bits32(float x) { uint32_t b; memcpy(&b, &x, 4); return x != x ? 0x7FC00000u : b; }

static uint64_t truncated(double x) {
    if (!(x > -1)) return 0;
    return x >= 18446744073709551616.0 ? UINT64_MAX : (uint64_t)x;
}

static int near(double a, double b, double tolerance) {
    volatile double difference = a - b, product;
    double larger = fabs(a) < fabs(b) ? fabs(b) : fabs(a);
    product = tolerance * larger;
    return a == b || fabs(difference) < product;
}

static double euclid(double a, double b) {
    volatile double r = fmod(a, b);
    return r < 0 ? r + fabs(b) : r;
}

static int same(float a, float b, float tolerance) {
    volatile float difference = a - b;
    return fabsf(difference) <= tolerance;
}

static uint64_t answer(int op, uint64_t a, uint64_t b, uint64_t c) {
    volatile double x = f64(a), y = f64(b), z = f64(c);
    switch (op) {
    case 0: return bits(fma(x, y, z));
    case 1: return bits32((float)x);
    case 2: return bits(floor(x));
    case 3: return bits(ceil(x));
    case 4: return bits(round(x));
    case 5: return truncated(x);
    case 6: return bits((double)f32(a));
    case 7: return near(x, y, z);
    case 8: return bits(euclid(x, y));
    case 10: return bits32((float)fma(x, y, z));
    default: return same(f32(a), f32(b), f32(c));
    }
}

int main(void) {
    int op;
    uint64_t a, b, c;
    while (scanf("%d %" SCNx64 " %" SCNx64 " %" SCNx64, &op, &a, &b, &c) == 4)
        printf("%X %016" PRIX64 " %016" PRIX64 " %016" PRIX64 " %016" PRIX64 "\n", op, a, b, c, answer(op, a, b, c));
}
