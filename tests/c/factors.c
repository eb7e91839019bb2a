/* Prints a line for each of the cents from -12,002 to 12,002, and for the least and the greatest: the cents, the refusal's number and the
 * bits of the factor. tests/c_cases.py compares them with the table's rule, in whole numbers. */
#include <inttypes.h>
#include <stdio.h>
#include "netthimble.h"

static void print(int32_t cents) {
    netthimble_factored r = netthimble_factor(cents);
    uint64_t bits;
    memcpy(&bits, &r.factor, sizeof bits);
    printf("%" PRId32 " %" PRIu32 " %016" PRIX64 "\n", cents, r.refusal, bits);
}

int main(void) {
    print(INT32_MIN);
    for (int32_t cents = -12002; cents <= 12002; cents++) print(cents);
    print(INT32_MAX);
    return 0;
}
