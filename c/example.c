/* Prints a point, a none with its prime, and a refusal. */
#include <inttypes.h>
#include <stdio.h>

#include "conic.h"

static void show(int64_t a, int64_t b, int64_t c, int64_t d, int64_t e, int64_t f)
{
    int64_t point[3];
    uint64_t prime;
    int64_t code = conic_solve(a, b, c, d, e, f, point, &prime);

    switch (code) {
    case CONIC_POINT:
        printf("point %" PRId64 " %" PRId64 " %" PRId64 "\n", point[0], point[1], point[2]);
        break;
    case CONIC_NONE_BY_SIGN:
        printf("none, by sign\n");
        break;
    case CONIC_NONE_BY_PRIME:
        printf("none, by the prime %" PRIu64 "\n", prime);
        break;
    default:
        printf("refusal %" PRId64 "\n", -code);
    }
}

int main(void)
{
    show(1, 1, 1, 1, 0, -1);
    show(1, 0, 1, 0, 0, -3);
    show(41, 0, 0, 0, 0, 0);
    return 0;
}
