/* Station ARAU from GDM2000 (Rev 2006) at 2000.0 to GDM2020 at 2020.0, by the C interface: what examples/arau.sheet does.
 * Build and run: bash examples/run-c */
#include <inttypes.h>
#include <stdio.h>

#include "swivelcrane.h"

/* Prints a point's line, or its refusal; answers whether there is a point. */
static int show(int64_t refusal, const int64_t *point) {
    if (refusal != 0) {
        printf("refused: %" PRId64 "\n", refusal);
        return 0;
    }
    printf("P\tARAU");
    for (size_t i = 0; i < SWIVELCRANE_POINT_NUMBERS; i++)
        printf("\t%" PRId64, point[i]);
    printf("\n");
    return 1;
}

int main(void) {
    static const int64_t chain[4 * SWIVELCRANE_STEP_NUMBERS] = {
        'T', 0, 6,  2000000, 6,  2006586, -15832, -4363, -9706, 0, 0, 0, 0,
        'V', 0, 6,  2006586, 6,  2010000, -1876,  -90,   -684,  0, 0, 0, 0,
        'F', 0, 6,  2010000, 10, 2010000, 0,      0,     0,     0, 0, 0, 0,
        'V', 0, 10, 2010000, 10, 2020000, -1874,  -169,  -502,  0, 0, 0, 0,
    };
    static const int64_t arau[SWIVELCRANE_POINT_NUMBERS] = {1, 1, 6, 2000000, -113105165410, 623631179950, 71174811140};
    const size_t steps = 4 * SWIVELCRANE_STEP_NUMBERS, numbers = SWIVELCRANE_POINT_NUMBERS;
    int64_t there[SWIVELCRANE_POINT_NUMBERS], home[SWIVELCRANE_POINT_NUMBERS];

    if (!show(swivelcrane_forward(2021, chain, steps, arau, numbers, there, numbers), there))
        return 1;
    return !show(swivelcrane_inverse(2021, chain, steps, there, numbers, home, numbers), home);
}
