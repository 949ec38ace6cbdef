/* Station ARAU between the nodes of a velocity grid: the three parts there, the step they give, and the station carried from 2010.0
 * to 2020.0 by it. JUPEM's own grids come from JUPEM: the nodes here are made up. Build and run: bash examples/run-c */
#include <inttypes.h>
#include <stdio.h>
#include <string.h>

#include "swivelcrane.h"

/* South-west corner at 6°25' N, 100°15' E, two rows of three, 5 minutes apart; hundredths of a millimetre a year. */
static const char grid[] = "G\t2310000000\t36090000000\t2\t3\t5\n"
                           "1790\t-540\t-10\n1802\t-538\t-12\n1811\t-533\t-9\n"
                           "1795\t-546\t-11\n1808\t-541\t-10\n-\n";

enum { STEP = SWIVELCRANE_STEP_NUMBERS, POINT = SWIVELCRANE_POINT_NUMBERS };

static void refused(const char *name, int64_t latitude, int64_t longitude) {
    int64_t out[SWIVELCRANE_VELOCITY_NUMBERS];
    printf("%s\trefused: %" PRId64 "\n", name,
           swivelcrane_grid_velocity((const uint8_t *)grid, strlen(grid), latitude, longitude, 7, 2010000, 2020000, out,
                                     SWIVELCRANE_VELOCITY_NUMBERS));
}

int main(void) {
    int64_t out[SWIVELCRANE_VELOCITY_NUMBERS], there[POINT], fault[3];
    static const int64_t arau[POINT] = {1, 1, 7, 2010000, -113105187354, 623631174081, 71174801667};
    int64_t refusal = swivelcrane_grid_velocity((const uint8_t *)grid, strlen(grid), 2322056909, 36100705076, 7, 2010000, 2020000, out,
                                                SWIVELCRANE_VELOCITY_NUMBERS);
    if (refusal == 0)
        refusal = swivelcrane_forward(2021, out + 3, STEP, arau, POINT, there, POINT);
    if (refusal != 0) {
        printf("refused: %" PRId64 "\n", refusal);
        return 1;
    }
    printf("ARAU\teast %" PRId64 "\tnorth %" PRId64 "\tup %" PRId64 "\n", out[0], out[1], out[2]);
    printf("S\tV\t%" PRId64 "\t%" PRId64 "\t%" PRId64 "\t%" PRId64 "\t%" PRId64 "\t%" PRId64 "\t%" PRId64 "\n", out[5], out[6], out[7], out[8],
           out[9], out[10], out[11]);
    printf("ARAU, 2020.0\t%" PRId64 "\t%" PRId64 "\t%" PRId64 "\n", there[4], there[5], there[6]);
    /* In the cell whose north-east node has no value, and off the grid. */
    refused("no value", 2322056909, 36130000000);
    refused("off the grid", 2350000000, 36100705076);
    /* A grid without its last line. */
    swivelcrane_grid_fault((const uint8_t *)grid, strlen(grid) - 2, fault, 3);
    printf("a line missing\trefused: %" PRId64 "\n", fault[0]);
    return 0;
}
