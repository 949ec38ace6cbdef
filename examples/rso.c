/* Points laid on RSO and taken back: station ARAU on the Peninsula's grid, a point of Sabah on Borneo's, and document 004's
 * Borneo example. Build and run: bash examples/run-c */
#include <inttypes.h>
#include <stdio.h>

#include "swivelcrane.h"

/* Ellipsoid, centre's latitude and longitude, azimuth, rectified angle (0.00001"), scale (10^-11), false easting and
 * northing (mm). The sets and where they come from are in README.md. */
enum { NUMBERS = 8 };
static const int64_t peninsula[NUMBERS] = {1, 1440000000, 36810000000, 116289286728, 116326836850, 99984000000, 804671000, 0};
static const int64_t borneo[NUMBERS] = {1, 1440000000, 41400000000, 19193691582, 19126836850, 99984000000, 0, 0};
static const int64_t timbalai[NUMBERS] = {4, 1440000000, 41400000000, 19193695370, 19126836850, 99984000000, 0, 0};

/* Forward in millimetres, by the library's own rounding, then the unrounded metres back. Answers whether both were answered. */
static int show(const char *name, const int64_t *parameters, int64_t latitude, int64_t longitude) {
    double metres[2];
    int64_t millimetres[2], home[2];
    int64_t refusal = swivelcrane_rso_forward(parameters, NUMBERS, latitude, longitude, metres, 2);
    for (size_t i = 0; refusal == 0 && i < 2; i++)
        refusal = swivelcrane_round(metres[i], 3, &millimetres[i], 1);
    if (refusal == 0)
        refusal = swivelcrane_rso_reverse(parameters, NUMBERS, metres[0], metres[1], home, 2);
    if (refusal != 0) {
        printf("%s\trefused: %" PRId64 "\n", name, refusal);
        return 0;
    }
    printf("%s\tE %" PRId64 ".%03" PRId64 "\tN %" PRId64 ".%03" PRId64 "\tback %" PRId64 "\t%" PRId64 "\n", name,
           millimetres[0] / 1000, millimetres[0] % 1000, millimetres[1] / 1000, millimetres[1] % 1000, home[0], home[1]);
    return 1;
}

int main(void) {
    int good = show("ARAU", peninsula, 2322056909, 36100705076);
    good &= show("Sabah", borneo, 2476245022, 42064758835);
    good &= show("document 004", timbalai, 1939411290, 41689981960);
    /* A northing with a zero too many. */
    int64_t home[2];
    printf("too far\trefused: %" PRId64 "\n", swivelcrane_rso_reverse(peninsula, NUMBERS, 255348.368, 71407290.30, home, 2));
    return !good;
}
