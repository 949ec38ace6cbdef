/* points.c FOLDER: points of Malaysia through the product's library, as text for proj.sh: for each kind of call a file of
 * what PROJ is given (NAME.in, degrees and metres) and one of what the product answers (NAME.out). */
#include <stdint.h>
#include <stdio.h>
#include <stdlib.h>
#include "swivelcrane.h"

enum { POINTS = 3000 };
#define DEGREE 360000000.0 /* units of 0.00001" */

static uint64_t seed = 0x5717ec1a;

/* xorshift64 */
static int64_t between(int64_t low, int64_t high) {
    seed ^= seed << 13;
    seed ^= seed >> 7;
    seed ^= seed << 17;
    return low + (int64_t)(seed % (uint64_t)(high - low + 1));
}

static FILE *made(const char *folder, const char *name, const char *kind) {
    char path[4096];
    snprintf(path, sizeof path, "%s/%s.%s", folder, name, kind);
    FILE *f = fopen(path, "w");
    if (!f) {
        perror(path);
        exit(2);
    }
    return f;
}

static void refused(const char *call, int64_t status) {
    fprintf(stderr, "%s was refused: %lld\n", call, (long long)status);
    exit(2);
}

/* Latitude and longitude within an area of whole degrees, on a grid. */
static void grid(const char *folder, const char *name, const int64_t *numbers, int64_t west, int64_t east) {
    FILE *in = made(folder, name, "in"), *out = made(folder, name, "out");
    for (int i = 0; i < POINTS; i++) {
        const int64_t latitude = between(1 * 360000000LL, 7 * 360000000LL), longitude = between(west * 360000000LL, east * 360000000LL);
        double plane[2];
        const int64_t status = swivelcrane_rso_forward(numbers, SWIVELCRANE_RSO_NUMBERS, latitude, longitude, plane, 2);
        if (status) refused("swivelcrane_rso_forward", status);
        fprintf(in, "%.12f %.12f\n", longitude / DEGREE, latitude / DEGREE);
        fprintf(out, "%.7f %.7f\n", plane[0], plane[1]);
    }
    fclose(in);
    fclose(out);
}

static void cassini(const char *folder) {
    FILE *in = made(folder, "cassini", "in"), *out = made(folder, "cassini", "out");
    for (int i = 0; i < POINTS; i++) {
        const int64_t latitude = between(360000000, 2520000000), longitude = between(36540000000 - 360000000, 36540000000 + 360000000);
        double plane[2];
        const int64_t status = swivelcrane_cassini(1, 1440000000, 36540000000, 50000, -25000, latitude, longitude, plane, 2);
        if (status) refused("swivelcrane_cassini", status);
        fprintf(in, "%.12f %.12f\n", longitude / DEGREE, latitude / DEGREE);
        fprintf(out, "%.7f %.7f\n", plane[0], plane[1]);
    }
    fclose(in);
    fclose(out);
}

static void cartesian(const char *folder) {
    FILE *in = made(folder, "cartesian", "in"), *out = made(folder, "cartesian", "out");
    for (int i = 0; i < POINTS; i++) {
        const int64_t latitude = between(0, 2880000000), longitude = between(35640000000, 43200000000), height = between(0, 500000000);
        double xyz[3];
        const int64_t status = swivelcrane_cartesian(1, latitude, longitude, height, xyz, 3);
        if (status) refused("swivelcrane_cartesian", status);
        fprintf(in, "%.12f %.12f %.5f 0\n", longitude / DEGREE, latitude / DEGREE, height / 1e5);
        fprintf(out, "%.7f %.7f %.7f\n", xyz[0], xyz[1], xyz[2]);
    }
    fclose(in);
    fclose(out);
}

int main(int count, char **words) {
    /* the sets of EPSG's register for GDM2000: 3375 and 3376 */
    static const int64_t peninsula[] = {1, 1440000000, 36810000000, 116289286728, 116326836850, 99984000000, 804671000, 0};
    static const int64_t borneo[] = {1, 1440000000, 41400000000, 19193691582, 19126836850, 99984000000, 0, 0};
    if (count != 2) {
        fprintf(stderr, "points FOLDER\n");
        return 2;
    }
    grid(words[1], "peninsula", peninsula, 100, 105);
    grid(words[1], "borneo", borneo, 110, 119);
    cassini(words[1]);
    cartesian(words[1]);
    return 0;
}
