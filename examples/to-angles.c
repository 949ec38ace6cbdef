/* From the X, Y, Z that a handheld shows to the latitude, longitude and height by which a mark is found.
 * Build and run: bash examples/run-c */
#include <inttypes.h>
#include <stdio.h>

#include "swivelcrane.h"

/* Units of 0.00001" as degrees, minutes and seconds. */
static void show_angle(int64_t units, char side) {
    const int64_t second = 100000, minute = 60 * second, degree = 60 * minute;
    printf("\t%" PRId64 " %02" PRId64 " %02" PRId64 ".%05" PRId64 " %c", units / degree, units % degree / minute,
           units % minute / second, units % second, side);
}

/* Units of 0.00001 m as metres. */
static void show_height(int64_t units) {
    const int64_t size = units < 0 ? -units : units;
    printf("\t%s%" PRId64 ".%05" PRId64 " m", units < 0 ? "-" : "", size / 100000, size % 100000);
}

/* One line: the name, then the angles and the height, or the refusal's number. */
static void show(const char *name, int64_t ellipsoid, int64_t x, int64_t y, int64_t z) {
    int64_t out[3];
    const int64_t refusal = swivelcrane_geodetic(ellipsoid, x, y, z, out, 3);
    printf("%s", name);
    if (refusal != 0) {
        printf("\trefused: %" PRId64 "\n", refusal);
        return;
    }
    show_angle(out[0], 'N');
    show_angle(out[1], 'E');
    show_height(out[2]);
    printf("\n");
}

int main(void) {
    /* Station ARAU in GDM2000 (Rev 2006), whose ellipsoid is GRS80 (1), as the circular prints it. */
    show("ARAU", 1, -113105165410, 623631179950, 71174811140);
    /* The same station in GDM2020 at 2020.0: the answer of examples/arau.sheet. */
    show("ARAU, GDM2020", 1, -113105206217, 623631172148, 71174796538);
    /* The point of document 004's Borneo example, 42.5 m high, on Everest 1967 (4). */
    show("Borneo", 4, -276398702963, 571618000733, 59479137213);
    /* Mistakes: X and Y changed about, no such ellipsoid, and a height that can't be. */
    show("X and Y changed about", 1, 623631179950, -113105165410, 71174811140);
    show("ellipsoid 5", 5, -113105165410, 623631179950, 71174811140);
    show("ten kilometres up", 1, -113282169451, 624607132201, 71286946915);
    return 0;
}
