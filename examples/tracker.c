/* A small job tracker: it reads a job's chain and a point from files and shows the point's line of the lot plan, on the state origin of
 * Kedah and Perlis; then what three mistakes are refused with. It links both libraries, and shows the position at the chain's end by the
 * other one's call.
 * Build and run: bash examples/run-c */
#include <inttypes.h>
#include <stdio.h>
#include <string.h>

#include "swivelcrane.h"
#include "swivelcrane_lot_plan.h"

/* GRS80; Gunung Perak's origin, as examples/kedah.plan has it. */
static const int64_t ellipsoid = 1, latitude = 2147282155, longitude = 36229093860;

/* The bytes of a file; 0 where it can't be read, is empty, or does not fit. */
static size_t read_file(const char *name, uint8_t *text, size_t room) {
    FILE *file = fopen(name, "rb");
    const size_t length = file ? fread(text, 1, room, file) : 0;
    if (file)
        fclose(file);
    return length < room ? length : 0;
}

/* A lot plan's line, or its refusal. */
static void show(const char *what, const uint8_t *chain, size_t chain_length, const uint8_t *point, size_t point_length, int64_t origin_latitude) {
    uint8_t line[SWIVELCRANE_LOT_PLAN_ROOM];
    const int64_t length = swivelcrane_lot_plan(chain, chain_length, point, point_length, ellipsoid, origin_latitude, longitude, 0, 0, line, sizeof line);
    printf("%s\t", what);
    if (length > 0)
        fwrite(line, 1, (size_t)length, stdout);
    else
        printf("refused: %" PRId64 "\n", -length);
}

int main(int argc, char **argv) {
    static uint8_t chain[8000], point[201], sheet[8201], converted[SWIVELCRANE_ROOM(8201)];
    const size_t steps = argc == 3 ? read_file(argv[1], chain, sizeof chain) : 0;
    const size_t bytes = argc == 3 ? read_file(argv[2], point, sizeof point) : 0;
    if (steps == 0 || bytes == 0) {
        fprintf(stderr, "tracker CHAIN POINT: two files, a chain of up to 7,999 bytes and a point line\n");
        return 2;
    }
    show("lot", chain, steps, point, bytes, latitude);
    /* Chain and point together are a sheet: the point as it is at the chain's end. */
    memcpy(sheet, chain, steps);
    memcpy(sheet + steps, point, bytes);
    const int64_t length = swivelcrane_sheet(sheet, steps + bytes, converted, sizeof converted);
    printf("at the end\t");
    fwrite(converted, 1, (size_t)(length > 0 ? length : 0), stdout);
    /* The point's line among the steps, the point's line cut short, and an origin south of the equator. */
    show("a point in the chain", sheet, steps + bytes, point, bytes, latitude);
    show("no line feed", chain, steps, point, bytes - 1, latitude);
    show("origin in the south", chain, steps, point, bytes, -latitude);
    return 0;
}
