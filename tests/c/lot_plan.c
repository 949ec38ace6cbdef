/* The lot plan's function, held to stored.h, beside the library of swivelcrane.h in one program. A refusal writes nothing. */
#include <stdio.h>
#include <string.h>

#include "swivelcrane.h"
#include "swivelcrane_lot_plan.h"
#include "stored.h"

#define TEXT(s) (const uint8_t *)(s), sizeof(s) - 1
#define CHAIN "E\t2021\nS\tT\t6\t2000000\t6\t2006586\t-15832\t-4363\t-9706\n"
#define POINT "P\tARAU\t7\t3\t6\t2000000\t-113105165410\t623631179950\t71174811140\n"

static int faults;
static uint8_t out[260];

static void hold(int good, const char *what) {
    if (!good) {
        printf("tests/c: %s\n", what);
        faults++;
    }
    memset(out, 0xA5, sizeof out);
}

static int untouched(size_t from) {
    for (size_t i = from; i < sizeof out; i++)
        if (out[i] != 0xA5)
            return 0;
    return 1;
}

static void refused(int64_t answer, int64_t number, const char *what) {
    hold(answer == -number && untouched(0), what);
}

static void line(int64_t answer, const char *stored, const char *what) {
    const size_t length = strlen(stored);
    hold(answer == (int64_t)length && memcmp(out, stored, length) == 0 && untouched(length), what);
}

int main(void) {
    int64_t angles[3], millimetres[2];
    const size_t room = SWIVELCRANE_LOT_PLAN_ROOM;
    memset(out, 0xA5, sizeof out);
    line(swivelcrane_lot_plan(TEXT(CHAIN), TEXT(POINT), 1, 2149440000, 36243000000, 50000, -25000, out, room), stored_lot_plan, "lot_plan");
    line(swivelcrane_lot_plan(TEXT(""), TEXT(POINT), 1, 2149440000, 36243000000, 50000, -25000, out, room + 1), stored_lot_plan_no_step, "lot_plan, no step");
    refused(swivelcrane_lot_plan(TEXT("x"), TEXT("x"), 5, -1, -1, 1, 1, out, room - 1), SWIVELCRANE_REFUSAL_BUFFER, "lot_plan: 27 before all others");
    refused(swivelcrane_lot_plan(TEXT("x"), TEXT("x"), 5, -1, -1, 1, 1, out, room), SWIVELCRANE_REFUSAL_LENGTH, "lot_plan: 18, the chain's");
    refused(swivelcrane_lot_plan(TEXT(CHAIN POINT), TEXT("x"), 5, -1, -1, 1, 1, out, room), SWIVELCRANE_REFUSAL_LETTER, "lot_plan: 19, a point line in the chain");
    refused(swivelcrane_lot_plan(TEXT(CHAIN "E\t2010\n"), TEXT("x"), 5, -1, -1, 1, 1, out, room), SWIVELCRANE_REFUSAL_PLACE, "lot_plan: 7");
    refused(swivelcrane_lot_plan(TEXT("E\t2009\n"), TEXT(POINT), 5, -1, -1, 1, 1, out, room), SWIVELCRANE_REFUSAL_PROFILE, "lot_plan: 25, the point's");
    refused(swivelcrane_lot_plan(TEXT(CHAIN), TEXT("P\tARAU\n"), 5, -1, -1, 1, 1, out, room), SWIVELCRANE_REFUSAL_COUNT, "lot_plan: 20, the point's, before the origin's");
    refused(swivelcrane_lot_plan(TEXT(CHAIN), TEXT(POINT), 5, -1, -1, 1, 1, out, room), SWIVELCRANE_REFUSAL_RANGE, "lot_plan: 2, the ellipsoid");
    refused(swivelcrane_lot_plan(TEXT(CHAIN), TEXT(POINT), 1, -1, -1, 2000000001, 1, out, room), SWIVELCRANE_REFUSAL_RANGE, "lot_plan: 2, the false easting");
    refused(swivelcrane_lot_plan(TEXT(CHAIN), TEXT(POINT), 1, -1, 36243000000, 1, 1, out, room), SWIVELCRANE_REFUSAL_GEODETIC, "lot_plan: 12, the origin");
    refused(swivelcrane_lot_plan(TEXT(CHAIN), TEXT(POINT), 1, 2149440000, 43200000000, 1, 1, out, room), SWIVELCRANE_REFUSAL_APART, "lot_plan: 13");
    /* Its parts, from the other library: the same easting and northing. */
    hold(swivelcrane_geodetic(1, -113105181242, 623631175587, 71174801434, angles, 3) == 0, "geodetic beside lot_plan");
    hold(swivelcrane_cassini_millimetres(1, 2149440000, 36243000000, 50000, -25000, angles[0], angles[1], millimetres, 2) == 0, "cassini beside lot_plan");
    hold(memcmp(millimetres, stored_lot_plan_millimetres, sizeof millimetres) == 0, "the parts of lot_plan");
    if (faults == 0)
        printf("tests/c: the lot plan answers as stored, beside the other library\n");
    return faults != 0;
}
