/* Every function of include/swivelcrane.h, called with arguments of which no two could change places unseen, and held to stored.h, which the
 * independent program worked out; the texts at the end are document 01's lines, with refusals worked out by hand. A refusal and a wrong length write nothing. */
#include <stdio.h>
#include <string.h>

#include "swivelcrane.h"
#include "stored.h"

#define STEP SWIVELCRANE_STEP_NUMBERS
#define POINT SWIVELCRANE_POINT_NUMBERS
#define CANARY INT64_C(-7777777777777)
#define PLACES 112

static int faults;

static void hold(int good, const char *what) {
    if (!good) {
        printf("tests/c: %s\n", what);
        faults++;
    }
}

static int64_t out[PLACES];
static double reals[PLACES];

static void clear(void) {
    for (size_t i = 0; i < PLACES; i++) {
        out[i] = CANARY;
        reals[i] = (double)CANARY;
    }
}

/* The places from there on are as they were. */
static int untouched(size_t from) {
    for (size_t i = from; i < PLACES; i++)
        if (out[i] != CANARY || reals[i] != (double)CANARY)
            return 0;
    return 1;
}

static void wrote(int64_t answer, const int64_t *stored, size_t count, const char *what) {
    hold(answer == 0 && memcmp(out, stored, count * sizeof *stored) == 0, what);
    for (size_t i = 0; i < count; i++)
        out[i] = CANARY;
    hold(untouched(0), what);
    clear();
}

static void wrote_reals(int64_t answer, const uint64_t *stored, size_t count, const char *what) {
    hold(answer == 0 && memcmp(reals, stored, count * sizeof *stored) == 0, what);
    for (size_t i = 0; i < count; i++)
        reals[i] = (double)CANARY;
    hold(untouched(0), what);
    clear();
}

static void refused(int64_t answer, int64_t number, const char *what) {
    hold(answer == number && untouched(0), what);
    clear();
}

/* kind, convention, datum and epoch before, after, and seven numbers that are all different */
static const int64_t chain[2 * STEP] = {
    'B', 'C', 1, 0,       5, 2000000, -1100000, 85100000, 500000, 12500, -8300, 40250, -1350,
    'T', 0,   5, 2000000, 6, 2006586, -15832,   -4363,    -9706,  1,     2,     3,     4,
};
static const int64_t point[POINT] = {12, 4, 1, 0, -122145678901, 622012345678, 53876543210};
static const int64_t arau_chain[4 * STEP] = {
    'T', 0, 6,  2000000, 6,  2006586, -15832, -4363, -9706, 0, 0, 0, 0,
    'V', 0, 6,  2006586, 6,  2010000, -1876,  -90,   -684,  0, 0, 0, 0,
    'F', 0, 6,  2010000, 10, 2010000, 0,      0,     0,     0, 0, 0, 0,
    'V', 0, 10, 2010000, 10, 2020000, -1874,  -169,  -502,  0, 0, 0, 0,
};
static const int64_t arau[POINT] = {1, 3, 6, 2000000, -113105165410, 623631179950, 71174811140};

static void conversions(void) {
    wrote(swivelcrane_forward(2021, chain, 2 * STEP, point, POINT, out, POINT), stored_forward, POINT, "forward");
    wrote(swivelcrane_inverse(2021, chain, 2 * STEP, stored_forward, POINT, out, POINT), stored_inverse, POINT, "inverse");
    wrote(swivelcrane_forward(2021, arau_chain, 4 * STEP, arau, POINT, out, POINT), stored_arau_forward, POINT, "forward, ARAU");
    wrote(swivelcrane_inverse(2021, arau_chain, 4 * STEP, stored_arau_forward, POINT, out, POINT), stored_arau_inverse, POINT, "inverse, ARAU");
    wrote(swivelcrane_forward(2021, chain, 0, point, POINT, out, POINT), point, POINT, "forward, no step");
    wrote(swivelcrane_inverse(2021, chain, 0, point, POINT, out, POINT), point, POINT, "inverse, no step");
}

/* One number of the chain or of the point changed, both ways: the point of the inverse is at the chain's end. */
static void changed(size_t step_place, int64_t step_number, size_t point_place, int64_t point_number, int64_t number, const char *what) {
    int64_t steps[2 * STEP], there[POINT], home[POINT];
    memcpy(steps, chain, sizeof chain);
    memcpy(there, point, sizeof point);
    memcpy(home, stored_forward, sizeof home);
    steps[step_place] = step_number;
    there[point_place] = point_number;
    home[point_place] = point_number;
    refused(swivelcrane_forward(2021, steps, 2 * STEP, there, POINT, out, POINT), number, what);
    refused(swivelcrane_inverse(2021, steps, 2 * STEP, home, POINT, out, POINT), number, what);
}

static void refused_conversions(void) {
    static int64_t nine[9 * STEP];
    changed(0, 'X', 0, 12, SWIVELCRANE_REFUSAL_RANGE, "a kind that there is not: 2");
    changed(6, 100000001, 0, 12, SWIVELCRANE_REFUSAL_RANGE, "a shift out of range: 2");
    changed(3, 2000000, 0, 12, SWIVELCRANE_REFUSAL_EPOCH, "MRT68 with an epoch: 3");
    changed(STEP, 'F', 0, 12, SWIVELCRANE_REFUSAL_KIND, "a frame step that is not to datum 10: 4");
    changed(STEP + 3, 2000001, 0, 12, SWIVELCRANE_REFUSAL_JOIN, "a step that doesn't join: 5");
    changed(0, 'B', 0, 0, SWIVELCRANE_REFUSAL_RANGE, "issue 0: 2");
    changed(0, 'B', 1, 0, SWIVELCRANE_REFUSAL_RANGE, "order 0: 2");
    changed(0, 'B', 1, 5, SWIVELCRANE_REFUSAL_RANGE, "order 5: 2");
    changed(0, 'B', 3, 2100001, SWIVELCRANE_REFUSAL_RANGE, "an epoch out of range: 2");
    refused(swivelcrane_forward(2021, chain, 2 * STEP, stored_forward, POINT, out, POINT), SWIVELCRANE_REFUSAL_START, "a point at the chain's end: 9");
    refused(swivelcrane_inverse(2021, chain, 2 * STEP, point, POINT, out, POINT), SWIVELCRANE_REFUSAL_START, "a point at the chain's start: 9");
    changed(0, 'B', 6, 90000000001, SWIVELCRANE_REFUSAL_AREA, "north of the area: 10");
    changed(0, 'B', 6, -1, SWIVELCRANE_REFUSAL_AREA, "south of the area: 10");
    refused(swivelcrane_forward(2021, nine, 9 * STEP, point, POINT, out, POINT), SWIVELCRANE_REFUSAL_NINTH, "nine steps: 6");
    refused(swivelcrane_inverse(2021, nine, 9 * STEP, point, POINT, out, POINT), SWIVELCRANE_REFUSAL_NINTH, "nine steps back: 6");
    refused(swivelcrane_forward(2021, chain, 2 * STEP - 1, point, POINT, out, POINT), SWIVELCRANE_WRONG_LENGTH, "a part of a step");
    refused(swivelcrane_inverse(2021, chain, 2 * STEP - 1, point, POINT, out, POINT), SWIVELCRANE_WRONG_LENGTH, "a part of a step back");
    refused(swivelcrane_forward(2021, chain, 2 * STEP, point, POINT - 1, out, POINT), SWIVELCRANE_WRONG_LENGTH, "six numbers to a point");
    refused(swivelcrane_inverse(2021, chain, 2 * STEP, point, POINT - 1, out, POINT), SWIVELCRANE_WRONG_LENGTH, "six numbers back");
    refused(swivelcrane_forward(2021, chain, 2 * STEP, point, POINT, out, POINT + 1), SWIVELCRANE_WRONG_LENGTH, "room for eight");
    refused(swivelcrane_inverse(2021, chain, 2 * STEP, point, POINT, out, POINT + 1), SWIVELCRANE_WRONG_LENGTH, "room for eight back");
}

/* The same chain to datum 7, which the 2009 circular has; it has no datum 6 and no velocity or frame step. */
static void profiles(void) {
    int64_t steps[2 * STEP], there[POINT];
    static const int64_t nine[9 * STEP], none[STEP];
    memcpy(steps, chain, sizeof chain);
    memcpy(there, point, sizeof point);
    steps[STEP + 4] = 7;
    wrote(swivelcrane_forward(2009, steps, 2 * STEP, point, POINT, out, POINT), stored_forward_2009, POINT, "forward, 2009");
    there[2] = 7;
    there[3] = 2006586;
    wrote(swivelcrane_inverse(2009, steps, 2 * STEP, there, POINT, out, POINT), stored_inverse_2009, POINT, "inverse, 2009");
    there[2] = 6;
    refused(swivelcrane_forward(2009, chain, 2 * STEP, point, POINT, out, POINT), SWIVELCRANE_REFUSAL_PROFILE, "datum 6 in a chain of 2009: 25");
    refused(swivelcrane_inverse(2009, steps, 2 * STEP, there, POINT, out, POINT), SWIVELCRANE_REFUSAL_PROFILE, "a point of datum 6 under 2009: 25");
    refused(swivelcrane_forward(2009, none, 0, there, POINT, out, POINT), SWIVELCRANE_REFUSAL_PROFILE, "under no step of 2009: 25");
    steps[STEP] = 'V';
    steps[STEP + 6] = -5832;
    refused(swivelcrane_forward(2009, steps, 2 * STEP, point, POINT, out, POINT), SWIVELCRANE_REFUSAL_PROFILE, "a velocity between two datums under 2009: 25");
    refused(swivelcrane_forward(2021, steps, 2 * STEP, point, POINT, out, POINT), SWIVELCRANE_REFUSAL_KIND, "a velocity between two datums: 4");
    refused(swivelcrane_forward(2010, nine, 9 * STEP, point, POINT, out, POINT), SWIVELCRANE_REFUSAL_RANGE, "a year that is no profile, before the ninth step: 2");
    refused(swivelcrane_inverse(0, nine, 9 * STEP, point, POINT, out, POINT), SWIVELCRANE_REFUSAL_RANGE, "no profile: 2");
    refused(swivelcrane_forward(2010, chain, 2 * STEP - 1, point, POINT, out, POINT), SWIVELCRANE_WRONG_LENGTH, "a length before the profile");
}

/* The two steps of the chain to datum 7, apart. */
static void joins(void) {
    int64_t steps[2 * STEP];
    static const int64_t nine[9 * STEP];
    int64_t four[4 * STEP];
    const size_t room = SWIVELCRANE_JOINED_NUMBERS;
    memcpy(steps, chain, sizeof chain);
    steps[STEP + 4] = 7;
    const int64_t *second = steps + STEP;
    hold(swivelcrane_join(2009, steps, STEP, 2009, second, STEP, out, room) == 2 * STEP && memcmp(out, stored_join, sizeof stored_join) == 0 && untouched(2 * STEP), "join");
    clear();
    hold(swivelcrane_join(2009, steps, STEP, 2009, nine, 0, out, room) == STEP && memcmp(out, stored_join, STEP * sizeof *out) == 0 && untouched(STEP), "join, none after");
    clear();
    hold(swivelcrane_join(2009, nine, 0, 2009, second, STEP, out, room) == STEP && memcmp(out, stored_join + STEP, STEP * sizeof *out) == 0 && untouched(STEP), "join, none before");
    clear();
    refused(swivelcrane_join(2021, nine, 0, 2021, nine, 0, out, room), 0, "join, none and none");
    refused(swivelcrane_join(2010, steps, STEP, 2009, nine, 9 * STEP, out, room), -SWIVELCRANE_REFUSAL_RANGE, "join: 2, the first chain's year before the second's ninth step");
    refused(swivelcrane_join(2009, steps, STEP, 2010, nine, 9 * STEP, out, room), -SWIVELCRANE_REFUSAL_RANGE, "join: 2, the second's year");
    refused(swivelcrane_join(2009, nine, 9 * STEP, 2010, steps, STEP, out, room), -SWIVELCRANE_REFUSAL_NINTH, "join: 6, the first chain's before the second's year");
    refused(swivelcrane_join(2009, second, STEP, 2009, steps, STEP, out, room), -SWIVELCRANE_REFUSAL_JOIN, "join: 5");
    for (size_t i = 0; i < 4; i++) {
        memcpy(four + i * STEP, arau_chain, STEP * sizeof *four);
        four[i * STEP + 5] = 2000000;
    }
    refused(swivelcrane_join(2021, four, 4 * STEP, 2009, second, STEP, out, room), -SWIVELCRANE_REFUSAL_JOIN, "join: 5 before 25");
    hold(swivelcrane_join(2021, four, 4 * STEP, 2021, four, 4 * STEP, out, room) == (int64_t)room && untouched(room), "join, four and four");
    hold(memcmp(out, four, sizeof four) == 0 && memcmp(out + 4 * STEP, four, sizeof four) == 0, "join, four and four");
    memcpy(four, out, sizeof four);
    static int64_t eight[8 * STEP];
    memcpy(eight, out, sizeof eight);
    clear();
    refused(swivelcrane_join(2021, eight, 8 * STEP, 2021, four, STEP, out, room), -SWIVELCRANE_REFUSAL_NINTH, "join: 6");
    refused(swivelcrane_join(2021, steps, STEP, 2009, second, STEP, out, room), -SWIVELCRANE_REFUSAL_PROFILE, "join: 25");
    refused(swivelcrane_join(2009, nine, 0, 2021, nine, 0, out, room), -SWIVELCRANE_REFUSAL_PROFILE, "join, none and none: 25");
    refused(swivelcrane_join(2009, steps, STEP - 1, 2010, second, STEP, out, room), -SWIVELCRANE_WRONG_LENGTH, "join, a part of a step");
    refused(swivelcrane_join(2009, steps, STEP, 2009, second, STEP + 1, out, room), -SWIVELCRANE_WRONG_LENGTH, "join, a part of a step after");
    refused(swivelcrane_join(2009, steps, STEP, 2009, second, STEP, out, room - 1), -SWIVELCRANE_WRONG_LENGTH, "join, room for a number less");
    refused(swivelcrane_join(2009, steps, STEP, 2009, second, STEP, out, room + 1), -SWIVELCRANE_WRONG_LENGTH, "join, room for a number more");
}

/* Three points of ARAU's chain, the second refused; the fourth place stays. */
static void rows(void) {
    enum { PLACE = SWIVELCRANE_PLACE_NUMBERS };
    int64_t points[3 * POINT], bad[4 * STEP];
    memcpy(points, arau, sizeof arau);
    memcpy(points + POINT, point, sizeof point);
    memcpy(points + 2 * POINT, arau, sizeof arau);
    points[2 * POINT] = 77;
    points[2 * POINT + 6] = 1;
    memcpy(bad, arau_chain, sizeof bad);
    bad[3] = 0;
    wrote(swivelcrane_row(2021, arau_chain, 4 * STEP, 0, points, 3 * POINT, out, 4 * PLACE), stored_row, 3 * PLACE, "row, along");
    wrote(swivelcrane_row(2021, arau_chain, 4 * STEP, 1, stored_arau_forward, POINT, out, PLACE), stored_row_back, PLACE, "row, back");
    refused(swivelcrane_row(2021, arau_chain, 4 * STEP, 0, points, 0, out, PLACE), 0, "row, no point");
    refused(swivelcrane_row(2010, bad, 4 * STEP, 2, points, 3 * POINT, out, 2 * PLACE), SWIVELCRANE_REFUSAL_ROW, "row: 26 before all others");
    refused(swivelcrane_row(2021, bad, 4 * STEP, 2, points, 3 * POINT, out, 3 * PLACE), SWIVELCRANE_REFUSAL_RANGE, "row: 2, the direction");
    refused(swivelcrane_row(2010, bad, 4 * STEP, 1, points, 3 * POINT, out, 3 * PLACE), SWIVELCRANE_REFUSAL_RANGE, "row: 2, the year");
    refused(swivelcrane_row(2021, bad, 4 * STEP, 1, points, 3 * POINT, out, 3 * PLACE), SWIVELCRANE_REFUSAL_EPOCH, "row: 3, the chain's");
    refused(swivelcrane_row(2021, bad, 4 * STEP, 0, points, 0, out, 0), SWIVELCRANE_REFUSAL_EPOCH, "row: 3 for no point");
    refused(swivelcrane_row(2021, arau_chain, 4 * STEP - 1, 2, points, 3 * POINT, out, 2 * PLACE), SWIVELCRANE_WRONG_LENGTH, "row, a part of a step");
    refused(swivelcrane_row(2021, arau_chain, 4 * STEP, 0, points, 3 * POINT - 1, out, 4 * PLACE), SWIVELCRANE_WRONG_LENGTH, "row, a part of a point");
    refused(swivelcrane_row(2021, arau_chain, 4 * STEP, 0, points, 3 * POINT, out, 3 * PLACE + 1), SWIVELCRANE_WRONG_LENGTH, "row, a part of an answer");
}

/* The shift to the north leaves the area: Z is 0 to 90,000,000,000. */
static void leaves_the_area(void) {
    static const int64_t shift[STEP] = {'T', 0, 5, 2000000, 6, 2006586, 0, 0, 100000000, 0, 0, 0, 0};
    static const int64_t south[POINT] = {1, 1, 5, 2000000, -122145678901, 622012345678, 89900000001};
    static const int64_t north[POINT] = {1, 1, 6, 2006586, -122145678901, 622012345678, 99999999};
    refused(swivelcrane_forward(2021, shift, STEP, south, POINT, out, POINT), SWIVELCRANE_REFUSAL_LEFT, "left the area: 11");
    refused(swivelcrane_inverse(2021, shift, STEP, north, POINT, out, POINT), SWIVELCRANE_REFUSAL_LEFT, "left the area on the way back: 11");
}

static void geodetic(void) {
    wrote_reals(swivelcrane_cartesian(2, 1234567890, 36700000123, 456789, reals, 3), stored_cartesian, 3, "cartesian");
    wrote(swivelcrane_cartesian_units(2, 1234567890, 36700000123, 456789, out, 3), stored_cartesian_units, 3, "cartesian_units");
    refused(swivelcrane_cartesian(5, 1234567890, 36700000123, 456789, reals, 3), SWIVELCRANE_REFUSAL_RANGE, "ellipsoid 5: 2");
    refused(swivelcrane_cartesian_units(0, 1234567890, 36700000123, 456789, out, 3), SWIVELCRANE_REFUSAL_RANGE, "ellipsoid 0: 2");
    refused(swivelcrane_cartesian(2, -1, 36700000123, 456789, reals, 3), SWIVELCRANE_REFUSAL_GEODETIC, "a latitude below 0: 12");
    refused(swivelcrane_cartesian_units(2, 1234567890, 43200000001, 456789, out, 3), SWIVELCRANE_REFUSAL_GEODETIC, "too far east: 12");
    refused(swivelcrane_cartesian(2, 1234567890, 36700000123, 456789, reals, 2), SWIVELCRANE_WRONG_LENGTH, "cartesian, room for two");
    refused(swivelcrane_cartesian_units(2, 1234567890, 36700000123, 456789, out, 4), SWIVELCRANE_WRONG_LENGTH, "cartesian_units, room for four");
}

static void grid(void) {
    wrote_reals(swivelcrane_cassini(3, 1440000000, 36720000000, 50000, -25000, 1445000000, 36800000000, reals, 2), stored_cassini, 2, "cassini");
    wrote(swivelcrane_cassini_millimetres(3, 1440000000, 36720000000, 50000, -25000, 1445000000, 36800000000, out, 2), stored_cassini_millimetres, 2,
          "cassini_millimetres");
    refused(swivelcrane_cassini(5, 1440000000, 36720000000, 50000, -25000, 1445000000, 36800000000, reals, 2), SWIVELCRANE_REFUSAL_RANGE, "cassini: 2");
    refused(swivelcrane_cassini_millimetres(3, 1440000000, 36720000000, 50000, -2000000001, 1445000000, 36800000000, out, 2), SWIVELCRANE_REFUSAL_RANGE,
            "false northing: 2");
    refused(swivelcrane_cassini(3, 1440000000, 36720000000, 50000, -25000, 2880000001, 36800000000, reals, 2), SWIVELCRANE_REFUSAL_GEODETIC, "cassini: 12");
    refused(swivelcrane_cassini_millimetres(3, 2880000001, 36720000000, 50000, -25000, 1445000000, 36800000000, out, 2), SWIVELCRANE_REFUSAL_GEODETIC,
            "cassini_millimetres: 12");
    refused(swivelcrane_cassini(3, 1440000000, 36720000000, 50000, -25000, 1445000000, 38160000001, reals, 2), SWIVELCRANE_REFUSAL_APART, "cassini: 13");
    refused(swivelcrane_cassini_millimetres(3, 1440000000, 38160000001, 50000, -25000, 1445000000, 36720000000, out, 2), SWIVELCRANE_REFUSAL_APART,
            "cassini_millimetres: 13");
    refused(swivelcrane_cassini(3, 1440000000, 36720000000, 50000, -25000, 1445000000, 36800000000, reals, 3), SWIVELCRANE_WRONG_LENGTH, "cassini: length");
    refused(swivelcrane_cassini_millimetres(3, 1440000000, 36720000000, 50000, -25000, 1445000000, 36800000000, out, 1), SWIVELCRANE_WRONG_LENGTH,
            "cassini_millimetres: length");
}

static void to_angles(void) {
    wrote(swivelcrane_geodetic(2, -131769233712, 622894736791, 37897691636, out, 3), stored_geodetic, 3, "geodetic");
    refused(swivelcrane_geodetic(5, -131769233712, 622894736791, 37897691636, out, 3), SWIVELCRANE_REFUSAL_RANGE, "geodetic, ellipsoid 5: 2");
    refused(swivelcrane_geodetic(2, 622894736791, -131769233712, 37897691636, out, 3), SWIVELCRANE_REFUSAL_AREA, "X and Y changed about: 10");
    refused(swivelcrane_geodetic(2, -131769233712, 640000000001, 37897691636, out, 3), SWIVELCRANE_REFUSAL_AREA, "a coordinate past the given range: 10");
    refused(swivelcrane_geodetic(2, -195000000000, 600000000000, 0, out, 3), SWIVELCRANE_REFUSAL_GEODETIC, "sixty kilometres down: 12");
    refused(swivelcrane_geodetic(2, -131769233712, 622894736791, 37897691636, out, 4), SWIVELCRANE_WRONG_LENGTH, "geodetic, room for four");
}

/* ellipsoid, centre's latitude and longitude, azimuth, rectified angle, scale, false easting and northing: all different */
static const int64_t projection[8] = {3, 1234567890, 39876543210, 112345678901, 15432109876, 100123456789, -1234567890, 987654321};

/* The eight numbers with one changed, both ways. */
static void changed_projection(size_t place, int64_t number, const char *what) {
    int64_t parameters[8];
    memcpy(parameters, projection, sizeof projection);
    parameters[place] = number;
    refused(swivelcrane_rso_forward(parameters, 8, 2345678901, 38765432109, reals, 2), SWIVELCRANE_REFUSAL_RANGE, what);
    refused(swivelcrane_rso_reverse(parameters, 8, 1e300, 0.0, out, 2), SWIVELCRANE_REFUSAL_RANGE, what);
}

static void oblique_mercator(void) {
    double metres[2];
    memcpy(metres, stored_rso_forward, sizeof metres);
    wrote_reals(swivelcrane_rso_forward(projection, 8, 2345678901, 38765432109, reals, 2), stored_rso_forward, 2, "rso_forward");
    wrote(swivelcrane_rso_reverse(projection, 8, metres[0], metres[1], out, 2), stored_rso_reverse, 2, "rso_reverse");
    changed_projection(0, 5, "RSO, ellipsoid 5: 2");
    changed_projection(1, 359999999, "RSO, a centre south of 1 degree: 2");
    changed_projection(3, 112345678901 - 129600000000, "RSO, an azimuth below 0: 2");
    changed_projection(5, 101000000001, "RSO, the scale: 2");
    refused(swivelcrane_rso_forward(projection, 8, 2880000001, 38765432109, reals, 2), SWIVELCRANE_REFUSAL_GEODETIC, "RSO, too far north: 12");
    refused(swivelcrane_rso_reverse(projection, 8, metres[0], 10000000.0, out, 2), 23, "RSO, 10,000,000 m: 23");
    refused(swivelcrane_rso_reverse(projection, 8, metres[0], 9999999.0, out, 2), SWIVELCRANE_REFUSAL_GEODETIC, "RSO, a metre less: 12");
    refused(swivelcrane_rso_forward(projection, 7, 2345678901, 38765432109, reals, 2), SWIVELCRANE_WRONG_LENGTH, "RSO, seven parameters");
    refused(swivelcrane_rso_reverse(projection, 7, metres[0], metres[1], out, 2), SWIVELCRANE_WRONG_LENGTH, "RSO, seven parameters back");
    refused(swivelcrane_rso_forward(projection, 8, 2345678901, 38765432109, reals, 3), SWIVELCRANE_WRONG_LENGTH, "rso_forward, room for three");
    refused(swivelcrane_rso_reverse(projection, 8, metres[0], metres[1], out, 1), SWIVELCRANE_WRONG_LENGTH, "rso_reverse, room for one");
}

static void rounding(void) {
    wrote(swivelcrane_round(-1234.567895, 3, out, 1), stored_rounded, 1, "round");
    refused(swivelcrane_round(1.0, 6, out, 1), SWIVELCRANE_REFUSAL_RANGE, "six places: 2");
    refused(swivelcrane_round(10000000.0, 0, out, 1), SWIVELCRANE_REFUSAL_SIZE, "10,000,000: 14");
    refused(swivelcrane_round(1.0, 5, out, 0), SWIVELCRANE_WRONG_LENGTH, "round, no room");
}

#define TEXT(s) (const uint8_t *)(s), sizeof(s) - 1
#define FIRST "P\tARAU\t10\t2\t6\t2000000\t-113105165410\t623631179950\t71174811140\n"
#define ORDER_3 "P\tARAU\t10\t3\t6\t2000000\t-113105165410\t623631179950\t71174811140\n"
#define BAD "P\tARAU\t9\t1\t6\t2000000\t-113105165411\t+623631179950\t71174811140\n"
#define OTHER "P\tARAV\t9\t1\t6\t2000000\t-113105165411\t623631179950\t71174811140\n"
#define SECOND "P\tARAU\t9\t1\t6\t2000000\t-113105165411\t623631179950\t71174811140\n"

static void later(void) {
    wrote(swivelcrane_later(TEXT(FIRST), TEXT(SECOND), out, 1), stored_later, 1, "later, the first");
    wrote(swivelcrane_later(TEXT(SECOND), TEXT(FIRST), out, 1), stored_later + 1, 1, "later, the second");
    refused(swivelcrane_later(TEXT(FIRST), TEXT("P\tARAU"), out, 1), SWIVELCRANE_REFUSAL_LENGTH, "later: 18");
    refused(swivelcrane_later(TEXT(FIRST), TEXT("S\tARAU\n"), out, 1), SWIVELCRANE_REFUSAL_LETTER, "later: 19");
    refused(swivelcrane_later(TEXT(FIRST), TEXT("P\tarau\n"), out, 1), SWIVELCRANE_REFUSAL_COUNT, "later: 20");
    refused(swivelcrane_later(TEXT("P\tarau\t01\t1\t6\t2000000\t1\t2\t3\n"), TEXT(SECOND), out, 1), SWIVELCRANE_REFUSAL_ID, "later: 21");
    refused(swivelcrane_later(TEXT(FIRST), TEXT(BAD), out, 1), SWIVELCRANE_REFUSAL_PLAIN, "later: 22");
    refused(swivelcrane_later(TEXT("P\tA\t0\t1\t6\t2000000\t1\t2\t3\n"), TEXT("P\n"), out, 1), SWIVELCRANE_REFUSAL_RANGE, "later: 2, the first before the second");
    refused(swivelcrane_later(TEXT("P\tA\t1\t1\t6\t0\t1\t2\t3\n"), TEXT(SECOND), out, 1), SWIVELCRANE_REFUSAL_EPOCH, "later: 3");
    refused(swivelcrane_later(TEXT(FIRST), TEXT("P\tA\t1\t1\t6\t2000000\t1\t2\t3\n"), out, 1), SWIVELCRANE_REFUSAL_IDS, "later: 16");
    refused(swivelcrane_later(TEXT(FIRST), TEXT("P\tARAU\t10\t2\t6\t2000000\t1\t2\t3\n"), out, 1), SWIVELCRANE_REFUSAL_SAME, "later: 17");
    refused(swivelcrane_later(TEXT(FIRST), TEXT(ORDER_3), out, 1), SWIVELCRANE_REFUSAL_SAME, "later, another order: 17");
    refused(swivelcrane_later(TEXT("P\tA\t1\t5\t6\t2000000\t1\t2\t3\n"), TEXT(SECOND), out, 1), SWIVELCRANE_REFUSAL_RANGE, "later, order 5: 2");
    refused(swivelcrane_later(TEXT("P\tA\t1\t6\t2000000\t1\t2\t3\n"), TEXT(SECOND), out, 1), SWIVELCRANE_REFUSAL_COUNT, "later, eight fields: 20");
    refused(swivelcrane_later(TEXT(FIRST), TEXT(SECOND), out, 2), SWIVELCRANE_WRONG_LENGTH, "later, room for two");
}

static void faults_of_the_later(void) {
    wrote(swivelcrane_later_fault(TEXT(FIRST), TEXT(BAD), out, 3), stored_later_fault, 3, "later_fault, the second line");
    wrote(swivelcrane_later_fault(TEXT(BAD), TEXT(""), out, 3), stored_later_fault_first, 3, "later_fault, the first line");
    wrote(swivelcrane_later_fault(TEXT(FIRST), TEXT(OTHER), out, 3), stored_later_fault_ids, 3, "later_fault, neither line");
    wrote(swivelcrane_later_fault(TEXT(FIRST), TEXT(SECOND), out, 3), stored_later_fault_none, 3, "later_fault, none");
    refused(swivelcrane_later_fault(TEXT(FIRST), TEXT(SECOND), out, 2), SWIVELCRANE_WRONG_LENGTH, "later_fault, room for two");
    refused(swivelcrane_later_fault(TEXT(BAD), TEXT(SECOND), out, 4), SWIVELCRANE_WRONG_LENGTH, "later_fault, room for four");
}

typedef int64_t printer(const uint8_t *, size_t, uint8_t *, size_t);
static uint8_t text[SWIVELCRANE_ROOM(65536) + 2];

/* With the room that the macro says the text comes whole and nothing past it is touched; with one byte less, nothing is. */
static void prints(printer *program, const uint8_t *input, size_t length, const char *stored, const char *what) {
    const size_t room = SWIVELCRANE_ROOM(length), size = strlen(stored);
    memset(text, 0xA5, sizeof text);
    hold(program(input, length, text, room - 1) == -SWIVELCRANE_WRONG_LENGTH && text[0] == 0xA5 && memcmp(text, text + 1, sizeof text - 1) == 0, what);
    hold(program(input, length, text, room) == (int64_t)size && memcmp(text, stored, size) == 0, what);
    hold(text[size] == 0xA5 && memcmp(text + size, text + size + 1, sizeof text - size - 1) == 0, what);
}

#define SHIFT "S\tT\t6\t2000000\t6\t2006586\t-15832\t-4363\t-9706\n"
#define A1 "P\tA1\t1\t2\t6\t2000000\t-113105165410\t623631179950\t71174811140\n"
#define ORIGIN "O\t1\t1440000000\t36720000000\t50000\t-25000\n"

static void programs(void) {
    static uint8_t longest[65537];
    memset(longest, '\n', sizeof longest);
    prints(swivelcrane_sheet, TEXT(SHIFT A1 SHIFT A1), "P\tA1\t1\t2\t6\t2006586\t-113105181242\t623631175587\t71174801434\nR\t3\t7\t0\nR\t4\t8\t0\n", "sheet");
    prints(swivelcrane_sheet, TEXT("E\t2009\n" A1 "E\t2009\n" A1), "R\t2\t25\t0\nR\t3\t7\t0\nR\t4\t25\t0\n", "a sheet of 2009");
    prints(swivelcrane_plan, TEXT(ORIGIN "G\tB1\t1440000000\t36720000000\n" ORIGIN), "C\tB1\t50000\t-25000\nR\t3\t7\t0\n", "plan");
    prints(swivelcrane_sheet, TEXT("G\tB1\t1440000000\t36720000000\n"), "R\t1\t19\t0\n", "a position in a sheet");
    prints(swivelcrane_plan, TEXT(A1), "R\t1\t19\t0\n", "a point in a plan");
    prints(swivelcrane_sheet, longest, sizeof longest, "R\t0\t15\t0\n", "a sheet that is too long");
    prints(swivelcrane_plan, longest, sizeof longest, "R\t0\t15\t0\n", "a plan that is too long");
    prints(swivelcrane_sheet, longest, 0, "", "an empty sheet");
    prints(swivelcrane_plan, longest, 0, "", "an empty plan");
    prints(swivelcrane_sheet, TEXT("S\n" A1 "P\tA1\t01\t"), "R\t1\t20\t1\nR\t2\t8\t0\nR\t3\t18\t8\n", "places in a sheet");
    prints(swivelcrane_plan, TEXT("O\t1\t1440000000\t036720000000\t50000\t-25000\nG\tb1\t1\t2\n"), "R\t1\t22\t15\nR\t2\t21\t2\n", "places in a plan");
}

/* A sheet in pieces of one length, whose answers together are those of one run; then the state is finished. */
static void in_pieces(const uint8_t *sheet, size_t length, size_t piece) {
    enum { NUMBERS = SWIVELCRANE_STREAM_NUMBERS, LINE = SWIVELCRANE_STREAM_LINE };
    static uint8_t whole[SWIVELCRANE_ROOM(65536)];
    int64_t state[NUMBERS] = {0, 0, 0, 0, 0, 2021}, told[2] = {0, 0};
    uint8_t line[LINE] = {0}, answer[LINE];
    size_t printed = 0, lines = 0;
    const int64_t size = swivelcrane_sheet(sheet, length, whole, SWIVELCRANE_ROOM(length));
    for (size_t at = 0; at < length; at += (size_t)told[0]) {
        const size_t left = length - at < piece ? length - at : piece;
        memset(answer, 0xA5, LINE);
        const int64_t count = swivelcrane_feed(state, NUMBERS, line, LINE, sheet + at, left, answer, LINE, told, 2);
        if (count < 0 || told[0] <= 0) {
            hold(0, "feed");
            return;
        }
        hold(memcmp(whole + printed, answer, (size_t)count) == 0 && answer[count] == 0xA5, "feed, as in one run");
        hold(told[1] == (sheet[at + (size_t)told[0] - 1] == '\n') && (told[1] == 1 || count == 0), "feed, a line answered");
        printed += (size_t)count;
        lines += (size_t)told[1];
    }
    const int open = length > 0 && sheet[length - 1] != '\n';
    const int64_t count = swivelcrane_finish(state, NUMBERS, line, LINE, answer, LINE);
    hold(count >= 0 && memcmp(whole + printed, answer, (size_t)count) == 0 && (int64_t)printed + count == size, "finish, as in one run");
    hold(state[0] == (int64_t)lines + open && state[1] == 0 && state[4] == 1 && line[0] == 0, "finish, the state");
    hold(swivelcrane_finish(state, NUMBERS, line, LINE, answer, LINE) == -SWIVELCRANE_REFUSAL_STATE, "finish: 29");
    hold(swivelcrane_feed(state, NUMBERS, line, LINE, sheet, 0, answer, LINE, told, 2) == -SWIVELCRANE_REFUSAL_STATE, "feed, after the finish: 29");
}

static void streams(void) {
    enum { NUMBERS = SWIVELCRANE_STREAM_NUMBERS, LINE = SWIVELCRANE_STREAM_LINE };
    static const char sheet[] = "E\t2021\n" SHIFT A1 "\nP\t" SHIFT A1 "P\tA1";
    int64_t state[NUMBERS] = {0}, told[2] = {CANARY, CANARY};
    uint8_t line[LINE] = {'S'}, answer[LINE + 1] = {0xA5};
    for (size_t piece = 1; piece < sizeof sheet; piece++)
        in_pieces(TEXT(sheet), piece);
    in_pieces(TEXT(SHIFT), 5);
    in_pieces(TEXT(""), 5);
    refused(swivelcrane_feed(state, NUMBERS, line, LINE, TEXT("\n"), answer, LINE, told, 2), -SWIVELCRANE_REFUSAL_STATE, "feed, no profile: 29");
    state[5] = 2021;
    state[0] = 1000001;
    refused(swivelcrane_feed(state, NUMBERS, line, LINE, TEXT(""), answer, LINE, told, 2), -SWIVELCRANE_REFUSAL_STATE, "feed, too many lines: 29");
    refused(swivelcrane_finish(state, NUMBERS, line, LINE, answer, LINE), -SWIVELCRANE_REFUSAL_STATE, "finish, too many lines: 29");
    refused(swivelcrane_feed(state, NUMBERS - 1, line, LINE, TEXT("\n"), answer, LINE, told, 2), -SWIVELCRANE_WRONG_LENGTH, "feed, a number short");
    refused(swivelcrane_feed(state, NUMBERS, line, LINE - 1, TEXT("\n"), answer, LINE, told, 2), -SWIVELCRANE_WRONG_LENGTH, "feed, a byte short");
    refused(swivelcrane_feed(state, NUMBERS, line, LINE, TEXT("\n"), answer, LINE - 1, told, 2), -SWIVELCRANE_WRONG_LENGTH, "feed, room for 199");
    refused(swivelcrane_feed(state, NUMBERS, line, LINE, TEXT("\n"), answer, LINE, told, 1), -SWIVELCRANE_WRONG_LENGTH, "feed, one told");
    refused(swivelcrane_finish(state, NUMBERS, line, LINE, answer, LINE - 1), -SWIVELCRANE_WRONG_LENGTH, "finish, room for 199");
    hold(line[0] == 'S' && answer[0] == 0xA5 && told[0] == CANARY && told[1] == CANARY && state[0] == 1000001, "a refused call writes nothing");
    state[0] = 1000000;
    state[1] = 1;
    hold(swivelcrane_feed(state, NUMBERS, line, LINE, TEXT("\n\n"), answer, LINE + 1, told, 2) == 15 && memcmp(answer, "R\t1000001\t28\t0\n", 15) == 0, "feed, past the limit: 28");
    hold(told[0] == 1 && told[1] == 1 && line[0] == 0 && state[0] == 1000000 && state[1] == 0 && state[2] == 0, "feed, past the limit: nothing moves");
}

#define GRID "G\t2310000000\t36090000000\t2\t3\t5\n-1800\t200\t30\n1400\t-500\t60\n7\t8\t-9\n1000\t-110\t1200\n13\t14\t-1500\n-\n"

static void grids(void) {
    wrote(swivelcrane_grid_velocity(TEXT(GRID), 2322056909, 36100705076, 7, 2010000, 2020000, out, 16), stored_grid_velocity, 16, "grid_velocity");
    refused(swivelcrane_grid_velocity(TEXT(GRID "\n"), -1, 36100705076, 7, 2010000, 2020000, out, 16), SWIVELCRANE_REFUSAL_LINES, "a line left over: 30");
    refused(swivelcrane_grid_velocity(TEXT(""), -1, 36100705076, 7, 2010000, 2020000, out, 16), SWIVELCRANE_REFUSAL_LINES, "no grid: 30");
    refused(swivelcrane_grid_velocity(TEXT("x\n"), -1, 36100705076, 7, 2010000, 2020000, out, 16), SWIVELCRANE_REFUSAL_LETTER, "no header: 19");
    refused(swivelcrane_grid_velocity(TEXT(GRID), -1, 36100705076, 11, 0, 0, out, 16), SWIVELCRANE_REFUSAL_GEODETIC, "grid_velocity: 12");
    refused(swivelcrane_grid_velocity(TEXT(GRID), 2322056909, 36120000000, 11, 0, 0, out, 16), SWIVELCRANE_REFUSAL_OFF_GRID, "a node without a value, of the cell to the east: 24");
    refused(swivelcrane_grid_velocity(TEXT(GRID), 2340000001, 36100705076, 11, 0, 0, out, 16), SWIVELCRANE_REFUSAL_OFF_GRID, "north of the grid: 24");
    refused(swivelcrane_grid_velocity(TEXT(GRID), 2322056909, 36100705076, 11, 0, 0, out, 16), SWIVELCRANE_REFUSAL_RANGE, "datum 11: 2");
    refused(swivelcrane_grid_velocity(TEXT(GRID), 2322056909, 36100705076, 7, 2010000, 0, out, 16), SWIVELCRANE_REFUSAL_EPOCH, "grid_velocity: 3");
    refused(swivelcrane_grid_velocity(TEXT(GRID), 2322056909, 36100705076, 2, 0, 0, out, 16), SWIVELCRANE_REFUSAL_KIND, "grid_velocity: 4");
    refused(swivelcrane_grid_velocity(TEXT(GRID), 2322056909, 36100705076, 7, 2010000, 2020000, out, 15), SWIVELCRANE_WRONG_LENGTH, "grid_velocity, room for 15");
    refused(swivelcrane_grid_velocity(TEXT(""), 2322056909, 36100705076, 7, 2010000, 2020000, out, 17), SWIVELCRANE_WRONG_LENGTH, "grid_velocity, room for 17");
    wrote(swivelcrane_grid_fault(TEXT(GRID), out, 3), stored_grid_fault_none, 3, "grid_fault, none");
    wrote(swivelcrane_grid_fault(TEXT(GRID "-\n"), out, 3), stored_grid_fault_over, 3, "grid_fault, a line left over");
    wrote(swivelcrane_grid_fault(TEXT("G\t2310000000\t36090000000\t2\t3\t5\n1\t2\t3\n1\t2501\t03\n"), out, 3), stored_grid_fault, 3, "grid_fault, the third line");
    refused(swivelcrane_grid_fault(TEXT(GRID), out, 2), SWIVELCRANE_WRONG_LENGTH, "grid_fault, room for two");
}

static void numbers(void) {
    hold(SWIVELCRANE_ROOM(0) == 9 && SWIVELCRANE_ROOM(1 + 1) == 35 && SWIVELCRANE_ROOM(65535) == 851964, "the room");
    hold(SWIVELCRANE_ROOM(65536) == 851977 && SWIVELCRANE_ROOM(65537) == 851977, "the most room");
    hold(STEP == 13 && POINT == 7 && SWIVELCRANE_WRONG_LENGTH == 255, "numbers to a step, to a point, a wrong length");
    hold(SWIVELCRANE_VERSION_MAJOR == 4 && SWIVELCRANE_VERSION_MINOR == 5, "the version");
    hold(SWIVELCRANE_REFUSAL_PLACE == 7 && SWIVELCRANE_REFUSAL_EARLIER == 8 && SWIVELCRANE_REFUSAL_LONG == 15, "the numbers that only a text has");
}

int main(void) {
    clear();
    numbers();
    conversions();
    refused_conversions();
    profiles();
    joins();
    rows();
    leaves_the_area();
    geodetic();
    to_angles();
    grid();
    oblique_mercator();
    rounding();
    later();
    faults_of_the_later();
    programs();
    streams();
    grids();
    if (faults == 0)
        printf("tests/c: every function of the header answers as stored\n");
    return faults != 0;
}
