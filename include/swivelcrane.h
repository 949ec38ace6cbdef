/* Swivelcrane for C: datum steps, geodetic to Cartesian, Cassini grids, RSO, exact rounding, the later of two point lines,
 * and whole sheets and plans. Link with target/staticlib/libcapi.a, which `bash tools/build capi` proves and builds.
 *
 * Units. Cartesian coordinates and heights: whole units of 0.00001 m. Latitudes and longitudes: whole units of 0.00001".
 * Epochs: thousandths of a year, 0 for none. Rotations: 0.00001". Scale: 10^-11. False eastings and northings: mm.
 *
 * Answers. A call answers 0 and writes its results, or answers a refusal number (enum swivelcrane_refusal) or
 * SWIVELCRANE_WRONG_LENGTH, and then writes nothing. swivelcrane_sheet and swivelcrane_plan answer the length of what
 * they wrote, or minus SWIVELCRANE_WRONG_LENGTH; swivelcrane_join the count of numbers, swivelcrane_feed and
 * swivelcrane_finish the length of what a line prints, or minus the number. Every input has its answer: nothing has to be
 * checked beforehand.
 *
 * Every array is handed over as a pointer and the number of its elements. A pointer must be valid for that many elements,
 * also where there are none; arrays that are written must not overlap others of the same call. There is no state but what
 * the caller keeps: calls may run side by side. */
#ifndef SWIVELCRANE_H
#define SWIVELCRANE_H

#include <stddef.h>
#include <stdint.h>

#ifdef __cplusplus
extern "C" {
#endif

/* The version of this interface: a function or a number that is added raises the minor, any other change the major. */
#define SWIVELCRANE_VERSION_MAJOR 4
#define SWIVELCRANE_VERSION_MINOR 5

/* The refusal numbers by name; README.md says of each what to do. 1 is not given. */
enum swivelcrane_refusal {
    SWIVELCRANE_REFUSAL_RANGE = 2,     /* a number, an ellipsoid code or a count of places out of its range */
    SWIVELCRANE_REFUSAL_EPOCH = 3,     /* a datum and an epoch that don't agree */
    SWIVELCRANE_REFUSAL_KIND = 4,      /* a velocity or a frame step that breaks the rule of its kind */
    SWIVELCRANE_REFUSAL_JOIN = 5,      /* a step that doesn't begin where the step before it ended */
    SWIVELCRANE_REFUSAL_NINTH = 6,     /* a ninth step */
    SWIVELCRANE_REFUSAL_PLACE = 7,     /* a step after a point line; an edition or origin line that is not the first */
    SWIVELCRANE_REFUSAL_EARLIER = 8,   /* an earlier step or edition line was refused; no accepted origin */
    SWIVELCRANE_REFUSAL_START = 9,     /* a point that is not at the chain's start (its end, for the inverse) */
    SWIVELCRANE_REFUSAL_AREA = 10,     /* a point outside the area */
    SWIVELCRANE_REFUSAL_LEFT = 11,     /* a position outside the area after some step */
    SWIVELCRANE_REFUSAL_GEODETIC = 12, /* a latitude, longitude or height out of its range */
    SWIVELCRANE_REFUSAL_APART = 13,    /* longitudes too far apart */
    SWIVELCRANE_REFUSAL_SIZE = 14,     /* an f64 that is not finite, or is 10,000,000 or more in size */
    SWIVELCRANE_REFUSAL_LONG = 15,     /* input that is too long: only in the text of a sheet or a plan */
    SWIVELCRANE_REFUSAL_IDS = 16,      /* two point lines with different ids */
    SWIVELCRANE_REFUSAL_SAME = 17,     /* two point lines with one issue and different bytes */
    SWIVELCRANE_REFUSAL_LENGTH = 18,   /* a line over 200 bytes with its line feed, or with no line feed at its end */
    SWIVELCRANE_REFUSAL_LETTER = 19,   /* a first letter, step kind or convention that is unknown or empty */
    SWIVELCRANE_REFUSAL_COUNT = 20,    /* a line with the wrong number of fields */
    SWIVELCRANE_REFUSAL_ID = 21,       /* an id that is not 1 to 16 of A-Z, 0-9 and hyphen */
    SWIVELCRANE_REFUSAL_PLAIN = 22,    /* a number that is not in plain form */
    SWIVELCRANE_REFUSAL_PLANE = 23,    /* an easting or northing not finite, or 10,000,000 m or more in size */
    SWIVELCRANE_REFUSAL_OFF_GRID = 24, /* a point off the velocity grid, or in a cell with a node that has no value */
    SWIVELCRANE_REFUSAL_PROFILE = 25,  /* a step or a point that the chain's profile doesn't have */
    SWIVELCRANE_REFUSAL_ROW = 26,      /* a row of answers that is shorter than the row of points */
    SWIVELCRANE_REFUSAL_BUFFER = 27,   /* a buffer of fewer than 200 bytes: only of the lot plan (swivelcrane_lot_plan.h) */
    SWIVELCRANE_REFUSAL_LIMIT = 28,    /* a line past the first million: only in the text of a sheet in fragments */
    SWIVELCRANE_REFUSAL_STATE = 29,    /* a call after the finish, or with a state that is none */
    SWIVELCRANE_REFUSAL_LINES = 30     /* lines of a velocity grid missing, or anything left over */
};

/* An array has not the number of elements that its call asks for. It comes before every refusal. */
#define SWIVELCRANE_WRONG_LENGTH 255

/* Numbers to a step of a chain, in this order:
 *   0  kind: 'T' shift, 'V' velocity, 'B' Bursa-Wolf, 'F' frame
 *   1  convention of a 'B': 'P' position vector, 'C' coordinate frame; not read for the other kinds
 *   2  datum before   3  epoch before   4  datum after   5  epoch after
 *   6..12  T: dx, dy, dz.  V: vx, vy, vz (units a year).  B: dx, dy, dz, rx, ry, rz, s.  F: none.  The rest is not read.
 * Another kind or convention counts as a number out of range, refusal 2, of that step. */
#define SWIVELCRANE_STEP_NUMBERS 13

/* Numbers to a point: issue, order of control (1 to 4), datum, epoch, X, Y, Z. The point's id stays with the caller. */
#define SWIVELCRANE_POINT_NUMBERS 7

/* Converts a point along a chain (forward) or back (inverse). The profile is the edition of the circular that the chain is made
 * under: 2021, also where the job names none, or 2009, which has datums 1, 2, 3, 4, 5 and 7 and steps 'T' and 'B' alone. The chain
 * has 13 numbers a step; no step at all is a chain too, and more than eight are refused with 6. Refusals: the profile's year 2; chain
 * 6, then each step 2, 3, 25, 4, 5; point 2, 3, 25, 9, 10; then 11. */
int64_t swivelcrane_forward(int64_t profile, const int64_t *chain, size_t chain_length, const int64_t *point, size_t point_length,
                            int64_t *out, size_t out_length);
int64_t swivelcrane_inverse(int64_t profile, const int64_t *chain, size_t chain_length, const int64_t *point, size_t point_length,
                            int64_t *out, size_t out_length);

/* Numbers to an answer of swivelcrane_row: the refusal number or 0, then the point's seven numbers, all 0 beside a refusal. */
#define SWIVELCRANE_PLACE_NUMBERS 8

/* A day's points in one call, along the chain (direction 0) or back (1): 7 numbers a point, 8 an answer. Each answer is what
 * swivelcrane_forward or swivelcrane_inverse gives for that point by itself; answers past the points stay as they were. The call
 * answers 0, or a number for the whole call, and then nothing is written: a length that is no multiple, 26 (fewer answers than points), 2
 * (another direction), then the chain's own number (2 for its year, 6, then each step 2, 3, 25, 4, 5), for no point too. */
int64_t swivelcrane_row(int64_t profile, const int64_t *chain, size_t chain_length, int64_t direction, const int64_t *points,
                        size_t points_length, int64_t *answers, size_t answers_length);

/* Numbers to eight steps: the room that swivelcrane_join asks for. */
#define SWIVELCRANE_JOINED_NUMBERS 104

/* Two chains, each with its profile, made one: out has 104 elements, and the steps of the first and then of the second stand at its
 * start as they were given; the elements past them are as they were. The answer is the number of numbers written, 13 a step, or minus
 * the refusal number, or minus SWIVELCRANE_WRONG_LENGTH. Refusals: a bad chain's own number, the first chain's before the second's (2 for
 * its year, 6, then each step 2, 3, 25, 4, 5); 5 where they don't join, then 6 where they have more than eight steps together, then 25
 * for unlike profiles. A chain of no step joins every chain of its profile. */
int64_t swivelcrane_join(int64_t first_profile, const int64_t *first, size_t first_length, int64_t second_profile,
                         const int64_t *second, size_t second_length, int64_t *out, size_t out_length);

/* Geodetic to Cartesian on an ellipsoid (1 GRS80, 2 WGS84, 3 Everest 1830 Modified, 4 Everest 1967): X, Y, Z in metres,
 * and in whole units. out has 3 elements. Refusals: 2 (ellipsoid), 12 (latitude, longitude, height), then 14. */
int64_t swivelcrane_cartesian(int64_t ellipsoid, int64_t latitude, int64_t longitude, int64_t height, double *out,
                              size_t out_length);
int64_t swivelcrane_cartesian_units(int64_t ellipsoid, int64_t latitude, int64_t longitude, int64_t height, int64_t *out,
                                    size_t out_length);

/* Cartesian to geodetic, the way back: latitude and longitude in units of 0.00001", height in units of 0.00001 m, of X, Y, Z in
 * units of 0.00001 m on the same ellipsoids. out has 3 elements. Refusals: 2 (ellipsoid), 10 (X, Y or Z outside the area, of
 * any size), then 12 (latitude, longitude or height, rounded, out of its range). */
int64_t swivelcrane_geodetic(int64_t ellipsoid, int64_t x, int64_t y, int64_t z, int64_t *out, size_t out_length);

/* Cassini-Soldner: easting and northing in metres, and in whole millimetres. out has 2 elements.
 * Refusals: 2 (ellipsoid, false easting, false northing), 12 (a latitude or longitude), 13 (longitudes over 1,440,000,000
 * apart), then 14. */
int64_t swivelcrane_cassini(int64_t ellipsoid, int64_t origin_latitude, int64_t origin_longitude, int64_t false_easting,
                            int64_t false_northing, int64_t latitude, int64_t longitude, double *out, size_t out_length);
int64_t swivelcrane_cassini_millimetres(int64_t ellipsoid, int64_t origin_latitude, int64_t origin_longitude,
                                        int64_t false_easting, int64_t false_northing, int64_t latitude,
                                        int64_t longitude, int64_t *out, size_t out_length);

/* Numbers to an RSO projection (Hotine oblique Mercator, variant A), in this order, with what is allowed:
 *   0  ellipsoid, 1 to 4   1  the centre's latitude, 360,000,000 to 2,880,000,000   2  the centre's longitude, 35,640,000,000 to
 *   43,200,000,000   3  azimuth   4  rectified angle (each 10,800,000,000 to 21,600,000,000, or 108,000,000,000 to
 *   118,800,000,000 and then used less a full turn)   5  scale in 10^-11, 99,000,000,000 to 101,000,000,000
 *   6  false easting   7  false northing (mm, within 2,000,000,000) */
#define SWIVELCRANE_RSO_NUMBERS 8

/* RSO, forward: easting and northing in metres. out has 2 elements. Refusals: 2 (any parameter), 12 (latitude, longitude). */
int64_t swivelcrane_rso_forward(const int64_t *parameters, size_t parameters_length, int64_t latitude, int64_t longitude,
                                double *out, size_t out_length);
/* RSO, reverse: latitude and longitude. out has 2 elements. Refusals: 2 (any parameter), 23 (easting or northing 10,000,000 m or
 * more in size, or not finite), 12 (a result out of its range: the far side of the earth too). */
int64_t swivelcrane_rso_reverse(const int64_t *parameters, size_t parameters_length, double easting, double northing,
                                int64_t *out, size_t out_length);

/* The whole number nearest to the exact value of x times ten to the places (0 to 5), a half away from zero. out has 1
 * element. Refusals: 2 (places), 14 (x not finite, or 10,000,000 or more in size). */
int64_t swivelcrane_round(double x, uint32_t places, int64_t *out, size_t out_length);

/* The later of two point lines, each with its line feed: which has 1 element and becomes 1 for the first, 2 for the second.
 * Byte-equal lines give the first. Refusals: first line 18, 19, 20, 21, 22, 2, 3, then the second's, then 16, 17. */
int64_t swivelcrane_later(const uint8_t *first, size_t first_length, const uint8_t *second, size_t second_length,
                          int64_t *which, size_t which_length);

/* Why neither of two point lines is the later one. out has 3 elements and becomes: the refusal number that swivelcrane_later
 * answers; the line at fault, 1 or 2, or 0 where neither alone is (16, 17); and the place in that line. The place is the byte, from
 * 0, where the first offending field begins; for 18 and 20 the line's length without its line feed, at most 200; 0 for every number
 * but 18 to 22. Three zeros where one line is the later. It answers 0, or SWIVELCRANE_WRONG_LENGTH with nothing written. */
int64_t swivelcrane_later_fault(const uint8_t *first, size_t first_length, const uint8_t *second, size_t second_length,
                                int64_t *out, size_t out_length);

/* Room that a sheet or a plan of n bytes asks for in out: 13 bytes for each byte of input, up to 65,536 of them, and 9. */
#define SWIVELCRANE_ROOM(n) (13 * ((n) < 65536 ? (size_t)(n) : (size_t)65536) + 9)

/* A whole sheet, and a whole plan, from its bytes to what the program prints. The answer is the length of the text, whose
 * bytes stand at the start of out; the bytes past it are as they were. A sheet is read under the profile that its first line
 * names, `E`, tab, 2009 or 2021, and under 2021 where there is no such line. */
int64_t swivelcrane_sheet(const uint8_t *input, size_t input_length, uint8_t *out, size_t out_length);
int64_t swivelcrane_plan(const uint8_t *input, size_t input_length, uint8_t *out, size_t out_length);

/* A sheet in fragments, as they come over a radio link. The caller keeps its state between the calls: numbers, and the bytes of the
 * line that is open. Numbers to a state, in this order:
 *   0  lines answered, 0 to 1,000,000   1  bytes kept of the open line, 0 to 200 (200: it is too long, the rest is skipped)
 *   2  1 where a line beginning with S or E was refused, else 0   3  1 where a point line of good form was read, else 0
 *   4  1 after the finish, else 0   5  profile, 2009 or 2021   6  steps, 0 to 8 and no more than lines   7..110  the steps, 13 numbers each
 * A fresh state is all zeros but its profile, 2021, and so are its 200 bytes of line all zeros. A step that a line brings in stands as
 * swivelcrane_forward takes it, with 0 where its kind has no number; steps past their count are neither read nor written. */
#define SWIVELCRANE_STREAM_NUMBERS 111
#define SWIVELCRANE_STREAM_LINE 200

/* Takes a fragment of any length: up to and with its first line feed, or all of it where it has none. told has 2 elements and becomes the
 * number of bytes taken, and 1 where a line was answered, 0 where none was completed; call again with what was not taken. The answer is
 * the length of what the line prints, 0 for a line that prints nothing; it stands at the start of out, which has 200 bytes or more, and the
 * bytes past it are as they were. Each line is answered as swivelcrane_sheet answers it, without a limit in bytes; a line past the first
 * million prints R, 1000001, 28, 0, is not read and moves nothing. With a line answered all bytes of line become 0; without one the
 * fragment's bytes stand behind those kept, as far as there is room.
 * Refusals, as minus the number, with nothing written and the state as it was: 29 (finished, a count or a flag out of its range, or a bad
 * chain), for an empty fragment too; minus SWIVELCRANE_WRONG_LENGTH comes before it. */
int64_t swivelcrane_feed(int64_t *state, size_t state_length, uint8_t *line, size_t line_length, const uint8_t *fragment,
                         size_t fragment_length, uint8_t *out, size_t out_length, int64_t *told, size_t told_length);
/* Ends the sheet: a line left open is refused with 18 (28 past the limit), and the answer is the length of its R line; with none open it is
 * 0. All bytes of line become 0, and every later call on this state is 29. Refusals as of swivelcrane_feed. */
int64_t swivelcrane_finish(int64_t *state, size_t state_length, uint8_t *line, size_t line_length, uint8_t *out, size_t out_length);

/* A velocity grid is a text of lines: the header G, latitude, longitude of the south-west corner, rows, columns (2 or more each, 4,000
 * nodes at most), mesh in minutes (5 or 10); then a line a node, eastward, rows going north: east, north, up in hundredths of a millimetre a
 * year (each within 2,500), or a single - for a node with no value. Numbers to a velocity: east, north and up at the point, then the 13
 * numbers of the step 'V' as swivelcrane_forward takes it. */
#define SWIVELCRANE_VELOCITY_NUMBERS 16

/* The velocity of a grid at a point, bilinear over the four nodes of its cell, for a datum and two epochs. out has 16 elements. Refusals: the
 * grid's own (of its first refused line 18, 19 for the header alone, 20, 22, then 2; then 30 where lines are missing or anything is left
 * over); the point's 12, then 24; then 2, 3, 4 for the datum and the epochs. The call takes some 100,000 bytes of stack. */
int64_t swivelcrane_grid_velocity(const uint8_t *grid, size_t grid_length, int64_t latitude, int64_t longitude, int64_t datum,
                                  int64_t epoch_before, int64_t epoch_after, int64_t *out, size_t out_length);
/* What is wrong with a grid: out has 3 elements and becomes its own refusal number (0 for none), the line from 1 (0 for 30 and for none), and
 * the byte in that line where the first offending field begins, as in swivelcrane_later_fault. Answers 0. */
int64_t swivelcrane_grid_fault(const uint8_t *grid, size_t grid_length, int64_t *out, size_t out_length);

#ifdef __cplusplus
}
#endif

#endif
