/* The lot plan for the job tracker: one function, with a library of its own. Link with target/staticlib/liblot_plan.a, which
 * `bash tools/build lot_plan` proves and builds. It may stand beside swivelcrane.h and its library in one program.
 *
 * Units: angles 0.00001", false easting and northing mm. The refusal numbers are those of swivelcrane.h; README.md says of each what to do. */
#ifndef SWIVELCRANE_LOT_PLAN_H
#define SWIVELCRANE_LOT_PLAN_H

#include <stddef.h>
#include <stdint.h>

#ifdef __cplusplus
extern "C" {
#endif

/* The least room for a line. */
#define SWIVELCRANE_LOT_PLAN_ROOM 200

/* From a chain, a point line, an ellipsoid (1 to 4) and a state origin to one line of the lot plan: C, id, issue, order, easting and northing
 * in millimetres. The chain is the text of its E and S lines, of any length, as on a sheet; the empty text is the chain of no step. The point
 * goes along the chain, its position to latitude and longitude, these onto Cassini. The answer is the line's length with its line feed; the
 * line stands at the start of out, and the bytes past it are as they were.
 * Refusals, as minus the number, with nothing written: 27 (out has fewer than 200 bytes); the chain's first refused line (18 to 22, where any
 * line but E and S is 19; E: 7, 2; S: 2, 3, 25, 4, 5, 6); the point line's 18 to 22, 2, 3, 25, 9, 10, 11; to angles 2 (ellipsoid), 12; onto
 * Cassini 2 (false easting, false northing), 12 (the origin), 13, 14.
 * Every array is handed over as a pointer and the number of its elements, and the pointer must be valid also where there are none; out must not
 * overlap the others. */
int64_t swivelcrane_lot_plan(const uint8_t *chain, size_t chain_length, const uint8_t *point, size_t point_length, int64_t ellipsoid,
                             int64_t origin_latitude, int64_t origin_longitude, int64_t false_easting, int64_t false_northing,
                             uint8_t *out, size_t out_length);

#ifdef __cplusplus
}
#endif

#endif
