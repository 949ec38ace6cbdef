/* One lot plan of the fuzzer through the product's C interface and to the oracle. Its bytes are the length of the point's line, the room less
   72, the origin's five numbers, the chain's text, and at the end the point's line.

   Each slice ends where an unreadable page begins, so that a byte read or written past it ends the run. */

#include <stdint.h>
#include <stdio.h>
#include <stdlib.h>
#include <string.h>
#include <sys/mman.h>

int64_t swivelcrane_lot_plan(const uint8_t *chain, size_t chain_len, const uint8_t *point, size_t point_len, int64_t ellipsoid,
                             int64_t origin_latitude, int64_t origin_longitude, int64_t false_easting, int64_t false_northing, uint8_t *out,
                             size_t out_len);
int32_t oracle_agrees_on_lot(const uint8_t *chain, size_t chain_len, const uint8_t *point, size_t point_len, const int64_t *origin,
                             const uint8_t *out, size_t out_len, int64_t answer);

enum { PAGE = 4096, MOST = 65536, LEAST_ROOM = 72, HEAD = 2 + 5 * 8 };

/* The end of so many bytes, rounded up to pages, before a page that can't be touched. */
static uint8_t *before_a_wall(size_t bytes) {
    size_t pages = (bytes + PAGE - 1) / PAGE * PAGE;
    uint8_t *memory = mmap(NULL, pages + PAGE, PROT_READ | PROT_WRITE, MAP_PRIVATE | MAP_ANONYMOUS, -1, 0);
    if (memory == MAP_FAILED || mprotect(memory + pages, PAGE, PROT_NONE) != 0) {
        perror("mmap");
        exit(2);
    }
    return memory + pages;
}

int LLVMFuzzerTestOneInput(const uint8_t *data, size_t size) {
    static uint8_t *chain_end, *point_end, *out_end;
    if (chain_end == NULL) {
        chain_end = before_a_wall(MOST);
        point_end = before_a_wall(PAGE);
        out_end = before_a_wall(PAGE);
    }
    if (size < HEAD || size > MOST) {
        return 0;
    }
    const size_t rest = size - HEAD, point_len = data[0] < rest ? data[0] : rest, chain_len = rest - point_len, room = LEAST_ROOM + data[1];
    uint8_t *chain = chain_end - chain_len, *point = point_end - point_len, *out = out_end - room;
    int64_t origin[5];
    memcpy(origin, data + 2, sizeof origin);
    memcpy(chain, data + HEAD, chain_len);
    memcpy(point, data + HEAD + chain_len, point_len);
    memset(out, 0xa5, room);
    const int64_t answer = swivelcrane_lot_plan(chain, chain_len, point, point_len, origin[0], origin[1], origin[2], origin[3], origin[4], out, room);
    if (memcmp(chain, data + HEAD, chain_len) != 0 || memcmp(point, data + HEAD + chain_len, point_len) != 0) {
        fprintf(stderr, "MISMATCH: the input was written to\n");
        abort();
    }
    if (!oracle_agrees_on_lot(chain, chain_len, point, point_len, origin, out, room, answer)) {
        abort();
    }
    return 0;
}
