/* One input of the fuzzer through the product's C interface and to the oracle. Compiled with -DPLAN=0 for
   sheets and -DPLAN=1 for plans.

   Input and output each end where an unreadable page begins, so that a byte read or written past either
   ends the run. */

#include <stdint.h>
#include <stdio.h>
#include <stdlib.h>
#include <string.h>
#include <sys/mman.h>

int64_t swivelcrane_sheet(const uint8_t *input, size_t input_len, uint8_t *out, size_t out_len);
int64_t swivelcrane_plan(const uint8_t *input, size_t input_len, uint8_t *out, size_t out_len);
int32_t oracle_agrees(int32_t plan, const uint8_t *input, size_t input_len, const uint8_t *output, size_t output_len);

enum { PAGE = 4096, MOST = 65536 };

/* The end of so many bytes, rounded up to pages, before a page that can't be touched. */
static uint8_t *before_a_wall(size_t bytes) {
    size_t pages = (bytes + PAGE - 1) / PAGE * PAGE;
    uint8_t *memory = mmap(NULL, pages + PAGE, PROT_READ | PROT_WRITE, MAP_PRIVATE | MAP_ANONYMOUS, -1, 0);
    if (memory == MAP_FAILED || mprotect(memory + pages, PAGE, PROT_NONE) != 0) {
        perror("mmap");
        exit(2);
    }
    return memory + pages;
}

int LLVMFuzzerTestOneInput(const uint8_t *data, size_t size) {
    static uint8_t *input_end, *output_end;
    if (input_end == NULL) {
        input_end = before_a_wall(2 * MOST);
        output_end = before_a_wall(13 * MOST + 9);
    }
    if (size > 2 * MOST) {
        return 0;
    }
    uint8_t *input = input_end - size;
    size_t room = 13 * (size < MOST ? size : MOST) + 9;
    uint8_t *output = output_end - room;
    memcpy(input, data, size);
    int64_t length = PLAN ? swivelcrane_plan(input, size, output, room) : swivelcrane_sheet(input, size, output, room);
    if (length < 0 || (size_t)length > room) {
        fprintf(stderr, "MISMATCH: returned %lld\n", (long long)length);
        abort();
    }
    if (memcmp(input, data, size) != 0) {
        fprintf(stderr, "MISMATCH: the input was written to\n");
        abort();
    }
    if (!oracle_agrees(PLAN, input, size, output, (size_t)length)) {
        abort();
    }
    return 0;
}
