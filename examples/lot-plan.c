/* The job tracker's call: station ARAU along its chain to GDM2020 and onto the state origin of Kedah and Perlis, as one line of the lot plan.
 * It links the lot plan's library alone. Build and run: bash examples/run-c */
#include <inttypes.h>
#include <stdio.h>
#include <string.h>

#include "swivelcrane_lot_plan.h"

static const char chain[] = "E\t2021\n"
                            "S\tT\t6\t2000000\t6\t2006586\t-15832\t-4363\t-9706\n"
                            "S\tV\t6\t2006586\t6\t2010000\t-1876\t-90\t-684\n"
                            "S\tF\t6\t2010000\t10\t2010000\n"
                            "S\tV\t10\t2010000\t10\t2020000\t-1874\t-169\t-502\n";

/* GRS80; Gunung Perak's origin, as examples/kedah.plan has it. */
static void show(const char *point) {
    uint8_t line[SWIVELCRANE_LOT_PLAN_ROOM];
    const int64_t length = swivelcrane_lot_plan((const uint8_t *)chain, strlen(chain), (const uint8_t *)point, strlen(point), 1, 2147282155,
                                                36229093860, 0, 0, line, sizeof line);
    if (length > 0)
        fwrite(line, 1, (size_t)length, stdout);
    else
        printf("refused: %" PRId64 "\n", -length);
}

int main(void) {
    show("P\tARAU\t1\t1\t6\t2000000\t-113105165410\t623631179950\t71174811140\n");
    show("P\tPEG-2\t1\t4\t6\t2000000\t-113104712345\t623631254321\t71174899999\n");
    /* A point of another datum, and a line without its order. */
    show("P\tPEG-1\t2\t4\t5\t2000000\t-113105165410\t623631179950\t71174811140\n");
    show("P\tPEG-3\t1\t6\t2000000\t-113105165410\t623631179950\t71174811140\n");
    return 0;
}
