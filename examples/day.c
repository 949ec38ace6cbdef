/* A day's marks in one call: station ARAU's chain for four of them, of which two are refused, and the way back; then for 2,000.
 * Build and run: bash examples/run-c */
#include <inttypes.h>
#include <stdio.h>

#include "swivelcrane.h"

enum { MARKS = 4, POINT = SWIVELCRANE_POINT_NUMBERS, PLACE = SWIVELCRANE_PLACE_NUMBERS };
static const char *const names[MARKS] = {"ARAU", "PEG-1", "PEG-2", "PEG-3"};

/* A line for each mark: its numbers, or its refusal. */
static void show(int64_t refusal, const int64_t *answers) {
    if (refusal != 0) {
        printf("refused: %" PRId64 "\n", refusal);
        return;
    }
    for (size_t i = 0; i < MARKS; i++, answers += PLACE) {
        printf("%s", names[i]);
        if (answers[0] != 0)
            printf("\trefused: %" PRId64, answers[0]);
        for (size_t j = 1; answers[0] == 0 && j < PLACE; j++)
            printf("\t%" PRId64, answers[j]);
        printf("\n");
    }
}

enum { DAY = 2000 };
static int64_t day[DAY * POINT], answers[DAY * PLACE];

/* 2,000 marks in one call, each a metre on from the last in all three, every 400th in another datum: how many were converted, and the sums of
 * their X, Y and Z. */
static int whole_day(const int64_t *chain, size_t steps) {
    for (int64_t i = 0; i < DAY; i++) {
        const int64_t mark[POINT] = {1, 4, i % 400 == 0 ? 5 : 6, 2000000, -113105165410 + i * 100000, 623631179950 + i * 100000, 71174811140 + i * 100000};
        for (size_t j = 0; j < POINT; j++)
            day[(size_t)i * POINT + j] = mark[j];
    }
    if (swivelcrane_row(2021, chain, steps, 0, day, DAY * POINT, answers, DAY * PLACE) != 0)
        return 1;
    int64_t converted = 0, sums[3] = {0, 0, 0};
    for (size_t i = 0; i < DAY; i++) {
        converted += answers[i * PLACE] == 0;
        for (size_t j = 0; j < 3; j++)
            sums[j] += answers[i * PLACE + 5 + j];
    }
    printf("%d marks\t%" PRId64 " converted\t%" PRId64 "\t%" PRId64 "\t%" PRId64 "\n", DAY, converted, sums[0], sums[1], sums[2]);
    return 0;
}

int main(void) {
    static const int64_t chain[4 * SWIVELCRANE_STEP_NUMBERS] = {
        'T', 0, 6,  2000000, 6,  2006586, -15832, -4363, -9706, 0, 0, 0, 0,
        'V', 0, 6,  2006586, 6,  2010000, -1876,  -90,   -684,  0, 0, 0, 0,
        'F', 0, 6,  2010000, 10, 2010000, 0,      0,     0,     0, 0, 0, 0,
        'V', 0, 10, 2010000, 10, 2020000, -1874,  -169,  -502,  0, 0, 0, 0,
    };
    /* The second is in another datum, the fourth has X and Y changed about. */
    static const int64_t marks[MARKS * POINT] = {
        1, 1, 6, 2000000, -113105165410, 623631179950, 71174811140,
        2, 4, 5, 2000000, -113105165410, 623631179950, 71174811140,
        1, 4, 6, 2000000, -113104712345, 623631254321, 71174899999,
        1, 3, 6, 2000000, 623631179950, -113105165410, 71174811140,
    };
    int64_t there[MARKS * PLACE], home[PLACE];
    const size_t steps = 4 * SWIVELCRANE_STEP_NUMBERS;
    int64_t refusal = swivelcrane_row(2021, chain, steps, 0, marks, MARKS * POINT, there, MARKS * PLACE);
    show(refusal, there);
    if (refusal != 0)
        return 1;
    /* The third mark's seven numbers stand behind its 0: they go back as they are. */
    refusal = swivelcrane_row(2021, chain, steps, 1, there + 2 * PLACE + 1, POINT, home, PLACE);
    printf("%s back\t%" PRId64 "\t%" PRId64 "\t%" PRId64 "\n", names[2], home[5], home[6], home[7]);
    /* Room for three answers: nothing is written. */
    printf("refused: %" PRId64 "\n", swivelcrane_row(2021, chain, steps, 0, marks, MARKS * POINT, there, 3 * PLACE));
    return refusal != 0 || whole_day(chain, steps) != 0;
}
