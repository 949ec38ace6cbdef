/* A sheet as it comes over the radio link, in pieces of whatever length: each line is answered when its line feed has come.
 * The sheet is read from standard input; with a number behind the name, in pieces of at most so many bytes.
 * Build and run: bash examples/run-c */
#include <stdio.h>
#include <stdlib.h>
#include <unistd.h>

#include "swivelcrane.h"

enum { NUMBERS = SWIVELCRANE_STREAM_NUMBERS, LINE = SWIVELCRANE_STREAM_LINE };

/* The state. Before the first call it is all zeros but the profile's year. */
static int64_t numbers[NUMBERS] = {0, 0, 0, 0, 0, 2021};
static uint8_t line[LINE];

/* Prints what a line prints, at once; that may be nothing. Answers whether the call was good. */
static int say(int64_t answer, const uint8_t *out) {
    if (answer < 0) {
        fprintf(stderr, "refused: %d\n", (int)-answer);
        return 0;
    }
    fwrite(out, 1, (size_t)answer, stdout);
    fflush(stdout);
    return 1;
}

/* Hands a piece on until all of it is taken: a call stops after one line. */
static int take(const uint8_t *piece, size_t length) {
    uint8_t out[LINE];
    int64_t told[2];
    for (size_t taken = 0; taken < length; taken += (size_t)told[0])
        if (!say(swivelcrane_feed(numbers, NUMBERS, line, LINE, piece + taken, length - taken, out, LINE, told, 2), out))
            return 0;
    return 1;
}

int main(int count, char **arguments) {
    uint8_t piece[4096], out[LINE];
    size_t most = count > 1 ? strtoul(arguments[1], NULL, 10) : sizeof piece;
    if (most == 0 || most > sizeof piece)
        most = sizeof piece;
    ssize_t length;
    while ((length = read(STDIN_FILENO, piece, most)) > 0)
        if (!take(piece, (size_t)length))
            return 1;
    if (length < 0)
        return 1;
    return !say(swivelcrane_finish(numbers, NUMBERS, line, LINE, out, LINE), out);
}
