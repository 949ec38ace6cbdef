/* pieces N: copies standard input to standard output, a pipe, N bytes at a time, each piece only when the one before it has been read. So whoever reads
 * at the other end gets these very pieces, and his reads are short. */
#define _DEFAULT_SOURCE
#include <stdlib.h>
#include <sys/ioctl.h>
#include <unistd.h>

static int waiting(void) {
    int bytes = 0;
    return ioctl(STDOUT_FILENO, FIONREAD, &bytes) == 0 && bytes > 0;
}

int main(int count, char **words) {
    static char buffer[65536];
    const size_t piece = count == 2 ? strtoul(words[1], NULL, 10) : 0;
    ssize_t got;
    if (piece == 0 || piece > sizeof buffer)
        return 2;
    while ((got = read(STDIN_FILENO, buffer, piece)) > 0) {
        if (write(STDOUT_FILENO, buffer, (size_t)got) != got)
            return 1;
        while (waiting())
            usleep(20);
    }
    return got < 0;
}
