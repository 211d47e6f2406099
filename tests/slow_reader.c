/*
 * Makes its standard input, a pipe, as small as can be, creates the file that is named to say so,
 * and then copies to standard output, a little at a time, with pauses.
 *
 *   slow_reader FILE
 */
#define _GNU_SOURCE
#include <fcntl.h>
#include <time.h>
#include <unistd.h>

int main(int argc, char **argv)
{
    static const struct timespec pause = {0, 20000000};
    char piece[1999];
    ssize_t len;
    if (argc != 2 || fcntl(0, F_SETPIPE_SZ, 1) < 0 || creat(argv[1], 0600) < 0)
        return 2;
    while ((len = read(0, piece, sizeof piece)) > 0) {
        if (write(1, piece, (size_t)len) != len)
            return 1;
        nanosleep(&pause, NULL);
    }
    return len == 0 ? 0 : 1;
}
