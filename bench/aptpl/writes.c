/* Makes the three writes of a save, each with its sync, many times over one file, and prints how
   many nanoseconds the three take: the gate is closed, the body is written, the gate is opened, in
   the two slots by turns. */
#include <fcntl.h>
#include <stdio.h>
#include <stdlib.h>
#include <time.h>
#include <unistd.h>

static int put(int file, const unsigned char *bytes, size_t count, off_t at)
{
    return pwrite(file, bytes, count, at) != (ssize_t)count || fsync(file);
}

int main(int count, char **words)
{
    static unsigned char body[1167];
    const unsigned char shut = 0, open_gate = 0xA5;
    struct timespec from, to;
    long times = count > 2 ? atol(words[2]) : 0;
    int file = count > 1 ? open(words[1], O_RDWR | O_CREAT, 0666) : -1;
    if (file < 0 || ftruncate(file, 262144) || fsync(file))
        return 1;
    clock_gettime(CLOCK_MONOTONIC, &from);
    for (long i = 0; i < times; i++) {
        off_t gate = i % 2 ? 8192 : 4096;
        body[0] = (unsigned char)(i % 3);
        if (put(file, &shut, 1, gate) || put(file, body, sizeof body, gate + 1) || put(file, &open_gate, 1, gate))
            return 1;
    }
    clock_gettime(CLOCK_MONOTONIC, &to);
    printf("%lld\n", ((to.tv_sec - from.tv_sec) * 1000000000LL + to.tv_nsec - from.tv_nsec) / (times ? times : 1));
    return 0;
}
