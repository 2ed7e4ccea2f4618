/* Preloaded by speed/run: each flush takes FLUSH_MS milliseconds more, as on a drive that waits for its platters. */
#define _GNU_SOURCE
#include <dlfcn.h>
#include <stdlib.h>
#include <time.h>

int fdatasync(int fd)
{
    int (*flush)(int) = (int (*)(int))dlsym(RTLD_NEXT, "fdatasync");
    const char *text = getenv("FLUSH_MS");
    long ms = text ? atol(text) : 0;
    struct timespec wait = { ms / 1000, ms % 1000 * 1000000 };
    nanosleep(&wait, NULL);
    return flush(fd);
}
