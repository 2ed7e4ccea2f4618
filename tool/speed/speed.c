/* For speed/run: an empty image, and the same bytes by plain pwrite. */
#include <fcntl.h>
#include <stdint.h>
#include <stdio.h>
#include <stdlib.h>
#include <string.h>
#include <unistd.h>

static void must(int good, const char *what)
{
    if (!good) {
        perror(what);
        exit(1);
    }
}

static void put(uint8_t *at, uint64_t number, int bytes)
{
    while (bytes--) {
        at[bytes] = (uint8_t)number;
        number >>= 8;
    }
}

/* Version 3 with counts of 16 bits: header, refcount table, one block, L1 table. */
static void image(int fd, unsigned bits, uint64_t size)
{
    uint64_t cluster = 1ull << bits, reach = cluster * (cluster / 8);
    uint8_t *bytes = calloc(4, cluster);
    must(bytes != NULL, "memory");
    put(bytes, 0x514649FB, 4);
    put(bytes + 4, 3, 4);
    put(bytes + 20, bits, 4);
    put(bytes + 24, size, 8);
    put(bytes + 36, (size + reach - 1) / reach, 4);
    put(bytes + 40, 3 * cluster, 8);
    put(bytes + 48, cluster, 8);
    put(bytes + 56, 1, 4);
    put(bytes + 96, 4, 4);
    put(bytes + 100, 104, 4);
    put(bytes + cluster, 2 * cluster, 8);
    for (int count = 0; count < 4; count++)
        put(bytes + 2 * cluster + 2 * count, 1, 2);
    must(write(fd, bytes, 4 * cluster) == (ssize_t)(4 * cluster), "write");
    free(bytes);
}

/* Standard input to the file, in as many parts as there are flushes. */
static void plain(int fd, uint64_t length, uint64_t flushes)
{
    uint8_t *bytes = malloc(length);
    must(bytes != NULL, "memory");
    must(fread(bytes, 1, length, stdin) == length, "standard input");
    for (uint64_t part = 0; part < flushes; part++) {
        uint64_t from = length * part / flushes, to = length * (part + 1) / flushes;
        while (from < to) {
            ssize_t done = pwrite(fd, bytes + from, to - from, (off_t)(262144 + from));
            must(done > 0, "pwrite");
            from += (uint64_t)done;
        }
        must(fdatasync(fd) == 0, "fdatasync");
    }
    free(bytes);
}

int main(int argc, char **argv)
{
    if (argc != 5) {
        fprintf(stderr, "speed image FILE BITS DISK | speed plain FILE BYTES FLUSHES\n");
        return 2;
    }
    int fd = open(argv[2], O_RDWR | O_CREAT, 0644);
    must(fd >= 0, argv[2]);
    uint64_t first = strtoull(argv[3], NULL, 10), second = strtoull(argv[4], NULL, 10);
    if (strcmp(argv[1], "image") == 0)
        image(fd, (unsigned)first, second);
    else
        plain(fd, first, second);
    return close(fd) != 0;
}
