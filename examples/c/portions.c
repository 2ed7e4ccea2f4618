/*
 * A check by night over a file: each night some of the image's L1 entries, as many as
 * there is time for, until the check is finished. State and scratch are kept in a file
 * between two nights. It is replaced whole, so that after a night that was broken off the
 * next one goes on from the one before.
 *
 *   make run: makes target/portions.qcow2, and checks it in several nights and at once
 */
#define _POSIX_C_SOURCE 200809L
#include "qcow2_core.h"

#include <fcntl.h>
#include <inttypes.h>
#include <stdio.h>
#include <stdlib.h>
#include <string.h>
#include <unistd.h>

enum { CLUSTER = 512, CLUSTERS = 32, LENGTH = CLUSTER * CLUSTERS, ENTRIES = 5 };

#define IMAGE "target/portions.qcow2"
#define KEPT "target/portions.kept"

/* What is kept between two nights; all 0 before the first. */
struct kept {
    uint8_t state[QCOW2_CHECK_STATE];
    uint8_t scratch[2 * CLUSTERS];
};

static void fail(const char *what)
{
    perror(what);
    exit(1);
}

/* Reads a file of just so many bytes; 0 if there is none. */
static int load(const char *path, void *bytes, size_t len)
{
    int file = open(path, O_RDONLY);
    if (file < 0)
        return 0;
    if (read(file, bytes, len) != (ssize_t)len)
        fail(path);
    close(file);
    return 1;
}

/* The new file is on the drive before it takes the old one's place. */
static void replace(const char *path, const void *bytes, size_t len)
{
    int file = open("target/portions.new", O_WRONLY | O_CREAT | O_TRUNC, 0666);
    if (file < 0 || write(file, bytes, len) != (ssize_t)len || fdatasync(file) != 0)
        fail("target/portions.new");
    close(file);
    if (rename("target/portions.new", path) != 0)
        fail(path);
}

/* One portion of the check of the file as it is now; what is kept then is in *kept. */
static uint32_t night(uint64_t may, struct kept *kept, uint64_t *first)
{
    static uint8_t image[LENGTH];
    uint64_t second, third;
    if (!load(IMAGE, image, LENGTH))
        fail(IMAGE);
    if (!load(KEPT, kept, sizeof *kept))
        memset(kept, 0, sizeof *kept);
    uint32_t answer = qcow2_check_portion(image, LENGTH, kept->state, kept->scratch,
                                          sizeof kept->scratch, may, first, &second, &third);
    replace(KEPT, kept, sizeof *kept);
    return answer;
}

static void put(uint8_t *at, uint64_t value, int bytes)
{
    for (int k = bytes - 1; k >= 0; k--, value >>= 8)
        at[k] = (uint8_t)value;
}

static uint32_t write_text(uint8_t *image, uint64_t offset, const char *text, uint64_t allowance)
{
    uint64_t units;
    return qcow2_write(image, LENGTH, offset, (const uint8_t *)text, strlen(text), allowance,
                       &units);
}

/* Five L1 entries, of which the first, the second and the last get an L2 table. */
static void make_image(uint8_t *i)
{
    put(i, 0x514649FB, 4), put(i + 4, 3, 4), put(i + 20, 9, 4), put(i + 24, ENTRIES * 32768, 8);
    put(i + 36, ENTRIES, 4), put(i + 40, 3 * CLUSTER, 8), put(i + 48, CLUSTER, 8);
    put(i + 56, 1, 4), put(i + 96, 4, 4), put(i + 100, 104, 4), put(i + CLUSTER, 2 * CLUSTER, 8);
    for (size_t k = 0; k < 4; k++)
        put(i + 2 * CLUSTER + 2 * k, 1, 2);
    for (uint64_t entry = 0; entry < ENTRIES; entry += entry == 1 ? 3 : 1)
        if (write_text(i, 32768 * entry + 7, "hello", UINT64_MAX) != QCOW2_DONE)
            fail("write");
    replace(IMAGE, i, LENGTH);
}

static int expect(const char *step, uint64_t got, uint64_t wanted)
{
    printf("%-52s %8" PRIu64 "  %s\n", step, got, got == wanted ? "ok" : "WRONG");
    return got != wanted;
}

/* Three nights from the first entry on, the last of which has as much time as it needs: all
 * is as with a check done at once. */
static int three_nights(const uint8_t *image, uint32_t wanted, uint64_t clusters)
{
    struct kept kept;
    uint8_t scratch[2 * CLUSTERS];
    uint64_t first, second, third;
    int failed = 0;
    unlink(KEPT);
    failed |= expect("a night for 2 entries: not finished", night(2, &kept, &first), QCOW2_MORE);
    failed |= expect("  index after the last entry", kept.state[23], 2);
    failed |= expect("a night with no time: not finished", night(0, &kept, &first), QCOW2_MORE);
    failed |= expect("  index after the last entry", kept.state[23], 2);
    failed |= expect("a night for 1 entry: not finished", night(1, &kept, &first), QCOW2_MORE);
    failed |= expect("a night for all: told", night(UINT64_MAX, &kept, &first), wanted);
    failed |= expect("  clusters leaked", first, clusters);
    failed |= expect("check done at once", qcow2_check(image, LENGTH, scratch, sizeof scratch, &first,
                                                       &second, &third), wanted);
    failed |= expect("  clusters leaked", first, clusters);
    failed |= expect("  the same references", memcmp(scratch, kept.scratch, sizeof scratch) == 0, 1);
    return failed;
}

/* Nothing that is kept changes where a night is refused, or comes after the last. */
static int nights_after(uint8_t *image)
{
    struct kept before, kept;
    uint64_t first;
    int failed = expect("a night more: told as before", night(1, &before, &first), QCOW2_LEAKS);
    image[7] = 9;
    replace(IMAGE, image, LENGTH);
    failed |= expect("version 9: refused", night(1, &kept, &first), QCOW2_WRONG_VERSION);
    failed |= expect("  clusters leaked", first, 0);
    failed |= expect("  what is kept is as it was", memcmp(&before, &kept, sizeof kept) == 0, 1);
    image[7] = 3;
    replace(IMAGE, image, LENGTH);
    failed |= expect("version 3: told as before", night(1, &kept, &first), QCOW2_LEAKS);
    return failed;
}

int main(void)
{
    static uint8_t image[LENGTH];
    int failed = 0;
    make_image(image);
    failed |= three_nights(image, QCOW2_DONE, 0);
    /* A write that a power cut stops: two clusters are counted and not yet named. */
    failed |= expect("write cut after 1027 units: stopped", write_text(image, 65536, "x", 1027),
                     QCOW2_STOPPED);
    replace(IMAGE, image, LENGTH);
    failed |= three_nights(image, QCOW2_LEAKS, 2);
    failed |= nights_after(image);
    return failed;
}
