/*
 * A longer image over a file: zeros are appended, and the new clusters are taken
 * in block by block, with a flush after each step. So a power cut at any time
 * leaves a file on which the same work can be begun again, and no guest byte is
 * lost, whatever order the drive keeps between two flushes.
 *
 *   make run: makes target/longer.qcow2, makes it longer, and checks it
 */
#define _POSIX_C_SOURCE 200809L
#include "qcow2_core.h"

#include <fcntl.h>
#include <inttypes.h>
#include <stdio.h>
#include <stdlib.h>
#include <string.h>
#include <unistd.h>

/* Counts of 64 bits: a refcount block counts 64 clusters. */
enum { CLUSTER = 512, OLD = 16 * CLUSTER, BLOCK = 64 * CLUSTER, LENGTH = 2 * BLOCK + CLUSTER };

struct store {
    int file;
    uint8_t image[LENGTH]; /* in memory */
    uint8_t held[LENGTH];  /* as the file is */
    int flushes;
};

static void fail(const char *what)
{
    perror(what);
    exit(1);
}

/* Stores the clusters that the core has changed, and flushes them. */
static void bring(struct store *s)
{
    for (size_t at = 0; at < LENGTH; at += CLUSTER) {
        if (memcmp(s->image + at, s->held + at, CLUSTER) == 0)
            continue;
        if (pwrite(s->file, s->image + at, CLUSTER, (off_t)at) != CLUSTER)
            fail("pwrite");
        memcpy(s->held + at, s->image + at, CLUSTER);
    }
    if (fdatasync(s->file) != 0)
        fail("fdatasync");
    s->flushes++;
}

/* The field that is cleared first; in version 2 there is none. */
static int is_marked(const uint8_t *image)
{
    static const uint8_t zero[8];
    return image[7] == 3 && memcmp(image + 88, zero, 8) != 0;
}

/* Takes in what was appended to an image of old bytes; blocks: how many at most. */
static uint32_t store_extend(struct store *s, uint64_t old, int blocks)
{
    uint64_t units;
    uint32_t answer = qcow2_extend(s->image, LENGTH, old, 0, &units);
    if (answer == QCOW2_STOPPED && is_marked(s->image)) {
        qcow2_extend(s->image, LENGTH, old, 1, &units);
        bring(s);
    }
    while (answer == QCOW2_STOPPED && blocks-- > 0) {
        /* The block; then, once it is on the drive, the entry that names it. */
        qcow2_extend(s->image, LENGTH, old, CLUSTER, &units);
        bring(s);
        answer = qcow2_extend(s->image, LENGTH, old, CLUSTER + 1, &units);
        bring(s);
    }
    return answer;
}

static uint32_t verdict(const uint8_t *image, size_t n)
{
    static uint8_t scratch[2 * LENGTH / CLUSTER];
    uint64_t first, second, third;
    return qcow2_check(image, n, scratch, sizeof scratch, &first, &second, &third);
}

static void put(uint8_t *at, uint64_t value, int bytes)
{
    for (int k = bytes - 1; k >= 0; k--, value >>= 8)
        at[k] = (uint8_t)value;
}

static void make_image(struct store *s, const char *path)
{
    uint8_t *i = s->image;
    put(i, 0x514649FB, 4), put(i + 4, 3, 4), put(i + 20, 9, 4), put(i + 24, 65536, 8);
    put(i + 36, 2, 4), put(i + 40, 3 * CLUSTER, 8), put(i + 48, CLUSTER, 8), put(i + 56, 1, 4);
    put(i + 88, 1, 8), put(i + 96, 6, 4), put(i + 100, 104, 4), put(i + CLUSTER, 2 * CLUSTER, 8);
    for (size_t k = 0; k < 4; k++)
        put(i + 2 * CLUSTER + 8 * k, 1, 8);
    s->file = open(path, O_RDWR | O_CREAT | O_TRUNC, 0666);
    if (s->file < 0 || pwrite(s->file, i, OLD, 0) != OLD || fdatasync(s->file) != 0)
        fail(path);
    memcpy(s->held, i, LENGTH);
}

static int expect(const char *step, uint64_t got, uint64_t wanted)
{
    printf("%-52s %8" PRIu64 "  %s\n", step, got, got == wanted ? "ok" : "WRONG");
    return got != wanted;
}

int main(void)
{
    static struct store s;
    static uint8_t file[LENGTH];
    int failed = 0;
    make_image(&s, "target/longer.qcow2");
    failed |= expect("sound before", verdict(s.image, OLD), QCOW2_DONE);
    /* The file's length is on the drive before anything depends on it. */
    if (ftruncate(s.file, LENGTH) != 0 || fdatasync(s.file) != 0)
        fail("ftruncate");
    failed |= expect("longer, not taken in: refused", verdict(s.image, LENGTH), QCOW2_WRONG_BLOCK);
    failed |= expect("extend, one block: stopped", store_extend(&s, OLD, 1), QCOW2_STOPPED);
    failed |= expect("  flushes, one for the autoclear field", (uint64_t)s.flushes, 3);
    failed |= expect("  still refused", verdict(s.image, LENGTH), QCOW2_WRONG_BLOCK);
    /* How long it once was need not be known: one block more is named now. */
    failed |= expect("extend, the rest: done", store_extend(&s, 2 * BLOCK, 9), QCOW2_DONE);
    failed |= expect("  flushes", (uint64_t)s.flushes, 5);
    if (pread(s.file, file, LENGTH, 0) != LENGTH)
        fail("pread");
    failed |= expect("the file is sound", verdict(file, LENGTH), QCOW2_DONE);
    failed |= expect("the file has what memory has", memcmp(file, s.image, LENGTH) == 0, 1);
    failed |= expect("extend again: done", store_extend(&s, OLD, 9), QCOW2_DONE);
    failed |= expect("  flushes", (uint64_t)s.flushes, 5);
    return failed;
}
