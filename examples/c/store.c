/*
 * A store over a file: a write or a discard is run on the image in memory, and
 * the bytes that it changed are brought to the file epoch by epoch, with a flush
 * after each. So a power cut at any time leaves a sound or leaking image, each
 * call all done or not at all, whatever order the drive keeps between two
 * flushes. No table is parsed here: the core says which bytes, and when to flush.
 *
 *   make run: makes target/store.qcow2, changes it by the file alone and checks it
 */
#define _POSIX_C_SOURCE 200809L
#include "qcow2_core.h"

#include <fcntl.h>
#include <inttypes.h>
#include <stdio.h>
#include <stdlib.h>
#include <string.h>
#include <unistd.h>

enum { CLUSTER = 512, CLUSTERS = 16, LENGTH = CLUSTER * CLUSTERS, STEPS = 7 };

struct store {
    int file;
    uint8_t image[LENGTH]; /* as the file is, between two calls */
    int flushes;
};

static void fail(const char *what)
{
    perror(what);
    exit(1);
}

static void flush(struct store *s)
{
    if (fdatasync(s->file) != 0)
        fail("fdatasync");
    s->flushes++;
}

/* Each row: where its bytes begin, how many, of how many units, and the epoch. */
static void bring(struct store *s, const uint64_t *rows, uint64_t count)
{
    for (const uint64_t *row = rows; row < rows + 4 * count; row += 4) {
        if (pwrite(s->file, s->image + row[0], row[1], (off_t)row[0]) != (ssize_t)row[1])
            fail("pwrite");
        if (row + 4 == rows + 4 * count || row[7] != row[3])
            flush(s);
    }
}

static uint32_t store_write(struct store *s, uint64_t offset, const char *text)
{
    uint64_t rows[4 * STEPS], count, units;
    size_t len = strlen(text);
    uint32_t answer = qcow2_write_steps(s->image, LENGTH, offset, len, rows, 4 * STEPS, &count);
    if (answer != QCOW2_DONE)
        return answer;
    qcow2_write(s->image, LENGTH, offset, (const uint8_t *)text, len, UINT64_MAX, &units);
    bring(s, rows, count);
    return QCOW2_DONE;
}

static uint32_t store_discard(struct store *s, uint64_t cluster)
{
    uint64_t rows[4 * STEPS], count, units;
    uint32_t answer = qcow2_discard_steps(s->image, LENGTH, cluster, rows, 4 * STEPS, &count);
    if (answer != QCOW2_DONE)
        return answer;
    qcow2_discard(s->image, LENGTH, cluster, UINT64_MAX, &units);
    bring(s, rows, count);
    return QCOW2_DONE;
}

/* Only a sound or leaking image may be changed: the promise is about these. */
static uint32_t verdict(const uint8_t *image)
{
    uint8_t scratch[2 * CLUSTERS];
    uint64_t first, second, third;
    return qcow2_check(image, LENGTH, scratch, sizeof scratch, &first, &second, &third);
}

static void put(uint8_t *at, uint64_t value, int bytes)
{
    for (int k = bytes - 1; k >= 0; k--, value >>= 8)
        at[k] = (uint8_t)value;
}

static void make_image(struct store *s, const char *path)
{
    uint8_t *i = s->image;
    memset(i, 0, LENGTH);
    put(i, 0x514649FB, 4), put(i + 4, 3, 4), put(i + 20, 9, 4), put(i + 24, 65536, 8);
    put(i + 36, 2, 4), put(i + 40, 3 * CLUSTER, 8), put(i + 48, CLUSTER, 8), put(i + 56, 1, 4);
    put(i + 96, 4, 4), put(i + 100, 104, 4), put(i + CLUSTER, 2 * CLUSTER, 8);
    for (size_t k = 0; k < 4; k++)
        put(i + 2 * CLUSTER + 2 * k, 1, 2);
    s->file = open(path, O_RDWR | O_CREAT | O_TRUNC, 0666);
    if (s->file < 0 || pwrite(s->file, i, LENGTH, 0) != LENGTH)
        fail(path);
    flush(s);
}

static int expect(const char *step, uint64_t got, uint64_t wanted)
{
    printf("%-52s %8" PRIu64 "  %s\n", step, got, got == wanted ? "ok" : "WRONG");
    return got != wanted;
}

/* The file alone, read afresh, is what memory has. */
static int in_step(const struct store *s)
{
    uint8_t file[LENGTH];
    if (pread(s->file, file, LENGTH, 0) != LENGTH)
        fail("pread");
    return expect("  the file is sound", verdict(file), QCOW2_DONE)
         | expect("  the file has what memory has", memcmp(file, s->image, LENGTH) == 0, 1);
}

/* One call, how it ended, how many flushes it took, and what the file is then. */
static int made(struct store *s, const char *step, uint32_t answer, uint32_t wanted, int flushes)
{
    int failed = expect(step, answer, wanted);
    failed |= expect("  flushes", (uint64_t)s->flushes, (uint64_t)flushes);
    s->flushes = 0;
    return failed | in_step(s);
}

int main(void)
{
    static struct store s;
    uint64_t bits, size, clusters;
    int failed = 0;
    make_image(&s, "target/store.qcow2");
    failed |= expect("geometry: done", qcow2_geometry(s.image, LENGTH, &bits, &size, &clusters),
                     QCOW2_DONE);
    failed |= expect("  cluster_bits", bits, 9) | expect("  size", size, 65536);
    failed |= expect("  clusters", clusters, CLUSTERS);
    failed |= expect("sound before the first change", verdict(s.image), QCOW2_DONE);
    s.flushes = 0;
    failed |= made(&s, "write, with a new L2 table: done", store_write(&s, 33285, "hello"),
                   QCOW2_DONE, 2);
    failed |= made(&s, "write in place: done", store_write(&s, 33285, "again"), QCOW2_DONE, 1);
    failed |= made(&s, "discard: done", store_discard(&s, 65), QCOW2_DONE, 2);
    failed |= made(&s, "write past the disk's end: refused", store_write(&s, 65535, "no"),
                   QCOW2_WRONG_RANGE, 0);
    return failed;
}
