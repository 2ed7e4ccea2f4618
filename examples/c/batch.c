/*
 * A store that groups: calls are planned and made one after another on the image
 * in memory, and their bytes are brought to the file together, phase by phase
 * with one flush after each, however many calls there are. So a power cut at any
 * time leaves a sound or leaking image, each call all done or not at all,
 * whatever order the drive keeps between two flushes. No table is parsed here:
 * the core says which bytes, in which phase, and when a batch has to end.
 *
 *   make run: makes target/batch.qcow2, changes it by the file alone and checks it
 */
#define _POSIX_C_SOURCE 200809L
#include "qcow2_core.h"

#include <fcntl.h>
#include <inttypes.h>
#include <stdio.h>
#include <stdlib.h>
#include <string.h>
#include <unistd.h>

enum { CLUSTER = 512, CLUSTERS = 64, LENGTH = CLUSTER * CLUSTERS, ROWS = 256, PHASES = 4 };

struct store {
    int file;
    uint8_t image[LENGTH];   /* as the file will be once the batch is stored */
    uint64_t rows[4 * ROWS]; /* each: where its bytes begin, how many, of how many units, the phase */
    uint64_t held;           /* rows of the batch so far */
    int flushes;
};

static void fail(const char *what)
{
    perror(what);
    exit(1);
}

static void flush(struct store *s)
{
    if (fdatasync(s->file) != 0)
        fail("fdatasync");
    s->flushes++;
}

/* Brings the batch to the file, and begins the next. */
static void store_batch(struct store *s)
{
    for (uint64_t phase = 0; phase < PHASES; phase++) {
        int stored = 0;
        for (const uint64_t *row = s->rows; row < s->rows + 4 * s->held; row += 4) {
            if (row[3] != phase)
                continue;
            if (pwrite(s->file, s->image + row[0], row[1], (off_t)row[0]) != (ssize_t)row[1])
                fail("pwrite");
            stored = 1;
        }
        if (stored)
            flush(s);
    }
    s->held = 0;
}

/* A call is planned before it is made; where the batch has to end, it is stored first. */
static uint32_t store_write(struct store *s, uint64_t offset, const char *text)
{
    uint64_t count, units;
    size_t len = strlen(text);
    uint32_t answer;
    while ((answer = qcow2_batch_write(s->image, LENGTH, offset, len, s->rows, 4 * ROWS, s->held,
                                       &count)) == QCOW2_BATCH_ENDS && s->held > 0)
        store_batch(s);
    if (answer != QCOW2_DONE)
        return answer;
    s->held = count;
    return qcow2_write(s->image, LENGTH, offset, (const uint8_t *)text, len, UINT64_MAX, &units);
}

static uint32_t store_discard(struct store *s, uint64_t cluster)
{
    uint64_t count, units;
    uint32_t answer;
    while ((answer = qcow2_batch_discard(s->image, LENGTH, cluster, s->rows, 4 * ROWS, s->held,
                                         &count)) == QCOW2_BATCH_ENDS && s->held > 0)
        store_batch(s);
    if (answer != QCOW2_DONE)
        return answer;
    s->held = count;
    return qcow2_discard(s->image, LENGTH, cluster, UINT64_MAX, &units);
}

/* Only a sound or leaking image may be changed: the promise is about these. */
static uint32_t verdict(const uint8_t *image)
{
    uint8_t scratch[2 * CLUSTERS];
    uint64_t first, second, third;
    return qcow2_check(image, LENGTH, scratch, sizeof scratch, &first, &second, &third);
}

static void put(uint8_t *at, uint64_t value, int bytes)
{
    for (int k = bytes - 1; k >= 0; k--, value >>= 8)
        at[k] = (uint8_t)value;
}

static void make_image(struct store *s, const char *path)
{
    uint8_t *i = s->image;
    memset(i, 0, LENGTH);
    put(i, 0x514649FB, 4), put(i + 4, 3, 4), put(i + 20, 9, 4), put(i + 24, 65536, 8);
    put(i + 36, 2, 4), put(i + 40, 3 * CLUSTER, 8), put(i + 48, CLUSTER, 8), put(i + 56, 1, 4);
    put(i + 96, 4, 4), put(i + 100, 104, 4), put(i + CLUSTER, 2 * CLUSTER, 8);
    for (size_t k = 0; k < 4; k++)
        put(i + 2 * CLUSTER + 2 * k, 1, 2);
    s->file = open(path, O_RDWR | O_CREAT | O_TRUNC, 0666);
    if (s->file < 0 || pwrite(s->file, i, LENGTH, 0) != LENGTH)
        fail(path);
    flush(s);
    s->flushes = 0;
}

static int expect(const char *step, uint64_t got, uint64_t wanted)
{
    printf("%-52s %8" PRIu64 "  %s\n", step, got, got == wanted ? "ok" : "WRONG");
    return got != wanted;
}

/* The file alone, read afresh, is what memory has. */
static int in_step(const struct store *s)
{
    uint8_t file[LENGTH];
    if (pread(s->file, file, LENGTH, 0) != LENGTH)
        fail("pread");
    return expect("  the file is sound", verdict(file), QCOW2_DONE)
         | expect("  the file has what memory has", memcmp(file, s->image, LENGTH) == 0, 1);
}

/* All calls so far are in the file after these flushes. */
static int made(struct store *s, const char *step, uint64_t done, uint64_t wanted, int flushes)
{
    int failed = expect(step, done, wanted);
    store_batch(s);
    failed |= expect("  flushes", (uint64_t)s->flushes, (uint64_t)flushes);
    s->flushes = 0;
    return failed | in_step(s);
}

int main(void)
{
    static struct store s;
    uint64_t done = 0;
    int failed = 0;
    make_image(&s, "target/batch.qcow2");
    failed |= expect("sound before the first change", verdict(s.image), QCOW2_DONE);
    for (uint64_t k = 0; k < 40; k++)
        done += store_write(&s, 3 * CLUSTER * k + k, "hello") == QCOW2_DONE;
    failed |= made(&s, "40 writes, with 2 new L2 tables: done", done, 40, 2);
    done = store_write(&s, 0, "again") == QCOW2_DONE;
    done += store_write(&s, CLUSTER, "new") == QCOW2_DONE;
    failed |= made(&s, "2 writes, one in place: done", done, 2, 2);
    done = store_discard(&s, 0) == QCOW2_DONE;
    done += store_write(&s, 2 * CLUSTER, "into what was freed") == QCOW2_DONE;
    failed |= made(&s, "a discard, then a write that takes its cluster: done", done, 2, 4);
    done = 0;
    for (uint64_t k = 1; k < 40; k++)
        done += store_discard(&s, 3 * k) == QCOW2_DONE;
    failed |= made(&s, "39 discards: done", done, 39, 2);
    failed |= made(&s, "write past the disk's end: refused", store_write(&s, 65535, "no"),
                   QCOW2_WRONG_RANGE, 0);
    return failed;
}
