/*
 * The core from C: makes an image in memory, writes, cuts a write as a power
 * cut would, checks, repairs, reads back, takes a snapshot, and goes over a
 * backing file. Prints each step and returns 0 only if every answer is the
 * expected one.
 *
 *   gcc -Wall -Wextra -std=c11 -I../../include example.c ../../crates/qcow2_c/out/libqcow2_c.a -o example
 * or: make run
 */
#include "qcow2_core.h"

#include <inttypes.h>
#include <stdio.h>
#include <string.h>

enum { CLUSTER = 512, CLUSTERS = 16, LENGTH = CLUSTER * CLUSTERS };

static uint8_t image[LENGTH];
static uint8_t scratch[2 * CLUSTERS];
static int failed;

static void expect(const char *step, uint64_t got, uint64_t wanted)
{
    printf("%-52s %8" PRIu64 "  %s\n", step, got, got == wanted ? "ok" : "WRONG");
    if (got != wanted) {
        printf("%-52s %8" PRIu64 "\n", "  expected", wanted);
        failed = 1;
    }
}

static void store(size_t at, uint64_t value, int bytes)
{
    for (int k = bytes - 1; k >= 0; k--, value >>= 8)
        image[at + (size_t)k] = (uint8_t)value;
}

static uint64_t load(size_t at, int bytes)
{
    uint64_t value = 0;
    for (int k = 0; k < bytes; k++)
        value = value << 8 | image[at + (size_t)k];
    return value;
}

/* Version 3, clusters of 512 bytes, a disk of 65,536 bytes: refcount table in
 * cluster 1, refcount block in 2, L1 table of two entries in 3. */
static void make_image(void)
{
    memset(image, 0, sizeof image);
    store(0, 0x514649FB, 4);    /* magic */
    store(4, 3, 4);             /* version */
    store(20, 9, 4);            /* cluster_bits */
    store(24, 65536, 8);        /* size */
    store(36, 2, 4);            /* l1_size */
    store(40, 3 * CLUSTER, 8);  /* l1_table_offset */
    store(48, 1 * CLUSTER, 8);  /* refcount_table_offset */
    store(56, 1, 4);            /* refcount_table_clusters */
    store(96, 4, 4);            /* refcount_order: counts of 16 bits */
    store(100, 104, 4);         /* header_length */
    store(1 * CLUSTER, 2 * CLUSTER, 8);
    for (size_t k = 0; k < 4; k++)
        store(2 * CLUSTER + 2 * k, 1, 2);
}

static uint64_t free_clusters(void)
{
    uint64_t count = 0;
    for (size_t k = 0; k < CLUSTERS; k++)
        count += load(2 * CLUSTER + 2 * k, 2) == 0;
    return count;
}

static uint32_t check(uint64_t *first)
{
    uint64_t second, third;
    return qcow2_check(image, LENGTH, scratch, sizeof scratch, first, &second, &third);
}

static uint32_t repair(uint64_t *units)
{
    return qcow2_repair(image, LENGTH, scratch, sizeof scratch, UINT64_MAX, units);
}

static uint32_t write_text(uint64_t offset, const char *text, uint64_t allowance, uint64_t *units)
{
    return qcow2_write(image, LENGTH, offset, (const uint8_t *)text, strlen(text), allowance, units);
}

/* A write of 5 bytes needs an L2 table and a data cluster: 1,028 units. */
static void cut_and_repair(void)
{
    uint64_t units = 0, first = 0;
    expect("write cut after 1027 units: stopped", write_text(33285, "hello", 1027, &units), QCOW2_STOPPED);
    expect("  units", units, 1027);
    expect("check after the cut: leaks", check(&first), QCOW2_LEAKS);
    expect("  clusters leaked", first, 2);
    expect("repair: done", repair(&units), QCOW2_DONE);
    expect("  units", units, 2);
    expect("check after the repair: sound", check(&first), QCOW2_DONE);
    expect("  free clusters", free_clusters(), 12);
}

static void whole_write(void)
{
    uint64_t units = 0, first = 0, host = 0;
    uint8_t out[7];
    expect("whole write: done", write_text(33285, "hello", UINT64_MAX, &units), QCOW2_DONE);
    expect("  units", units, 1028);
    expect("  free clusters", free_clusters(), 10);
    expect("check: sound", check(&first), QCOW2_DONE);
    expect("translate: host offset", qcow2_translate(image, LENGTH, 33285, &host), QCOW2_DONE);
    expect("  host offset", host, 2565);
    expect("lookup: bytes to the end of the cluster", qcow2_lookup(image, LENGTH, 33285), 507);
    expect("  the data are there", memcmp(image + host, "hello", 5) == 0, 1);
    expect("read 7 bytes: done", qcow2_read(image, LENGTH, 33284, out, sizeof out), QCOW2_DONE);
    expect("  zero, the data, zero", memcmp(out, "\0hello\0", 7) == 0, 1);
    expect("write in place: done", write_text(33280, "abc", UINT64_MAX, &units), QCOW2_DONE);
    expect("  units", units, 3);
}

/* Autoclear bits, as qemu has for its bitmaps, are cleared by the first unit. */
static void autoclear(void)
{
    uint64_t units = 0;
    store(88, 1, 8);
    expect("write of length 0: done", write_text(33280, "", UINT64_MAX, &units), QCOW2_DONE);
    expect("  the autoclear bits", load(88, 8), 1);
    expect("write cut after 1 unit: stopped", write_text(33280, "xyz", 1, &units), QCOW2_STOPPED);
    expect("  the autoclear bits", load(88, 8), 0);
    expect("  the data are as they were", memcmp(image + 2560, "abc", 3) == 0, 1);
    store(88, 1, 8);
    expect("whole write: done", write_text(33280, "xyz", UINT64_MAX, &units), QCOW2_DONE);
    expect("  units", units, 4);
}

/* A refusal leaves the lent bytes and rows alone and sets each number to 0. */
static void refusals(void)
{
    uint64_t host = 7, count = 7, units = 7, rows[3] = {7, 7, 7};
    uint64_t first = 7, second = 7, third = 7;
    uint8_t out = 0xC3, before[LENGTH];
    memcpy(before, image, LENGTH);
    expect("translate the disk's end: refused", qcow2_translate(image, LENGTH, 65536, &host),
           QCOW2_WRONG_RANGE);
    expect("  host offset", host, 0);
    expect("read past the disk's end: refused", qcow2_read(image, LENGTH, 65536, &out, 1),
           QCOW2_WRONG_RANGE);
    expect("  the output is as it was", out, 0xC3);
    expect("runs past the disk's end: refused",
           qcow2_runs(image, LENGTH, 65536, 1, rows, 3, &count), QCOW2_WRONG_RANGE);
    expect("  runs", count, 0);
    expect("  the rows are as they were", rows[0] == 7 && rows[1] == 7 && rows[2] == 7, 1);
    expect("write over a cluster's end: refused", write_text(510, "abc", UINT64_MAX, &units),
           QCOW2_WRONG_RANGE);
    expect("  units", units, 0);
    expect("check with a short scratch: refused",
           qcow2_check(image, LENGTH, scratch, sizeof scratch - 1, &first, &second, &third),
           QCOW2_SHORT_SCRATCH);
    expect("  first, second and third", first | second | third, 0);
    expect("  the image is as it was", memcmp(before, image, LENGTH) == 0, 1);
    store(100, 112, 4);
    expect("header_length 112: refused", check(&first), QCOW2_NOT_SUPPORTED);
    store(100, 104, 4);
    expect("check: sound", check(&first), QCOW2_DONE);
}

static void discard(void)
{
    uint64_t units = 0, first = 0, host = 7;
    expect("discard guest cluster 65: done", qcow2_discard(image, LENGTH, 65, UINT64_MAX, &units),
           QCOW2_DONE);
    expect("  units", units, 2);
    expect("translate: not allocated", qcow2_translate(image, LENGTH, 33285, &host), QCOW2_ABSENT);
    expect("  host offset", host, 0);
    expect("check: sound", check(&first), QCOW2_DONE);
    expect("  free clusters", free_clusters(), 11);
    expect("a count of 0 with two references is short by", (uint64_t)-qcow2_difference(0, 2), 2);
    expect("the most that one can be short by", (uint64_t)-qcow2_difference(0, 65535), 65535);
    expect("a difference is cut off at", (uint64_t)qcow2_difference(UINT64_MAX, 0), 65535);
}

/* Counts of 1 bit: those of clusters 0 to 7 share a byte. */
static void narrow_counts(void)
{
    uint64_t units = 0, first = 0;
    make_image();
    store(96, 0, 4);
    store(2 * CLUSTER, (uint64_t)0x0F << 56, 8);
    expect("counts of 1 bit, check: sound", check(&first), QCOW2_DONE);
    expect("write cut after 1 unit: stopped", write_text(33285, "hello", 1, &units), QCOW2_STOPPED);
    expect("  the byte of the first eight counts", image[2 * CLUSTER], 0x1F);
    expect("whole write: done", write_text(33285, "hello", UINT64_MAX, &units), QCOW2_DONE);
    expect("  the byte of the first eight counts", image[2 * CLUSTER], 0x7F);
    expect("repair: done", repair(&units), QCOW2_DONE);
    expect("  the byte of the first eight counts", image[2 * CLUSTER], 0x6F);
    store(96, 7, 4);
    expect("counts of 128 bits: refused", check(&first), QCOW2_NOT_SUPPORTED);
}

/* A snapshot of the image as it is, with one L2 table and its data in clusters 4
 * and 5: its table in cluster 6, its L1 table in 7. Both disks share 4 and 5, so
 * their counts are 2 and bit 63 of the active entries is clear. */
static void make_snapshot(void)
{
    memcpy(image + 7 * CLUSTER, image + 3 * CLUSTER, 16);
    store(6 * CLUSTER, 7 * CLUSTER, 8);     /* l1_table_offset */
    store(6 * CLUSTER + 8, 2, 4);           /* l1_size */
    store(60, 1, 4);                        /* nb_snapshots */
    store(64, 6 * CLUSTER, 8);              /* snapshots_offset */
    image[3 * CLUSTER + 8] &= 0x7F;
    image[4 * CLUSTER + 8] &= 0x7F;
    store(2 * CLUSTER + 2 * 4, 2, 2);
    store(2 * CLUSTER + 2 * 5, 2, 2);
    store(2 * CLUSTER + 2 * 6, 1, 2);
    store(2 * CLUSTER + 2 * 7, 1, 2);
}

/* What a snapshot may need is not written to; the rest of the disk is. */
static void snapshots(void)
{
    uint64_t units = 0, first = 0, second = 0, third = 7;
    uint8_t out[5];
    make_image();
    expect("whole write: done", write_text(33285, "hello", UINT64_MAX, &units), QCOW2_DONE);
    make_snapshot();
    expect("one snapshot, check: sound", check(&first), QCOW2_DONE);
    expect("  references of the data cluster", (uint64_t)scratch[10] << 8 | scratch[11], 2);
    expect("write to shared data: refused", write_text(33285, "other", UINT64_MAX, &units),
           QCOW2_HELD_BY_SNAPSHOT);
    expect("discard of them: refused", qcow2_discard(image, LENGTH, 65, UINT64_MAX, &units),
           QCOW2_HELD_BY_SNAPSHOT);
    expect("write elsewhere: done", write_text(5, "other", UINT64_MAX, &units), QCOW2_DONE);
    expect("  units", units, 1028);
    expect("read of the snapshot: done", qcow2_read_snapshot(image, LENGTH, 0, 33285, out, 5),
           QCOW2_DONE);
    expect("  the data", memcmp(out, "hello", 5) == 0, 1);
    expect("  elsewhere: done", qcow2_read_snapshot(image, LENGTH, 0, 5, out, 5), QCOW2_DONE);
    expect("  zeros", memcmp(out, "\0\0\0\0\0", 5) == 0, 1);
    expect("a snapshot that is not there: refused",
           qcow2_read_snapshot(image, LENGTH, 1, 0, out, 5), QCOW2_WRONG_RANGE);
    store(3 * CLUSTER + 8, UINT64_C(1) << 63 | 4 * CLUSTER, 8);
    expect("bit 63 set for a shared table: damaged", check(&first), QCOW2_MARK_L1);
    expect("  L1 index", first, 1);
    store(7 * CLUSTER, 1, 8);
    expect("a bad entry of the snapshot: damaged",
           qcow2_check(image, LENGTH, scratch, sizeof scratch, &first, &second, &third),
           QCOW2_SNAPSHOT_BAD_L1);
    expect("  the snapshot's number", third, 0);
    store(64, 6 * CLUSTER + 8, 8);
    expect("a snapshot table inside a cluster: refused", check(&first), QCOW2_WRONG_SNAPSHOT_TABLE);
    store(60, 65, 4);
    expect("65 snapshots: refused", check(&first), QCOW2_NOT_SUPPORTED);
}

/* A new image over a raw disk of 600 bytes: what was not written is read from it. */
static void backing_file(void)
{
    static uint8_t under[600];
    uint64_t units = 0, first = 0, at = 0, len = 0;
    uint8_t out[4];
    make_image();
    memset(under, 'u', sizeof under);
    memcpy(image + 104, "base.raw", 8);
    store(8, 104, 8);           /* backing_file_offset */
    store(16, 8, 4);            /* backing_file_size */
    expect("name of the backing file: done", qcow2_backing_name(image, LENGTH, &at, &len), QCOW2_DONE);
    expect("  the name", len == 8 && memcmp(image + at, "base.raw", 8) == 0, 1);
    expect("read with none of its bytes lent: refused", qcow2_read(image, LENGTH, 0, out, 4),
           QCOW2_WRONG_BACKING);
    expect("read over its end: done",
           qcow2_backed_read(image, LENGTH, under, sizeof under, 598, out, 4), QCOW2_DONE);
    expect("  two of its bytes, then zeros", memcmp(out, "uu\0\0", 4) == 0, 1);
    expect("write of one byte: done",
           qcow2_backed_write(image, LENGTH, under, sizeof under, 513, (const uint8_t *)"x", 1,
                              UINT64_MAX, &units), QCOW2_DONE);
    expect("  its bytes around the data", memcmp(image + 5 * CLUSTER, "uxu", 3) == 0, 1);
    expect("discard of what lies in it alone: done",
           qcow2_backed_discard(image, LENGTH, under, sizeof under, 0, UINT64_MAX, &units), QCOW2_DONE);
    expect("  units, for a zero mark", units, 1);
    expect("  read: done", qcow2_backed_read(image, LENGTH, under, sizeof under, 510, out, 4),
           QCOW2_DONE);
    expect("  zeros, then what was written", memcmp(out, "\0\0ux", 4) == 0, 1);
    store(8, 505, 8);
    expect("a name past the first cluster: refused", check(&first), QCOW2_WRONG_BACKING);
}

int main(void)
{
    uint64_t first = 0;
    make_image();
    expect("check of the new image: sound", check(&first), QCOW2_DONE);
    expect("  free clusters", free_clusters(), 12);
    cut_and_repair();
    whole_write();
    autoclear();
    refusals();
    discard();
    narrow_counts();
    snapshots();
    backing_file();
    puts(failed ? "example: WRONG" : "example: all as expected");
    return failed;
}
