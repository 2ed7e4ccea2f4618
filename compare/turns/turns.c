/* Nanoseconds a call of the core over one image, the least of TURNS: one program for the archives of two commits, so that only they
   differ. A line is the call's name and its time. What stores has a copy of the image in its time, as has the line `restore`. */
#include <stdio.h>
#include <stdlib.h>
#include <string.h>
#include <time.h>
#include "qcow2_core.h"

enum { TURNS = 400, CALLS = 200, MOST = 1 << 20 };

static uint8_t whole[MOST], image[MOST], scratch[MOST], out[8192];
static size_t n;
static uint64_t data_at, hole_at;

static uint32_t restore(void) { memcpy(image, whole, n); return image[0] ^ 0x51; }
static uint32_t translate(void) { uint64_t host; return qcow2_translate(image, n, data_at, &host); }
static uint32_t read_512(void) { return qcow2_read(image, n, data_at, out, 512); }
static uint32_t read_8192(void) { return qcow2_read(image, n, 0, out, 8192); }
static uint32_t overwrite(void) { uint64_t u; return qcow2_write(image, n, data_at, out, 5, 1 << 20, &u); }
static uint32_t allot(void) { uint64_t u; restore(); return qcow2_write(image, n, hole_at, out, 5, 1 << 20, &u); }
static uint32_t discard(void) { uint64_t u; restore(); return qcow2_discard(image, n, data_at >> 9, 1 << 20, &u); }
static uint32_t check(void) { uint64_t a, b, c; return qcow2_check(image, n, scratch, MOST, &a, &b, &c); }

static const struct { const char *name; uint32_t (*call)(void); } calls[] = {
    {"restore", restore}, {"translate", translate}, {"read 512 bytes", read_512}, {"read 8 KiB", read_8192},
    {"an overwrite of 5 bytes", overwrite}, {"a write that allots, restored", allot},
    {"a discard, restored", discard}, {"check", check},
};

static void quit(const char *what)
{
    fprintf(stderr, "turns: %s\n", what);
    exit(1);
}

/* Nanoseconds since some moment. */
static double now(void)
{
    struct timespec t;
    clock_gettime(CLOCK_MONOTONIC, &t);
    return t.tv_sec * 1e9 + t.tv_nsec;
}

static double least(uint32_t (*call)(void))
{
    double best = 1e18;
    for (int t = 0; t < TURNS; t++) {
        uint32_t answers = 0;
        double begun = now();
        for (int i = 0; i < CALLS; i++)
            answers |= call();
        double x = (now() - begun) / CALLS;
        if (answers)
            quit("a call was refused");
        best = x < best ? x : best;
    }
    return best;
}

/* The first guest cluster that is, or is not, in the image. */
static uint64_t first(int there)
{
    for (uint64_t at = 0;; at += 512) {
        uint64_t host;
        uint32_t r = qcow2_translate(whole, n, at, &host);
        if (r != QCOW2_DONE && r != QCOW2_ABSENT)
            quit("the image has no such cluster");
        if ((r == QCOW2_DONE) == there)
            return at;
    }
}

int main(int argc, char **argv)
{
    FILE *f = argc == 2 ? fopen(argv[1], "rb") : NULL;
    if (!f || (n = fread(whole, 1, MOST, f)) == 0)
        quit("usage: turns IMAGE (clusters of 512 bytes)");
    data_at = first(1);
    hole_at = first(0);
    for (size_t i = 0; i < sizeof calls / sizeof *calls; i++) {
        restore();
        printf("%s\t%.2f\n", calls[i].name, least(calls[i].call));
    }
    return 0;
}
