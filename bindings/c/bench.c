/* bench FILE: nanoseconds of processor time for one call over the bytes of a file, by the library and by plain C. */
#include "tests/plain.h"

#include <stdio.h>
#include <time.h>

#define RUNS 15
#define NANOSECONDS 1e7

static uint8_t bytes[1 << 24], out[1 << 24];
static rlp_item items[1 << 20];
static size_t len, found, count;
static const size_t cap = sizeof items / sizeof *items;

static bool flatten(void) { return rlp_flatten(bytes, len, RLP_DEPTH_LIMIT, items, cap, &found) == RLP_OK; }
static bool plain_decode(void) { return plain_flatten(bytes, len, RLP_DEPTH_LIMIT, items, cap, &found) == RLP_OK; }
static bool encode(void) { return rlp_encode(items, found, bytes, len, out, sizeof out, &count) == RLP_OK; }
static bool plain_write(void) { return plain_encode(items, found, bytes, len, out, sizeof out, &count) == RLP_OK; }
static bool is_canonical(void) { return rlp_is_canonical(bytes, len, RLP_DEPTH_LIMIT); }

static double now(void) {
    struct timespec time;
    clock_gettime(CLOCK_PROCESS_CPUTIME_ID, &time);
    return (double)time.tv_sec * 1e9 + (double)time.tv_nsec;
}

static double run(bool call(void), long rounds) {
    double start = now();
    for (long left = rounds; left > 0; left--)
        if (!call()) return -1;
    return now() - start;
}

/* Prints the shortest time of some runs, each of enough rounds to be measured. */
static void measure(const char *name, bool call(void)) {
    long rounds = 1;
    while (run(call, rounds) < NANOSECONDS / 2 && rounds < 1 << 24) rounds *= 2;
    double best = run(call, rounds);
    for (int left = RUNS - 1; left > 0; left--) {
        double took = run(call, rounds);
        if (took < best) best = took;
    }
    printf("%s %.1f\n", name, best / (double)rounds);
}

int main(int argc, char **argv) {
    FILE *file = argc == 2 ? fopen(argv[1], "rb") : NULL;
    if (file == NULL) return 2;
    len = fread(bytes, 1, sizeof bytes, file);
    fclose(file);
    measure("decode", flatten);
    measure("is_canonical", is_canonical);
    measure("encode", encode);
    measure("plain_decode", plain_decode);
    measure("plain_encode", plain_write);
    printf("items %zu\n", found);
}
