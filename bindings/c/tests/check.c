#define _GNU_SOURCE
#include "check.h"

#include <stdio.h>
#include <stdlib.h>
#include <string.h>
#include <sys/mman.h>

/* The bytes of each place, and of the page behind it. */
#define ROOM ((size_t)1 << 24)
#define PAGE 4096
/* The failed tests that are printed. */
#define PRINTED 20

static long passed, failed;

bool check(bool holds, const char *what, const char *file, int line) {
    if (holds) passed++;
    else if (failed++ < PRINTED) fprintf(stderr, "%s:%d: %s\n", file, line, what);
    return holds;
}

int report(void) {
    printf("%ld passed, %ld failed\n", passed, failed);
    return failed > 0;
}

void *room_for(enum place place, size_t size) {
    static uint8_t *ends[PLACES];
    if (ends[place] == NULL) {
        uint8_t *room = mmap(NULL, ROOM + PAGE, PROT_READ | PROT_WRITE, MAP_PRIVATE | MAP_ANONYMOUS | MAP_NORESERVE, -1, 0);
        if (room == MAP_FAILED || mprotect(room + ROOM, PAGE, PROT_NONE) != 0) abort();
        ends[place] = room + ROOM;
    }
    if (size > ROOM) abort();
    return ends[place] - size;
}

uint8_t *copied(enum place place, const uint8_t *bytes, size_t len) {
    uint8_t *room = room_for(place, len);
    if (len > 0) memmove(room, bytes, len);
    return room;
}

/* What an element is marked with. No item has such a row. */
static const rlp_item MARK = {SIZE_MAX, 77, SIZE_MAX, 999, 2};

rlp_item *items_for(size_t count, size_t behind) {
    rlp_item *items = room_for(ITEMS, (count + behind) * sizeof *items);
    for (size_t i = 0; i < behind; i++) items[count + i] = MARK;
    return items;
}

bool are_marked(const rlp_item *items, size_t behind) {
    for (size_t i = 0; i < behind; i++)
        if (!same_items(&items[i], &MARK, 1)) return false;
    return true;
}

bool same_items(const rlp_item *one, const rlp_item *other, size_t count) {
    return count == 0 || memcmp(one, other, count * sizeof *one) == 0;
}

uint64_t draw(uint64_t *source) {
    uint64_t number = *source += 0x9e3779b97f4a7c15;
    number = (number ^ number >> 30) * 0xbf58476d1ce4e5b9;
    number = (number ^ number >> 27) * 0x94d049bb133111eb;
    return number ^ number >> 31;
}

size_t draw_below(uint64_t *source, size_t limit) {
    return draw(source) % limit;
}
