#define _GNU_SOURCE /* memfd_create */
#include "lent.h"

#include <stdio.h>
#include <stdlib.h>
#include <string.h>
#include <sys/mman.h>
#include <unistd.h>

enum { GUARD = 65536, BESIDE = 256, PATTERN = 0xA5 };

/* The same memory twice: once to write it, once to read it only. */
static struct area {
    uint8_t *written, *read;
    size_t at, len;
} areas[LENT_AREAS];

static void fail(const char *what) {
    perror(what);
    exit(2);
}

static uint8_t *between_guards(int file, int access) {
    uint8_t *all = mmap(NULL, LENT_MOST + 2 * GUARD, PROT_NONE, MAP_PRIVATE | MAP_ANONYMOUS, -1, 0);
    if (all == MAP_FAILED || mmap(all + GUARD, LENT_MOST, access, MAP_SHARED | MAP_FIXED, file, 0) == MAP_FAILED)
        fail("lent: mmap");
    return all + GUARD;
}

void lent_set_up(void) {
    for (int k = 0; k < LENT_AREAS; k++) {
        int file = memfd_create("lent", 0);
        if (file < 0 || ftruncate(file, LENT_MOST) != 0)
            fail("lent: memfd_create");
        areas[k].written = between_guards(file, PROT_READ | PROT_WRITE);
        areas[k].read = between_guards(file, PROT_READ);
        close(file);
    }
}

/* How many octets stand beside a buffer, and where they begin. */
static size_t width_beside(const struct area *a) {
    size_t room = LENT_MOST - a->len;
    return room < BESIDE ? room : BESIDE;
}

static uint8_t *beside(const struct area *a) {
    return a->written + (a->at == 0 ? a->len : a->at - width_beside(a));
}

uint8_t *lend(int area, const uint8_t *octets, size_t len, enum lent_place place, int to_write) {
    struct area *a = &areas[area];
    if (len > LENT_MOST) {
        fputs("lent: too long\n", stderr);
        exit(2);
    }
    a->len = len;
    a->at = place == LENT_BEHIND ? 0 : LENT_MOST - len;
    if (len > 0)
        memcpy(a->written + a->at, octets, len);
    memset(beside(a), PATTERN, width_beside(a));
    return (to_write ? a->written : a->read) + a->at;
}

const uint8_t *lent_now(int area) { return areas[area].written + areas[area].at; }

int lent_kept_apart(int area) {
    const uint8_t *octets = beside(&areas[area]);
    for (size_t i = 0; i < width_beside(&areas[area]); i++)
        if (octets[i] != PATTERN)
            return 0;
    return 1;
}
