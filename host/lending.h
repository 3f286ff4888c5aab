/* Lent buffers that are held whole to what is expected of them, and copies of what a call may only look at. */
#ifndef LENDING_H
#define LENDING_H

#include "lent.h"
#include "test.h"

/* A buffer of `room` bytes between canaries, and how all of it should be behind the call. */
typedef struct lending {
    uint8_t *all, *expected;
    size_t skew, room;
} lending;

static void *room_for(size_t bytes)
{
    void *p = malloc(bytes ? bytes : 1);

    if (p == NULL)
        exit(2);
    return p;
}

static lending lend(size_t skew, size_t room)
{
    lending l = {NULL, NULL, skew, room};

    l.all = room_for(SIDE + skew + room + SIDE);
    l.expected = room_for(SIDE + skew + room + SIDE);
    lent(l.all, skew, room);
    lent(l.expected, skew, room);
    return l;
}

/* The buffer's first byte. */
static uint8_t *bytes_in(const lending *l)
{
    return l->all + SIDE + l->skew;
}

/* Where a byte of the buffer is expected. */
static uint8_t *expect(const lending *l, size_t at)
{
    return l->expected + SIDE + l->skew + at;
}

/* Holds the buffer and its canaries to what is expected. */
static void hold(const lending *l, const char *what)
{
    check(memcmp(l->all, l->expected, SIDE + l->skew + l->room + SIDE) == 0, what);
}

static void give_one_back(lending *l)
{
    free(l->all);
    free(l->expected);
}

/* A copy of its own, of just its length, so that the address sanitizer sees a step out of it. */
static void *copy_of(const void *from, size_t bytes)
{
    void *to = room_for(bytes);

    if (bytes > 0)
        memcpy(to, from, bytes);
    return to;
}

#endif
