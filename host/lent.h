/* Lent buffers with canaries around them. */
#ifndef LENT_H
#define LENT_H

#include <stddef.h>
#include <stdint.h>

#define SIDE 64

static uint8_t pattern(size_t i)
{
    return (uint8_t)(31 * i + 7);
}

/* A buffer of `room` bytes at `skew` behind a canary, filled; the pointer to its first byte. */
static uint8_t *lent(uint8_t *all, size_t skew, size_t room)
{
    size_t i;

    for (i = 0; i < SIDE + skew + room + SIDE; i++)
        all[i] = pattern(i);
    return all + SIDE + skew;
}

/* Whether all but the first `used` bytes of the lent buffer are as they came. */
static int untouched(const uint8_t *all, size_t skew, size_t room, size_t used)
{
    size_t i;

    for (i = 0; i < SIDE + skew + room + SIDE; i++) {
        if (i >= SIDE + skew && i < SIDE + skew + used)
            continue;
        if (all[i] != pattern(i))
            return 0;
    }
    return 1;
}

#endif
