/* The tables of samples/three-objects.oamd. */
#ifndef SAMPLE_H
#define SAMPLE_H

#include <stdint.h>
#include <string.h>

/* What the sample gives its records, as README.md lists them, but for their times. Its programme is of dynamic objects only, the first an LFE object; its updates start at 0 and 32. */
static const uint8_t sample_records[144] = {
    1, 0, 0x32, 0x02, 0x1F, 0x1F, 0x40, 0, 0, 0, 0, 0, 1, 0, 0, 0, 0, 0, 0, 0, 0, 0, 0, 0,
    1, 0, 0x3E, 0x04, 0x1F, 0x1F, 0x40, 0, 0, 0, 0, 0, 1, 0, 0, 0, 0, 0, 0, 0, 0, 0, 0, 0,
    1, 2, 0x32, 0x20, 0x0B, 0x0C, 0x4D, 0, 0, 0, 0, 0, 1, 0, 0, 0, 0, 0, 0, 0, 0, 0, 0, 0,
    1, 2, 0x32, 0x20, 0x0B, 0x0C, 0x4D, 0, 0, 0, 0, 0, 1, 0, 0, 0, 0, 0, 0, 0, 0, 0, 0, 0,
    0, 2, 0x00, 0x00, 0x1F, 0x1F, 0x40, 0, 0, 0, 0, 0, 1, 0, 0, 0, 0, 0, 0, 0, 0, 0, 0, 0,
    1, 2, 0x00, 0x00, 0x09, 0x08, 0x39, 0, 0, 0, 0, 0, 1, 0, 0, 0, 0, 0, 0, 0, 0, 0, 0, 0,
};

/* A number, least byte first. */
static void lay(uint8_t *to, uint64_t value, size_t bytes)
{
    for (; bytes > 0; bytes--, value >>= 8)
        *to++ = (uint8_t)(value & 255);
}

/* The sample's records in a frame: their blocks start at 0 and 32. */
static void lay_sample(uint8_t *to, uint32_t frame)
{
    size_t i;

    for (i = 0; i < 6; i++) {
        memcpy(to + 32 * i, sample_records + 24 * i, 24);
        lay(to + 32 * i + 24, UINT64_C(1536) * frame + 32 * (i % 2), 8);
    }
}

#endif
