/* Payloads written as digits. */
#ifndef BITS_H
#define BITS_H

#include <stddef.h>
#include <stdint.h>

/* Digits 0 and 1 to bytes, the last one filled up with zeros; other characters part the fields. The number of bytes. */
static size_t bytes_of(const char *digits, uint8_t *bytes)
{
    size_t bits = 0;

    for (; *digits != '\0'; digits++) {
        if (*digits != '0' && *digits != '1')
            continue;
        if (bits % 8 == 0)
            bytes[bits / 8] = 0;
        if (*digits == '1')
            bytes[bits / 8] = (uint8_t)(bytes[bits / 8] | 0x80 >> bits % 8);
        bits++;
    }
    return (bits + 7) / 8;
}

/*
 * A trim element for three objects in which every field takes part: of its nine configurations one is the default, one disabled, one has nothing, five
 * have one value each, one has all. From the discard flag on: 1 + 6 + 1 + 2 + 7 + 3 * 11 + 2 * 12 + 29 + 4 = 107 bits, 14 bytes with 5 of padding.
 */
#define EVERY_TRIM                                                                                             \
    " 0010 1101 0  0  01 00 10  1  01  00 00000  00 00001 1110  00 00010 0100  00 00100 1111  00 01000 1 1001" \
    " 00 10000 0 0011  00 11111 0000 0101 0110 0 1111 1 0000  1 101  00000 "

/* Its table. */
static const uint8_t every_trim[97] = {
    1, 1, 2, /* there, warp mode, global mode */
    1, 0, 0,  0,  0, 0,  0, 0,  0, 0,
    0, 1, 0,  0,  0, 0,  0, 0,  0, 0,
    0, 0, 0,  0,  0, 0,  0, 0,  0, 0,
    0, 0, 1,  14, 0, 0,  0, 0,  0, 0,
    0, 0, 2,  0,  4, 0,  0, 0,  0, 0,
    0, 0, 4,  0,  0, 15, 0, 0,  0, 0,
    0, 0, 8,  0,  0, 0,  1, 9,  0, 0,
    0, 0, 16, 0,  0, 0,  0, 0,  0, 3,
    0, 0, 31, 0,  5, 6,  0, 15, 1, 0,
    1, 1, 0, 1, /* the objects' flags are carried */
};

#endif
