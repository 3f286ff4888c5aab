/* NULL with length 0, lent buffers of every length about the needed one with canaries around them, unaligned pointers, refused calls, frames. */
#include "bits.h"
#include "lent.h"
#include "test.h"

/* samples/three-objects.oamd is given by name; the others are from the requirements. */
static const uint8_t small[4] = {0x01, 0x07, 0xC1, 0x00};

static int is_zero(const void *p, size_t n)
{
    const uint8_t *b = p;

    while (n > 0)
        if (b[--n] != 0)
            return 0;
    return 1;
}

/* All fields but refusal and place are 0, and but the missing bits of a payload that ends early. */
static int bare(const skriemelt_read_answer *a)
{
    unsigned i;
    int ok = (a->missing != 0) == (a->refusal == SKRIEMELT_PAST_PAYLOAD) && a->unknown == 0 && a->timing.blocks == 0 && is_zero(&a->programme, offsetof(skriemelt_programme, dynamics) + 1);

    for (i = 0; i < SKRIEMELT_MOST_BEDS; i++)
        ok = ok && a->programme.beds[i].assignment == 0 && a->programme.beds[i].lfeonly == 0 && a->programme.beds[i].standard == 0;
    for (i = 0; i < SKRIEMELT_MOST_BLOCKS; i++)
        ok = ok && a->timing.updates[i].start == 0 && a->timing.updates[i].ramp == 0;
    return ok;
}

static void nulls(void)
{
    uint8_t out[2] = {0x5A, 0x5A}, trim[95];
    skriemelt_read_answer a = skriemelt_read(NULL, 0, 0, NULL, 0, NULL, 0);

    check(a.refusal == SKRIEMELT_PAST_PAYLOAD && a.place == 0 && a.missing == 2 && bare(&a), "no payload, no buffers");
    a = skriemelt_read(NULL, 0, 0, out, 1, out + 1, 1);
    check(a.refusal == SKRIEMELT_PAST_PAYLOAD && out[0] == 0x5A && out[1] == 0x5A, "no payload");
    memset(trim, 0x5A, sizeof trim);
    a = skriemelt_read(small, 4, 0, NULL, 0, trim, sizeof trim);
    check(a.refusal == SKRIEMELT_ACCEPTED && a.programme.objects == 1 && a.unknown == 1 && a.missing == 0, "no record buffer, and none needed");
    check(is_zero(trim, sizeof trim), "the trim table without a trim element");
    a = skriemelt_read(small, 4, 0, NULL, 0, NULL, 0);
    check(a.refusal == SKRIEMELT_NO_ROOM && a.place == 95 && bare(&a), "no trim buffer, and one is needed");
    a = skriemelt_read(small, 4, 0, out, 1, trim, 94);
    check(a.refusal == SKRIEMELT_NO_ROOM && a.place == 95 && out[0] == 0x5A && is_zero(trim, sizeof trim), "a trim buffer one byte too short");
    a = skriemelt_read(small, 0, 0, out, 0, trim, 0);
    check(a.refusal == SKRIEMELT_PAST_PAYLOAD && a.place == 0, "pointers with length 0");
}

/* The first n bytes of the four, and more bytes behind them. */
static void worked(void)
{
    static const uint64_t places[4] = {0, 8, 14, 18};
    static const uint32_t missing[4] = {2, 1, 2, 7};
    static const uint8_t version[2] = {0x41, 0x00}, past_element[4] = {0x01, 0x04, 0x40, 0x00}, widest[6] = {0x01, 0x3C, 0x01, 0xFF, 0xFF, 0xFF};
    skriemelt_read_answer a;
    uint8_t *longest = calloc(1000000, 1), trim[95];
    size_t n;

    for (n = 0; n < 4; n++) {
        a = skriemelt_read(small, n, 0, NULL, 0, NULL, 0);
        check(a.refusal == SKRIEMELT_PAST_PAYLOAD && a.place == places[n] && a.missing == missing[n] && bare(&a), "cut");
    }
    a = skriemelt_read(past_element, 4, 0, NULL, 0, NULL, 0);
    check(a.refusal == SKRIEMELT_PAST_ELEMENT && a.place == 29 && bare(&a), "a field past its element's end");
    a = skriemelt_read(widest, 6, 0, NULL, 0, NULL, 0);
    check(a.refusal == SKRIEMELT_PAST_PAYLOAD && a.place == 23 && a.missing == 8947840 && bare(&a), "a size of five groups F");
    a = skriemelt_read(version, 2, 0, NULL, 0, NULL, 0);
    check(a.refusal == SKRIEMELT_OTHER_VERSION && a.place == 0 && bare(&a), "version 1");
    if (longest == NULL)
        exit(2);
    memcpy(longest, small, 4);
    a = skriemelt_read(longest, 4096, 0, NULL, 0, trim, sizeof trim);
    check(a.refusal == SKRIEMELT_ACCEPTED && a.place == 0, "4,096 bytes");
    a = skriemelt_read(longest, 4097, 0, NULL, 0, trim, sizeof trim);
    check(a.refusal == SKRIEMELT_TOO_LONG && a.place == 4097 && bare(&a), "4,097 bytes");
    a = skriemelt_read(longest, 1000000, 0, NULL, 0, NULL, 0);
    check(a.refusal == SKRIEMELT_TOO_LONG && a.place == 1000000 && bare(&a), "a million bytes");
    free(longest);
}

/* A payload of three objects and two blocks that is accepted, with its tables. */
typedef struct sample {
    const uint8_t *payload;
    size_t n;
    uint32_t frame;
    const uint8_t *records, *trim;
    size_t need, trim_need;
} sample;

/* Reads into buffers of these rooms, at this skew and another one. */
static void one_room(const sample *s, size_t skew, size_t room, size_t trim_room)
{
    size_t trim_skew = (3 * skew + 1) % 9;
    uint8_t *all = malloc(SIDE + skew + room + SIDE), *trim_all = malloc(SIDE + trim_skew + trim_room + SIDE), *out, *trim;
    skriemelt_read_answer a;

    if (all == NULL || trim_all == NULL)
        exit(2);
    out = lent(all, skew, room);
    trim = lent(trim_all, trim_skew, trim_room);
    a = skriemelt_read(s->payload, s->n, s->frame, out, room, trim, trim_room);
    if (room < s->need || trim_room < s->trim_need) {
        check(a.refusal == SKRIEMELT_NO_ROOM && a.place == (room < s->need ? s->need : s->trim_need) && bare(&a), "too little room");
        check(untouched(all, skew, room, 0), "a refusal leaves the record buffer as it came");
        check(untouched(trim_all, trim_skew, trim_room, 0), "a refusal leaves the trim buffer as it came");
    } else {
        check(a.refusal == SKRIEMELT_ACCEPTED && a.place == 0 && a.unknown == 0, "room enough");
        check(memcmp(out, s->records, s->need) == 0, "records");
        check(memcmp(trim, s->trim, s->trim_need) == 0, "trim table");
        check(untouched(all, skew, room, s->need), "bytes behind the records and around the buffer");
        check(untouched(trim_all, trim_skew, trim_room, s->trim_need), "bytes behind the trim table and around the buffer");
    }
    free(all);
    free(trim_all);
}

/* Buffers of exactly their length on the heap: the address sanitizer sees a step out of them. */
static void exact(const sample *s)
{
    uint8_t *in = malloc(s->n), *out = malloc(s->need), *trim = malloc(s->trim_need);

    if (in == NULL || out == NULL || trim == NULL)
        exit(2);
    memcpy(in, s->payload, s->n);
    check(skriemelt_read(in, s->n, s->frame, out, s->need, trim, s->trim_need).refusal == SKRIEMELT_ACCEPTED, "exact lengths");
    free(in);
    free(out);
    free(trim);
}

/* Every room about the needed ones, of one buffer and of both. */
static void rooms(const sample *s)
{
    size_t room, skew, less;
    uint8_t shifted[256];
    sample moved = *s;

    for (room = 0; room <= s->need + 40; room++)
        one_room(s, 0, room, s->trim_need);
    for (room = 0; room <= s->trim_need + 40; room++)
        one_room(s, 0, s->need, room);
    one_room(s, 0, s->need, SKRIEMELT_MOST_TRIM_BYTES);
    one_room(s, 0, 0, 0);
    for (skew = 0; skew < 9; skew++) {
        for (less = 0; less < 9; less++)
            one_room(s, skew, s->need + 1 - less / 3, s->trim_need + 1 - less % 3);
        memcpy(shifted + skew, s->payload, s->n);
        moved.payload = shifted + skew;
        one_room(&moved, skew, s->need, s->trim_need);
    }
    exact(s);
}

/* Each beginning of the payload. */
static void cuts(const sample *s)
{
    static uint8_t all[SIDE + 192 + SIDE], trim_all[SIDE + 97 + SIDE];
    skriemelt_read_answer a;
    size_t n;

    for (n = 0; n < s->n; n++) {
        a = skriemelt_read(s->payload, n, s->frame, lent(all, 0, s->need), s->need, lent(trim_all, 0, s->trim_need), s->trim_need);
        check(a.refusal == SKRIEMELT_PAST_PAYLOAD && a.place <= 8 * n && bare(&a), "cut");
        check(untouched(all, 0, s->need, 0) && untouched(trim_all, 0, s->trim_need, 0), "a cut payload leaves the buffers as they came");
    }
}

/* The payload's records are taken as they are read, its trim table is given. */
static void one_sample(const uint8_t *payload, size_t n, const uint8_t *trim)
{
    static uint8_t records[SKRIEMELT_MOST_RECORD_BYTES], read_trim[SKRIEMELT_MOST_TRIM_BYTES];
    skriemelt_read_answer a = skriemelt_read(payload, n, 0x01020304, records, sizeof records, read_trim, sizeof read_trim);
    sample s = {payload, n, 0x01020304, records, trim, 192, 97};

    check(a.refusal == SKRIEMELT_ACCEPTED && a.programme.objects == 3 && a.timing.blocks == 2, "three objects, two blocks");
    rooms(&s);
    cuts(&s);
}

/* Three dynamic objects, inactive in two blocks: 1 + 2 + 3 + 16 + 1 + 12 bits from the discard flag on, 5 bytes with 5 of padding; then the trim element. */
static void with_trim(void)
{
    static const char digits[] = "00 00010  1 0  0 0010  0001 0100 0  0  00 001  000000 00  000001 00  1  10 10  10 10  10 10  00000" EVERY_TRIM;
    uint8_t payload[64];

    one_sample(payload, bytes_of(digits, payload), every_trim);
}

/* The sample's records in a frame: what the payload gives does not depend on it, and each record has the time that stands here for its block. */
static void one_frame(const uint8_t *payload, size_t n, uint32_t frame, const uint8_t *first, const uint8_t *second)
{
    static uint8_t none[192], records[192], trim[97];
    skriemelt_read_answer a = skriemelt_read(payload, n, 0, none, sizeof none, trim, sizeof trim);
    unsigned i;

    check(a.refusal == SKRIEMELT_ACCEPTED, "the sample in frame 0");
    a = skriemelt_read(payload, n, frame, records, sizeof records, trim, sizeof trim);
    check(a.refusal == SKRIEMELT_ACCEPTED && a.place == 0 && a.timing.updates[1].start == 32, "the sample in a frame");
    for (i = 0; i < 6; i++) {
        const uint8_t *r = records + SKRIEMELT_RECORD_STRIDE * i;

        check(memcmp(r, none + SKRIEMELT_RECORD_STRIDE * i, SKRIEMELT_RECORD_BYTES) == 0, "a record's own bytes in every frame");
        check(memcmp(r + SKRIEMELT_RECORD_TIME, i % 2 == 0 ? first : second, 8) == 0, "a record's time");
    }
}

/* Starts 0 and 32. 7 * 1,536 is 0x2A00; 2,796,203 * 1,536 is 0x100000200; 4,294,967,295 * 1,536 is 0x5FFFFFFFA00. */
static void frames(const uint8_t *payload, size_t n)
{
    static const uint8_t times[5][2][8] = {{{0}, {0x20}},
                                           {{0x00, 0x06}, {0x20, 0x06}},
                                           {{0x00, 0x2A}, {0x20, 0x2A}},
                                           {{0x00, 0x02, 0, 0, 0x01}, {0x20, 0x02, 0, 0, 0x01}},
                                           {{0x00, 0xFA, 0xFF, 0xFF, 0xFF, 0x05}, {0x20, 0xFA, 0xFF, 0xFF, 0xFF, 0x05}}};
    static const uint32_t numbers[5] = {0, 1, 7, 2796203, UINT32_MAX};
    static const uint8_t second[SKRIEMELT_RECORD_STRIDE] = {1, 0, 0x3E, 0x04, 0x1F, 0x1F, 0x40, [12] = 1, [24] = 0x20};
    uint8_t records[192], trim[97];
    size_t i;

    for (i = 0; i < 5; i++)
        one_frame(payload, n, numbers[i], times[i][0], times[i][1]);
    check(skriemelt_read(payload, n, 0, records, sizeof records, trim, sizeof trim).refusal == SKRIEMELT_ACCEPTED, "the sample");
    check(memcmp(records + 32, second, sizeof second) == 0, "the record of object 0 and block 1");
}

/* One inactive object, a block that starts at 2,047: 31 and 63 times 32. */
static void last_time(void)
{
    static const char digits[] = "00 00000  1 0  0 0001  0001 0010 0  0  10 11111 000  111111 00  1  1 0  00";
    static const uint8_t last[8] = {0xFF, 0x01, 0, 0, 0, 0x06};
    uint8_t payload[16], record[32], trim[95];
    size_t n = bytes_of(digits, payload);
    skriemelt_read_answer a = skriemelt_read(payload, n, UINT32_MAX, record, sizeof record, trim, sizeof trim);

    check(a.refusal == SKRIEMELT_ACCEPTED && a.timing.blocks == 1 && a.timing.updates[0].start == 2047, "the last start");
    check(memcmp(record + SKRIEMELT_RECORD_TIME, last, sizeof last) == 0, "the last time of all");
}

/* A start past the frame's end is not folded: 1,536 of frame 1 is 0 of frame 2, sample 3,072. */
static void past_the_frame(void)
{
    static const char late[] = "00 00000  1 0  0 0001  0001 0010 0  0  00 000  110000 00  1  1 0  0000000";
    static const char early[] = "00 00000  1 0  0 0001  0001 0010 0  0  00 000  000000 00  1  1 0  0000000";
    uint8_t payload[16], record[32], trim[95];
    skriemelt_read_answer a = skriemelt_read(payload, bytes_of(late, payload), 1, record, sizeof record, trim, sizeof trim);

    check(a.refusal == SKRIEMELT_ACCEPTED && a.timing.updates[0].start == 1536 && skriemelt_time(record) == 3072, "a start past the frame");
    a = skriemelt_read(payload, bytes_of(early, payload), 2, record, sizeof record, trim, sizeof trim);
    check(a.refusal == SKRIEMELT_ACCEPTED && a.timing.updates[0].start == 0 && skriemelt_time(record) == 3072, "the first sample of the next frame");
}

/* Without blocks there is no record, and any frame gives the same. */
static void no_blocks(void)
{
    static const uint32_t numbers[3] = {0, 7, UINT32_MAX};
    uint8_t all[SIDE + 32 + SIDE], trim[95];
    size_t i;

    for (i = 0; i < 3; i++) {
        skriemelt_read_answer a = skriemelt_read(small, 4, numbers[i], lent(all, 0, 32), 32, trim, sizeof trim);

        check(a.refusal == SKRIEMELT_ACCEPTED && a.unknown == 1 && a.timing.blocks == 0, "no blocks, any frame");
        check(untouched(all, 0, 32, 0), "no blocks, no record");
    }
}

int main(int argc, char **argv)
{
    static const uint8_t no_trim[97] = {0};
    uint8_t bytes[128];
    size_t n;
    FILE *file = argc == 2 ? fopen(argv[1], "rb") : NULL;

    if (file == NULL) {
        fprintf(stderr, "usage: test_calls SAMPLE\n");
        return 2;
    }
    n = fread(bytes, 1, sizeof bytes, file);
    fclose(file);
    nulls();
    worked();
    one_sample(bytes, n, no_trim);
    with_trim();
    frames(bytes, n);
    last_time();
    past_the_frame();
    no_blocks();
    return finish("test_calls");
}
