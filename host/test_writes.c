/*
 * skriemelt_write: forms worked out by hand from the clauses, tables that are not valid, buffers of every length about the needed one with canaries
 * around them, unaligned pointers, the limit of 4,096 bytes and the longest tables of all, frames and times.
 */
#include "bits.h"
#include "lent.h"
#include "test.h"

#define MOST_ROOM 20000

typedef struct tables {
    skriemelt_programme programme;
    skriemelt_timing timing;
    uint32_t frame;
    uint8_t records[SKRIEMELT_MOST_RECORD_BYTES], trim[SKRIEMELT_MOST_TRIM_BYTES];
    size_t record_bytes, trim_bytes;
} tables;

static tables given;
static uint8_t lent_bytes[SIDE + 16 + MOST_ROOM + SIDE];

/* What an inactive record holds behind its class. */
static const uint8_t defaults[22] = {0, 0, 31, 31, 64, 0, 0, 0, 0, 0, 1};

/* An active dynamic record of which each field takes its most bits, without extended data. */
static const uint8_t heavy[SKRIEMELT_RECORD_BYTES] = {1, 2, 65, 31, 62, 0, 49, 17, 1, 2, 3, 5, 0, 1, 7, 3, 1};

static skriemelt_write_answer write_given(uint8_t *payload, size_t room)
{
    return skriemelt_write(given.programme, given.timing, given.frame, given.records, given.record_bytes, given.trim, given.trim_bytes, payload, room);
}

static uint8_t *record_at(size_t index)
{
    return given.records + SKRIEMELT_RECORD_STRIDE * index;
}

static uint8_t *config_at(size_t index)
{
    return given.trim + SKRIEMELT_TRIM_CONFIG + SKRIEMELT_TRIM_CONFIG_STRIDE * index;
}

/* Lays the times of the records that the tables need, for the frame and the timing that are given. */
static void give_times(void)
{
    size_t i, count = (size_t)given.programme.objects * given.timing.blocks;

    for (i = 0; i < count; i++)
        skriemelt_set_time(record_at(i), given.frame, given.timing.updates[i % given.timing.blocks].start);
}

/* Dynamic objects only, the first an LFE object if lfe is 1; every record inactive; no trim; frame 0 and starts 0. */
static void give_inactive(uint8_t objects, uint8_t lfe, uint8_t blocks)
{
    size_t i, count = (size_t)objects * blocks;

    memset(&given, 0, sizeof given);
    given.programme.objects = objects;
    given.programme.dynonly = 1;
    given.programme.lfe = lfe;
    given.timing.blocks = blocks;
    given.record_bytes = SKRIEMELT_RECORD_STRIDE * count;
    given.trim_bytes = SKRIEMELT_TRIM_FIXED + (size_t)objects;
    for (i = 0; i < count; i++) {
        record_at(i)[SKRIEMELT_RECORD_CLASS] = i < (size_t)lfe * blocks ? SKRIEMELT_CLASS_BED : SKRIEMELT_CLASS_DYNAMIC;
        memcpy(record_at(i) + 2, defaults, sizeof defaults);
    }
}

/* Refused with this number and place, length 0, no byte changed. */
static void refused(unsigned refusal, uint64_t place, size_t room, const char *what)
{
    uint8_t *payload = lent(lent_bytes, 0, room);
    skriemelt_write_answer a = write_given(payload, room);

    check(a.refusal == refusal && a.place == place, what);
    check(a.length == 0, "a refusal has length 0");
    check(untouched(lent_bytes, 0, room, 0), "a refusal leaves the buffer as it came");
}

/* Accepted with this form in a buffer of this length. */
static void accepted(const uint8_t *form, size_t length, size_t skew, size_t room, const char *what)
{
    uint8_t *payload = lent(lent_bytes, skew, room);
    skriemelt_write_answer a = write_given(payload, room);

    check(a.refusal == SKRIEMELT_ACCEPTED && a.place == 0 && a.length == length, what);
    check(memcmp(payload, form, length) == 0, what);
    check(untouched(lent_bytes, skew, room, length), "bytes behind the payload and around the buffer");
}

/* Every room about the needed one, and unaligned pointers to the payload, the records and the trim table. */
static void all_rooms(const uint8_t *form, size_t length, const char *what)
{
    static uint8_t shifted[SKRIEMELT_MOST_RECORD_BYTES + 16], shifted_trim[SKRIEMELT_MOST_TRIM_BYTES + 16];
    size_t room, skew, trim_skew;

    for (room = 0; room < length; room++)
        refused(SKRIEMELT_NO_FIT, length, room, what);
    for (room = length; room <= length + 40; room++)
        accepted(form, length, 0, room, what);
    for (skew = 0; skew < 9; skew++) {
        uint8_t *payload = lent(lent_bytes, skew, length);
        skriemelt_write_answer a;
        trim_skew = (3 * skew + 1) % 9;
        memcpy(shifted + skew, given.records, given.record_bytes);
        memcpy(shifted_trim + trim_skew, given.trim, given.trim_bytes);
        a = skriemelt_write(given.programme, given.timing, given.frame, shifted + skew, given.record_bytes, shifted_trim + trim_skew, given.trim_bytes, payload, length);
        check(a.refusal == SKRIEMELT_ACCEPTED && a.length == length && memcmp(payload, form, length) == 0, "unaligned");
        check(untouched(lent_bytes, skew, length, length), "unaligned: bytes around the buffer");
        check(memcmp(shifted + skew, given.records, given.record_bytes) == 0, "the records are only looked at");
        check(memcmp(shifted_trim + trim_skew, given.trim, given.trim_bytes) == 0, "the trim table is only looked at");
    }
}

/* Slices of exactly their length on the heap: the address sanitizer sees a step out of them. */
static void exact(const uint8_t *form, size_t length)
{
    uint8_t *records = malloc(given.record_bytes ? given.record_bytes : 1), *trim = malloc(given.trim_bytes), *payload = malloc(length);
    skriemelt_write_answer a;

    if (records == NULL || trim == NULL || payload == NULL)
        exit(2);
    memcpy(records, given.records, given.record_bytes);
    memcpy(trim, given.trim, given.trim_bytes);
    a = skriemelt_write(given.programme, given.timing, given.frame, records, given.record_bytes, trim, given.trim_bytes, payload, length);
    check(a.refusal == SKRIEMELT_ACCEPTED && memcmp(payload, form, length) == 0, "exact lengths");
    free(records);
    free(trim);
    free(payload);
}

/* Version, count 1, dynamic only, no LFE, no alternate ids, no elements: 00 00000 1 0 0 0000. */
static void nulls(void)
{
    static const uint8_t one[2] = {0x01, 0x00}, one_lfe[2] = {0x01, 0x80};
    skriemelt_write_answer a;

    give_inactive(1, 0, 0);
    a = skriemelt_write(given.programme, given.timing, 0, NULL, 0, given.trim, given.trim_bytes, NULL, 0);
    check(a.refusal == SKRIEMELT_NO_FIT && a.place == 2 && a.length == 0, "no records, no buffer");
    a = skriemelt_write(given.programme, given.timing, 0, NULL, 0, NULL, 0, NULL, 0);
    check(a.refusal == SKRIEMELT_NOT_VALID && a.place == 1 && a.length == 0, "no trim table, and one is needed");
    all_rooms(one, 2, "one object without blocks");
    given.programme.lfe = 1;
    accepted(one_lfe, 2, 0, 2, "one LFE object without blocks");
    give_inactive(1, 0, 1);
    a = skriemelt_write(given.programme, given.timing, 0, NULL, 0, NULL, 0, NULL, 0);
    check(a.refusal == SKRIEMELT_NOT_VALID && a.place == 0 && a.length == 0, "no records, and some needed");
    memset(&given, 0, sizeof given);
    a = skriemelt_write(given.programme, given.timing, 0, NULL, 0, NULL, 0, NULL, 0);
    check(a.refusal == SKRIEMELT_NOT_VALID && a.place == 0 && a.length == 0, "nothing at all");
}

/* The beds of every_table: 1 + 2 + 1 + 2 + 0 + 1 + 1 + 1 + 17 objects. */
static void give_beds(void)
{
    static const skriemelt_bed beds[SKRIEMELT_MOST_BEDS] = {{0, 1, 0},       {1, 0, 1}, {0x200, 0, 1}, {0x10001, 0, 0}, {0, 0, 0},
                                                            {2, 0, 1}, {2, 0, 0}, {0, 1, 0},     {0x1FFFF, 0, 0}};

    given.programme.dynonly = 0;
    given.programme.content = SKRIEMELT_CONTENT_BED | SKRIEMELT_CONTENT_ISF | SKRIEMELT_CONTENT_DYNAMIC;
    given.programme.distribute = 1;
    given.programme.multiple = 1;
    given.programme.instances = 7;
    given.programme.bedcount = 9;
    memcpy(given.programme.beds, beds, sizeof beds);
}

static void give_updates(void)
{
    static const skriemelt_update updates[SKRIEMELT_MOST_BLOCKS] = {{5, 0},     {2021, 512}, {37, 1536}, {69, 2048},
                                                                    {101, 1},   {133, 2047}, {165, 32},  {1989, 1000}};

    memcpy(given.timing.updates, updates, sizeof updates);
    give_times();
}

/*
 * A form that every field of programme and timing takes part in. 26 bed objects, 30 of ISF type 5 and 41 dynamic ones: 97. The object element: 1 + 7 + 3
 * + 117 + 1 bits, and 2 for each of the 776 inactive records: 1,681 bits, 211 bytes; 210 is 16 + 12 * 16 + 2.
 */
static void every_table(void)
{
    static const char head[] = "00 11111 1000001  0 0111  1 1 111  1  0 1 0000000001  0 1 1000000000  0 0 10000000000000001  0 0 00000000000000000"
                               " 0 1 0000000010  0 0 00000000000000010  1  0 0 11111111111111111  101  11111 0001001  0 0001"
                               " 0001 1100 1 0010 0  0  10 00101 111  000000 00  111111 01  000001 10  000010 11 1 1111  000011 11 0 00000000001"
                               " 000100 11 0 11111111111  000101 11 0 00000100000  111110 11 0 01111101000  1";
    static char digits[sizeof head + 2 * 776 + 8];
    static uint8_t form[512];
    size_t i, length;

    give_inactive(97, 0, 8);
    give_beds();
    give_updates();
    given.programme.isf = 5;
    given.programme.dynamics = 40;
    for (i = 0; i < 776; i++)
        record_at(i)[SKRIEMELT_RECORD_CLASS] = i < 26 * 8 ? SKRIEMELT_CLASS_BED : i < 56 * 8 ? SKRIEMELT_CLASS_ISF : SKRIEMELT_CLASS_DYNAMIC;
    strcpy(digits, head);
    for (i = 0; i < 776; i++)
        strcat(digits, "10");
    strcat(digits, "0000000");
    length = bytes_of(digits, form);
    all_rooms(form, length, "every field of programme and timing");
    exact(form, length);
}

/* A form that every byte of a record takes part in. The object element has 15 + 67 bits: 11 bytes; the extended one 1 + 1 + 9 + 1 + 10: 3 bytes. */
static void every_byte(void)
{
    static const uint8_t extension[7] = {1, 2, 63, 7, 3, 2, 1};
    static const char digits[] = "00 00000  1 0  0 0010  0001 1010 0  0 00 000  000000 00  1  0  10 000000  0 11111  111110 000000 0 1111  1 0 1111"
                                 " 101 0  10 00001 00010 00011  1 111 11  1  0  000000"
                                 " 0101 0010 0  0  1 1 10 111111  1 1 111 11 10 01  00";
    uint8_t form[32];
    size_t length = bytes_of(digits, form);

    give_inactive(1, 0, 1);
    memcpy(record_at(0), heavy, 17);
    memcpy(record_at(0) + SKRIEMELT_RECORD_DIVERGENCE, extension, sizeof extension);
    all_rooms(form, length, "every byte of a record");
    exact(form, length);
    memset(record_at(1), 0xEE, 100);
    given.record_bytes += 100;
    accepted(form, length, 0, MOST_ROOM, "bytes behind the records are not looked at");
    given.record_bytes = 31;
    refused(SKRIEMELT_NOT_VALID, 0, MOST_ROOM, "one record byte too few");
}

/* A form that every field of a trim element takes part in, without blocks; what may stand behind the table, and what is missing of it. */
static void every_trim_field(void)
{
    static const char digits[] = "00 00010  1 0  0 0001" EVERY_TRIM;
    uint8_t form[32];
    size_t length = bytes_of(digits, form);

    give_inactive(3, 0, 0);
    memcpy(given.trim, every_trim, sizeof every_trim);
    all_rooms(form, length, "every field of a trim element");
    exact(form, length);
    memset(given.trim + 97, 0xEE, 100);
    given.trim_bytes = SKRIEMELT_MOST_TRIM_BYTES;
    accepted(form, length, 0, MOST_ROOM, "bytes behind the trim table are not looked at");
    given.trim_bytes = 96;
    refused(SKRIEMELT_NOT_VALID, 1, MOST_ROOM, "one trim byte too few");
    given.trim_bytes = 0;
    refused(SKRIEMELT_NOT_VALID, 1, 0, "no trim byte");
}

/* The trim element of one object is the last of three: 1 + 2 + 2 + 2 + 1 + 1 bits. The others: 15 + 31 bits, 6 bytes; 1 + 1 + 3 + 1 bits, one byte. */
static void trim_last(void)
{
    static const char digits[] = "00 00000  1 0  0 0011  0001 0101 0  0 00 000  000000 00  1  0  00 1  011111 011111 0 0000  0  000 1  00  0  0  0  00"
                                 " 0101 0000 0  0  1 1 01  0  00  0010 0001 0  0  01 00 01  1 1  0000000";
    static const uint8_t plain[8] = {1, 2, 50, 32, 31, 31, 64, 0};
    uint8_t form[32];
    size_t length = bytes_of(digits, form);

    give_inactive(1, 0, 1);
    memcpy(record_at(0), plain, sizeof plain);
    record_at(0)[SKRIEMELT_RECORD_DIVERGENCE] = record_at(0)[SKRIEMELT_RECORD_DIVERGENCE_MODE] = 1;
    given.trim[SKRIEMELT_TRIM_PRESENT] = given.trim[SKRIEMELT_TRIM_WARP_MODE] = 1;
    given.trim[SKRIEMELT_TRIM_GLOBAL_MODE] = SKRIEMELT_TRIM_MODE_DISABLE;
    given.trim[SKRIEMELT_TRIM_PER_OBJECT] = given.trim[SKRIEMELT_TRIM_FIXED] = 1;
    all_rooms(form, length, "object, extended and trim element");
    exact(form, length);
}

/* An LFE object and two dynamic ones, three blocks; the last dynamic object is active in block 1; every field of a trim element. */
static void give_valid(void)
{
    unsigned block;

    give_inactive(3, 1, 3);
    for (block = 0; block < 3; block++)
        given.timing.updates[block].start = (uint16_t)(7 + 32 * block);
    memcpy(record_at(7), heavy, sizeof heavy);
    memcpy(given.trim, every_trim, sizeof every_trim);
    give_times();
}

/* What the refused tables below are made from is read back as it was given. */
static void valid_tables(void)
{
    uint8_t payload[256], records[32 * 9], trim[97];
    skriemelt_write_answer a;
    skriemelt_read_answer back;

    give_valid();
    a = write_given(payload, sizeof payload);
    check(a.refusal == SKRIEMELT_ACCEPTED && a.place == 0 && a.length > 0, "valid tables");
    back = skriemelt_read(payload, a.length, given.frame, records, sizeof records, trim, sizeof trim);
    check(back.refusal == SKRIEMELT_ACCEPTED && back.unknown == 0, "valid tables, read back");
    check(back.programme.objects == 3 && back.programme.lfe == 1 && back.timing.blocks == 3 && back.timing.updates[2].start == 71, "their numbers");
    check(memcmp(records, given.records, sizeof records) == 0, "their records");
    check(memcmp(trim, given.trim, sizeof trim) == 0, "their trim table");
}

/* Three dynamic objects, without and with the reserved content flag. */
static void reserved_content(void)
{
    static const char digits[] = "00 00010  0 0100 00010  0 0000";
    uint8_t form[4];
    size_t length = bytes_of(digits, form);

    give_inactive(3, 0, 0);
    given.programme.dynonly = 0;
    given.programme.content = SKRIEMELT_CONTENT_DYNAMIC;
    given.programme.dynamics = 2;
    accepted(form, length, 0, MOST_ROOM, "three dynamic objects");
    given.programme.content |= SKRIEMELT_CONTENT_RESERVED;
    refused(SKRIEMELT_NOT_VALID, 0, MOST_ROOM, "the reserved content flag");
}

/* Changes one field of valid tables: refused with 10 and this place, before the room is looked at. */
#define BAD(place, change)                                           \
    do {                                                             \
        give_valid();                                                \
        change;                                                      \
        refused(SKRIEMELT_NOT_VALID, place, MOST_ROOM, #change);     \
        refused(SKRIEMELT_NOT_VALID, place, 0, #change " (no room)"); \
    } while (0)

static void bad_programmes(void)
{
    BAD(0, given.programme.objects = 0);
    BAD(0, given.programme.objects = 160);
    BAD(0, given.programme.dynonly = 2);
    BAD(0, given.programme.dynonly = 0);
    BAD(0, given.programme.lfe = 2);
    BAD(0, given.programme.content = SKRIEMELT_CONTENT_DYNAMIC);
    BAD(0, given.programme.distribute = 1);
    BAD(0, given.programme.multiple = 1);
    BAD(0, given.programme.instances = 1);
    BAD(0, given.programme.bedcount = 1);
    BAD(0, given.programme.isf = 1);
    BAD(0, given.programme.dynamics = 1);
    BAD(0, given.programme.beds[0].assignment = 1);
    BAD(0, given.programme.beds[8].assignment = 0x80000000u);
    BAD(0, given.programme.beds[8].lfeonly = 1);
    BAD(0, given.programme.beds[8].standard = 1);
}

static void bad_timings(void)
{
    BAD(0, given.timing.blocks = 9);
    BAD(0, given.timing.blocks = 255);
    BAD(0, given.timing.blocks = 2);
    BAD(0, given.timing.updates[0].start = 8);
    BAD(0, given.timing.updates[2].start = 2048 + 7);
    BAD(0, given.timing.updates[1].ramp = 2049);
    BAD(0, given.timing.updates[7].start = 7);
    BAD(0, given.timing.updates[7].ramp = 1);
    BAD(0, given.record_bytes = 32 * 9 - 1);
    BAD(0, given.record_bytes = 24 * 9);
    BAD(0, given.record_bytes = 0);
}

/* Records 0 to 2 are the LFE object's; record 7 alone is active. */
static void bad_records(void)
{
    BAD(1, record_at(0)[SKRIEMELT_RECORD_CLASS] = SKRIEMELT_CLASS_DYNAMIC);
    BAD(3, record_at(2)[SKRIEMELT_RECORD_CLASS] = SKRIEMELT_CLASS_ISF);
    BAD(4, record_at(3)[SKRIEMELT_RECORD_CLASS] = SKRIEMELT_CLASS_BED);
    BAD(5, record_at(4)[SKRIEMELT_RECORD_ACTIVE] = 2);
    BAD(2, record_at(1)[SKRIEMELT_RECORD_GAIN] = 50);
    BAD(5, record_at(4)[SKRIEMELT_RECORD_PRIORITY] = 32);
    BAD(6, record_at(5)[SKRIEMELT_RECORD_ELEVATION] = 0);
    BAD(9, record_at(8)[SKRIEMELT_RECORD_PRECISE_Z] = 1);
    BAD(8, record_at(7)[SKRIEMELT_RECORD_GAIN] = 66);
    BAD(8, record_at(7)[SKRIEMELT_RECORD_PRIORITY] = 33);
    BAD(8, record_at(7)[SKRIEMELT_RECORD_X] = 63);
    BAD(8, record_at(7)[SKRIEMELT_RECORD_Y] = 255);
    BAD(8, record_at(7)[SKRIEMELT_RECORD_Z] = 48);
    BAD(8, record_at(7)[SKRIEMELT_RECORD_Z] = 80);
    BAD(8, record_at(7)[SKRIEMELT_RECORD_DISTANCE] = 18);
    BAD(8, record_at(7)[SKRIEMELT_RECORD_HEIGHT] = 32);
    BAD(8, record_at(7)[SKRIEMELT_RECORD_ZONE] = 6);
    BAD(8, record_at(7)[SKRIEMELT_RECORD_SCREEN] = 0);
    BAD(8, record_at(7)[SKRIEMELT_RECORD_SNAP] = 2);
    BAD(8, record_at(7)[SKRIEMELT_RECORD_DIVERGENCE_MODE] = 1);
    BAD(8, (record_at(7)[SKRIEMELT_RECORD_DIVERGENCE] = 1, record_at(7)[SKRIEMELT_RECORD_DIVERGENCE_MODE] = 2));
    BAD(8, (record_at(7)[SKRIEMELT_RECORD_DIVERGENCE] = 1, record_at(7)[SKRIEMELT_RECORD_DIVERGENCE_MODE] = 3));
    BAD(8, record_at(7)[SKRIEMELT_RECORD_PRECISE] = 8);
    BAD(8, record_at(7)[SKRIEMELT_RECORD_PRECISE_X] = 1);
    BAD(2, (record_at(7)[SKRIEMELT_RECORD_ZONE] = 6, record_at(1)[SKRIEMELT_RECORD_SNAP] = 1));
}

/* The starts are 7, 39 and 71; the time of record 4 is that of block 1. A timing that is valid by itself may give other times than the records have. */
static void bad_times(void)
{
    unsigned byte;

    for (byte = SKRIEMELT_RECORD_TIME; byte < SKRIEMELT_RECORD_STRIDE; byte++) {
        BAD(1, record_at(0)[byte] ^= 1);
        BAD(5, record_at(4)[byte] ^= 0x80);
        BAD(9, record_at(8)[byte] ^= 0xFF);
    }
    BAD(1, given.frame = 1);
    BAD(1, given.frame = UINT32_MAX);
    BAD(5, skriemelt_set_time(record_at(4), 0, 7));
    BAD(5, skriemelt_set_time(record_at(4), 1, 39));
    BAD(5, memset(record_at(4) + SKRIEMELT_RECORD_TIME, 0, 8));
    BAD(2, given.timing.updates[1].start = 7);
    BAD(3, given.timing.updates[2].start = 2023);
}

/* The first record that is bad counts, by its own bytes or by its time; both come before the trim table. */
static void bad_records_and_times(void)
{
    BAD(3, (record_at(2)[SKRIEMELT_RECORD_GAIN] = 1, record_at(7)[SKRIEMELT_RECORD_TIME] ^= 1));
    BAD(3, (record_at(2)[SKRIEMELT_RECORD_TIME] ^= 1, record_at(7)[SKRIEMELT_RECORD_GAIN] = 66));
    BAD(8, (record_at(7)[SKRIEMELT_RECORD_TIME] ^= 1, record_at(7)[SKRIEMELT_RECORD_GAIN] = 66));
    BAD(1, (given.frame = 1, record_at(7)[SKRIEMELT_RECORD_GAIN] = 66));
    BAD(9, (record_at(8)[SKRIEMELT_RECORD_TIME] ^= 1, given.trim[SKRIEMELT_TRIM_PRESENT] = 2));
    BAD(0, (record_at(0)[SKRIEMELT_RECORD_TIME] ^= 1, given.timing.updates[7].ramp = 1));
    BAD(0, (record_at(0)[SKRIEMELT_RECORD_TIME] ^= 1, given.record_bytes = 32 * 9 - 1));
}

/* The payload does not depend on the frame. Records of frame 7 are not those of frame 8, and without blocks the frame is not looked at. */
static void frames(void)
{
    static const uint32_t numbers[5] = {1, 7, 8, 2796203, UINT32_MAX};
    uint8_t form[256], one[2] = {0x01, 0x00};
    skriemelt_write_answer a;
    size_t i;

    give_valid();
    a = write_given(form, sizeof form);
    check(a.refusal == SKRIEMELT_ACCEPTED, "valid tables in frame 0");
    for (i = 0; i < 5; i++) {
        given.frame = numbers[i];
        refused(SKRIEMELT_NOT_VALID, 1, MOST_ROOM, "the records of another frame");
        give_times();
        accepted(form, a.length, 0, MOST_ROOM, "the same payload in every frame");
    }
    record_at(1)[SKRIEMELT_RECORD_TIME]++;
    refused(SKRIEMELT_NOT_VALID, 2, MOST_ROOM, "the time of record 1");
    give_inactive(1, 0, 0);
    for (i = 0; i < 5; i++) {
        given.frame = numbers[i];
        accepted(one, 2, 0, 2, "no blocks, any frame");
    }
}

/* Nine records: a bad trim table has place 10. Configurations 0 to 8 are default, disabled, nothing, centre, surround, height, tb, lis, all of them. */
static void bad_trims(void)
{
    BAD(10, given.trim_bytes = 96);
    BAD(10, given.trim_bytes = 0);
    BAD(10, given.trim[SKRIEMELT_TRIM_PRESENT] = 0);
    BAD(10, given.trim[SKRIEMELT_TRIM_PRESENT] = 2);
    BAD(10, given.trim[SKRIEMELT_TRIM_WARP_MODE] = 2);
    BAD(10, given.trim[SKRIEMELT_TRIM_GLOBAL_MODE] = SKRIEMELT_TRIM_MODE_DEFAULT);
    BAD(10, given.trim[SKRIEMELT_TRIM_GLOBAL_MODE] = SKRIEMELT_TRIM_MODE_DISABLE);
    BAD(10, given.trim[SKRIEMELT_TRIM_GLOBAL_MODE] = 3);
    BAD(10, given.trim[SKRIEMELT_TRIM_PER_OBJECT] = 0);
    BAD(10, given.trim[SKRIEMELT_TRIM_PER_OBJECT] = 2);
    BAD(10, given.trim[SKRIEMELT_TRIM_FIXED + 2] = 2);
    BAD(10, config_at(0)[SKRIEMELT_TRIM_CONFIG_DEFAULT] = 2);
    BAD(10, config_at(0)[SKRIEMELT_TRIM_CONFIG_DISABLE] = 1);
    BAD(10, config_at(0)[SKRIEMELT_TRIM_CONFIG_CARRIED] = SKRIEMELT_TRIM_CARRIED_CENTRE);
    BAD(10, config_at(0)[SKRIEMELT_TRIM_CONFIG_AMOUNT_LIS] = 1);
    BAD(10, config_at(1)[SKRIEMELT_TRIM_CONFIG_DISABLE] = 2);
    BAD(10, config_at(1)[SKRIEMELT_TRIM_CONFIG_CARRIED] = SKRIEMELT_TRIM_CARRIED_TB);
    BAD(10, config_at(1)[SKRIEMELT_TRIM_CONFIG_CENTRE] = 1);
    BAD(10, config_at(2)[SKRIEMELT_TRIM_CONFIG_CARRIED] = 32);
    BAD(10, config_at(2)[SKRIEMELT_TRIM_CONFIG_CARRIED] = SKRIEMELT_TRIM_CARRIED_SURROUND);
    BAD(10, config_at(2)[SKRIEMELT_TRIM_CONFIG_CARRIED] = SKRIEMELT_TRIM_CARRIED_HEIGHT);
    BAD(10, config_at(2)[SKRIEMELT_TRIM_CONFIG_CENTRE] = 1);
    BAD(10, config_at(2)[SKRIEMELT_TRIM_CONFIG_SURROUND] = 4);
    BAD(10, config_at(2)[SKRIEMELT_TRIM_CONFIG_HEIGHT] = 4);
    BAD(10, config_at(2)[SKRIEMELT_TRIM_CONFIG_SIGN_TB] = 1);
    BAD(10, config_at(2)[SKRIEMELT_TRIM_CONFIG_AMOUNT_TB] = 1);
    BAD(10, config_at(2)[SKRIEMELT_TRIM_CONFIG_SIGN_LIS] = 1);
    BAD(10, config_at(2)[SKRIEMELT_TRIM_CONFIG_AMOUNT_LIS] = 1);
    BAD(10, config_at(3)[SKRIEMELT_TRIM_CONFIG_CENTRE] = 16);
    BAD(10, config_at(4)[SKRIEMELT_TRIM_CONFIG_SURROUND] = 3);
    BAD(10, config_at(4)[SKRIEMELT_TRIM_CONFIG_SURROUND] = 16);
    BAD(10, config_at(5)[SKRIEMELT_TRIM_CONFIG_HEIGHT] = 3);
    BAD(10, config_at(5)[SKRIEMELT_TRIM_CONFIG_HEIGHT] = 16);
    BAD(10, config_at(8)[SKRIEMELT_TRIM_CONFIG_SIGN_TB] = 2);
    BAD(10, config_at(8)[SKRIEMELT_TRIM_CONFIG_AMOUNT_TB] = 16);
    BAD(10, config_at(8)[SKRIEMELT_TRIM_CONFIG_SIGN_LIS] = 2);
    BAD(10, config_at(8)[SKRIEMELT_TRIM_CONFIG_AMOUNT_LIS] = 255);
    BAD(9, (given.trim[SKRIEMELT_TRIM_PRESENT] = 2, record_at(8)[SKRIEMELT_RECORD_ACTIVE] = 2));
    BAD(0, (given.trim[SKRIEMELT_TRIM_PRESENT] = 2, given.timing.updates[7].ramp = 1));
}

/* An active bed record may have a gain and a priority, and nothing more. */
static void bed_records(void)
{
    static const char digits[] = "00 00000  1 1  0 0001  0001 0011 0  0 00 000  000000 00  1  0 10 001111 0 00001 0  0";
    uint8_t form[16];
    size_t length = bytes_of(digits, form);

    give_inactive(1, 1, 1);
    record_at(0)[SKRIEMELT_RECORD_ACTIVE] = 1;
    record_at(0)[SKRIEMELT_RECORD_GAIN] = 49;
    record_at(0)[SKRIEMELT_RECORD_PRIORITY] = 1;
    all_rooms(form, length, "an active bed record");
    record_at(0)[SKRIEMELT_RECORD_X] = 30;
    refused(SKRIEMELT_NOT_VALID, 1, MOST_ROOM, "a bed record with a position");
}

/*
 * 159 objects and 8 blocks; in `firsts` objects block 0 is active, and `others` of the later blocks. The object element: 71 bits, 2 for an inactive record,
 * 67 for an active one of block 0, 72 for a later one. Its id and size take 19 bits, what stands before it 21: 5 bytes.
 */
static void give_many(size_t firsts, size_t others)
{
    size_t i;

    give_inactive(159, 0, 8);
    for (i = 0; i < 8 * 159; i++) {
        size_t *left = i % 8 == 0 ? &firsts : &others;
        if (*left > 0) {
            memcpy(record_at(i), heavy, sizeof heavy);
            --*left;
        }
    }
}

/* 71 + 2 * 1,272 + 65 * 12 + 70 * 419 = 32,725 bits are 4,091 bytes; 65 * 11 + 70 * 420 give 5 bits more: 4,092. */
static void limit(void)
{
    static uint8_t records[SKRIEMELT_MOST_RECORD_BYTES], trim[SKRIEMELT_MOST_TRIM_BYTES];
    uint8_t *payload = lent(lent_bytes, 0, 4096);
    skriemelt_write_answer a;
    skriemelt_read_answer back;

    give_many(12, 419);
    a = write_given(payload, 4096);
    check(a.refusal == SKRIEMELT_ACCEPTED && a.place == 0 && a.length == 4096, "a form of 4,096 bytes");
    check(untouched(lent_bytes, 0, 4096, 4096), "bytes around a form of 4,096 bytes");
    back = skriemelt_read(payload, 4096, given.frame, records, sizeof records, trim, sizeof trim);
    check(back.refusal == SKRIEMELT_ACCEPTED && memcmp(records, given.records, given.record_bytes) == 0, "a form of 4,096 bytes, read back");
    check(memcmp(trim, given.trim, given.trim_bytes) == 0, "a form of 4,096 bytes, its trim table");
    refused(SKRIEMELT_NO_FIT, 4096, 4095, "4,096 bytes, room for 4,095");
    give_many(11, 420);
    refused(SKRIEMELT_NO_FIT, 4097, 4096, "a form of 4,097 bytes");
    refused(SKRIEMELT_NO_FIT, 4097, MOST_ROOM, "a form of 4,097 bytes, room enough");
}

/*
 * Every field at its longest. Before the elements: 14 + 193 (nine empty beds, 159 dynamic objects) + 5 bits. The object element: 172 + 159 * (67 + 7 * 72)
 * bits, 11,371 bytes, behind 24 bits of id and size; the extended one: 3 + 1,272 * (9 + 10) bits, 3,022 bytes, behind 19; the trim element: 7 + 9 * 29 + 160
 * bits, 54 bytes, behind 14. Together 115,845 bits. Without the beds, dynamic objects only: 191 bits fewer.
 */
static void longest(void)
{
    static const uint8_t extension[7] = {1, 2, 63, 7, 3, 3, 3}, config[SKRIEMELT_TRIM_CONFIG_STRIDE] = {0, 0, 31, 15, 15, 15, 1, 15, 1, 15};
    size_t i;

    give_many(159, 7 * 159);
    memset(given.trim, 1, sizeof given.trim);
    given.trim[SKRIEMELT_TRIM_GLOBAL_MODE] = SKRIEMELT_TRIM_MODE_CUSTOM;
    for (i = 0; i < SKRIEMELT_TRIM_CONFIGS; i++)
        memcpy(config_at(i), config, sizeof config);
    for (i = 0; i < 8 * 159; i++)
        memcpy(record_at(i) + SKRIEMELT_RECORD_DIVERGENCE, extension, sizeof extension);
    for (i = 0; i < 8; i++)
        given.timing.updates[i].start = given.timing.updates[i].ramp = 1;
    give_times();
    refused(SKRIEMELT_NO_FIT, 14457, MOST_ROOM, "dynamic objects only");
    given.programme.dynonly = 0;
    given.programme.content = SKRIEMELT_CONTENT_BED | SKRIEMELT_CONTENT_DYNAMIC;
    given.programme.multiple = 1;
    given.programme.instances = 7;
    given.programme.bedcount = 9;
    given.programme.dynamics = 158;
    refused(SKRIEMELT_NO_FIT, 14481, MOST_ROOM, "the longest form");
    refused(SKRIEMELT_NO_FIT, 14481, 14481, "the longest form, as much room");
    refused(SKRIEMELT_NO_FIT, 14481, 0, "the longest form, no room");
    record_at(1271)[SKRIEMELT_RECORD_ZONE] = 6;
    refused(SKRIEMELT_NOT_VALID, 1272, MOST_ROOM, "the last of the most records");
    record_at(1271)[SKRIEMELT_RECORD_ZONE] = 5;
    given.trim[SKRIEMELT_MOST_TRIM_BYTES - 1] = 2;
    refused(SKRIEMELT_NOT_VALID, 1273, MOST_ROOM, "the last byte of the longest trim table");
}

int main(void)
{
    nulls();
    every_table();
    every_byte();
    every_trim_field();
    trim_last();
    bed_records();
    valid_tables();
    reserved_content();
    bad_programmes();
    bad_timings();
    bad_records();
    bad_times();
    bad_records_and_times();
    frames();
    bad_trims();
    limit();
    longest();
    return finish("test_writes");
}
