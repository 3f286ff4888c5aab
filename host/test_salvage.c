/*
 * skriemelt_salvage: payloads whose bits are counted by hand, up to 46 elements dropped, refusals and room; and the sample and every vector, as they are and with each bit changed in turn, against
 * reading: what is left is accepted, and salvaged again it stays.
 * Arguments: samples/three-objects.oamd, crates/vectors/data/payloads.
 */
#include "bits.h"
#include "lent.h"
#include "test.h"

#define MOST SKRIEMELT_MOST_PAYLOAD_BYTES

/* Version 0, one object, dynamic ones only, no LFE, no alternate ids: bits 0 to 9; the element count is next. */
#define HEAD "00 00000 1 0 0 "
/* Elements: id, size, and behind the spaces what the size counts, from the discard flag on. */
#define RESERVED "0001 0000 0  0 11 00000 "                             /* an object element whose sample offset code is 3: 17 bits */
#define OBJECT "0001 0010 0  0 00 000 000000 00 1 1 0 0000000 "         /* a good one, whose object is not active: 33 bits */
#define CUT "0001 0000 0  0 01 00 000 "                                 /* one whose block offset factor begins at its end: 17 bits */
#define EXTENDED "0101 0000 0  0 0 0 00000 "                            /* an extended element that holds nothing: 17 bits */
#define TRIM "0010 0001 0  0 01 00 00 1 1 0000000 "                     /* a trim element: 25 bits */
#define UNKNOWN "1001 0000 0  0 1010101 "                               /* id 9: 17 bits */

static int is_empty(const skriemelt_drop *d)
{
    return d->place == 0 && d->id == 0 && d->refusal == 0;
}

/* Whether the entries from drops on are 0. */
static int rest_is_empty(const skriemelt_salvage_answer *a)
{
    unsigned i;

    for (i = a->drops; i < SKRIEMELT_MOST_DROPS; i++) {
        if (!is_empty(&a->dropped[i]))
            return 0;
    }
    return 1;
}

/* The call, on a copy of just the payload's length, with room for so many bytes, filled and with canaries around; what is left is copied out. No byte changes but those of what is left. */
static skriemelt_salvage_answer salvage(const uint8_t *payload, size_t bytes, size_t room, uint8_t *left)
{
    static uint8_t all[SIDE + 1 + MOST + 64 + SIDE];
    uint8_t *copy = calloc(bytes ? bytes : 1, 1), *out = lent(all, 1, room);
    skriemelt_salvage_answer a;

    if (copy == NULL)
        exit(2);
    if (bytes > 0)
        memcpy(copy, payload, bytes);
    a = skriemelt_salvage(copy, bytes, out, room);
    check((bytes == 0 || memcmp(copy, payload, bytes) == 0) && a.length <= room && untouched(all, 1, room, a.length), "no byte changes but those of what is left");
    check(a.refusal == SKRIEMELT_ACCEPTED || (a.length == 0 && a.drops == 0), "a refusal leaves nothing");
    check(a.refusal == SKRIEMELT_PAST_PAYLOAD ? a.missing > 0 : a.missing == 0, "missing bits");
    check(a.drops <= SKRIEMELT_MOST_DROPS && rest_is_empty(&a), "entries past the drops are 0");
    memcpy(left, out, a.length);
    free(copy);
    return a;
}

static int is_accepted(const uint8_t *payload, size_t bytes)
{
    static uint8_t records[SKRIEMELT_MOST_RECORD_BYTES], trim[SKRIEMELT_MOST_TRIM_BYTES];

    return skriemelt_read(payload, bytes, 0, records, sizeof records, trim, sizeof trim).refusal == SKRIEMELT_ACCEPTED;
}

/* The payload is accepted, and comes back as it is, where there is room for it. */
static void stays(const uint8_t *payload, size_t bytes, const char *what)
{
    uint8_t left[MOST];
    skriemelt_salvage_answer a = salvage(payload, bytes, bytes, left);

    check(is_accepted(payload, bytes), what);
    check(a.refusal == SKRIEMELT_ACCEPTED && a.place == 0 && a.drops == 0 && a.length == bytes && memcmp(left, payload, bytes) == 0, what);
}

/* Drops as "place,id,refusal", one behind the other. */
static void lay_drops(char *text, size_t room, const skriemelt_salvage_answer *a)
{
    size_t at = 0;
    unsigned i;

    text[0] = '\0';
    for (i = 0; i < a->drops && at < room; i++)
        at += (size_t)snprintf(text + at, room - at, "%s%lu,%u,%u", i == 0 ? "" : " ", (unsigned long)a->dropped[i].place, a->dropped[i].id, a->dropped[i].refusal);
}

/* What is left of the payload, in more room than that takes, in just so much, and in a byte less; and once more. */
static void leaves(const uint8_t *payload, size_t bytes, const uint8_t *expected, size_t length, const char *drops)
{
    uint8_t left[MOST];
    char text[1000];
    size_t room;
    skriemelt_salvage_answer a;

    for (room = length; room <= length + 9; room += 9) {
        a = salvage(payload, bytes, room, left);
        lay_drops(text, sizeof text, &a);
        check(a.refusal == SKRIEMELT_ACCEPTED && a.place == 0 && strcmp(text, drops) == 0, drops);
        check(a.length == length && memcmp(left, expected, length) == 0, drops);
    }
    a = salvage(payload, bytes, length - 1, left);
    check(a.refusal == SKRIEMELT_NO_FIT && a.place == length, "a byte too little room");
    a = salvage(payload, bytes, 0, left);
    check(a.refusal == SKRIEMELT_NO_FIT && a.place == length, "no room");
    stays(expected, length, "what is left is accepted, and stays");
}

/* The same, with both payloads as digits. */
static void leaves_digits(const char *digits, const char *expected, const char *drops)
{
    static uint8_t payload[MOST], left[MOST];

    leaves(payload, bytes_of(digits, payload), left, bytes_of(expected, left), drops);
}

/* The payload is refused, whatever the room. */
static void refuses(const uint8_t *payload, size_t bytes, uint8_t refusal, uint64_t place, uint32_t missing, const char *what)
{
    uint8_t left[MOST];
    size_t room;
    skriemelt_salvage_answer a;

    for (room = 0; room <= MOST; room += MOST / 2) {
        a = salvage(payload, bytes, room, left);
        check(a.refusal == refusal && a.place == place && a.missing == missing, what);
    }
}

static void refuses_digits(const char *digits, uint8_t refusal, uint64_t place, uint32_t missing, const char *what)
{
    static uint8_t payload[MOST];

    refuses(payload, bytes_of(digits, payload), refusal, place, missing, what);
}

/* The worked payloads of crates/salvaging/specs/Worked.antt. */
static void worked(void)
{
    static const uint8_t reserved[4] = {0x01, 0x04, 0x40, 0xC1}, followed[10] = {0x01, 0x0C, 0x40, 0xC0, 0xA0, 0x00, 0x21, 0x10, 0xC0, 0x00};
    static const uint8_t cut[6] = {0x01, 0x08, 0x40, 0x41, 0x20, 0x00}, broken[4] = {0x01, 0x08, 0x40, 0xC0};

    leaves(reserved, 4, (const uint8_t *)"\x01\x02", 2, "24,1,5");
    leaves(followed, 10, (const uint8_t *)"\x01\x04\x84\x43\x00\x00", 6, "24,1,5 31,5,7");
    leaves(cut, 6, (const uint8_t *)"\x01\x06\x40\x00", 4, "31,1,8");
    refuses(broken, 4, SKRIEMELT_PAST_PAYLOAD, 31, 3, "an id that ends early, behind an element that is dropped");
}

/* Payloads as digits, whole bytes of them; the first bit of the elements is 14, and 19 with fifteen of them or more. */
static void counted(void)
{
    leaves_digits(HEAD "0001" RESERVED "1", HEAD "0000" "1", "24,1,5");
    leaves_digits(HEAD "0011" RESERVED EXTENDED TRIM "0000000", HEAD "0001" TRIM "0000000", "24,1,5 31,5,7");
    leaves_digits(HEAD "0010" CUT UNKNOWN, HEAD "0001" UNKNOWN, "31,1,8");
    leaves_digits(HEAD "0010" OBJECT OBJECT, HEAD "0001" OBJECT, "47,1,6");
    leaves_digits(HEAD "0011" RESERVED OBJECT EXTENDED "1010101", HEAD "0010" OBJECT EXTENDED "1010101", "24,1,5");
    leaves_digits(HEAD "0011" OBJECT RESERVED EXTENDED "0000000", HEAD "0010" OBJECT EXTENDED "0000000", "47,1,6");
    leaves_digits(HEAD "0100" TRIM EXTENDED OBJECT TRIM "111111", HEAD "0010" TRIM OBJECT "111111", "39,5,7 89,2,6");
    /* fifteen elements to fourteen: the count loses five bits, and 35 bytes become 33; sixteen to fifteen: none */
    leaves_digits(HEAD "1111 00000" RESERVED UNKNOWN UNKNOWN UNKNOWN UNKNOWN UNKNOWN UNKNOWN UNKNOWN UNKNOWN UNKNOWN UNKNOWN UNKNOWN UNKNOWN UNKNOWN UNKNOWN "000000",
                  HEAD "1110" UNKNOWN UNKNOWN UNKNOWN UNKNOWN UNKNOWN UNKNOWN UNKNOWN UNKNOWN UNKNOWN UNKNOWN UNKNOWN UNKNOWN UNKNOWN UNKNOWN "000000", "29,1,5");
    leaves_digits(HEAD "1111 00001" UNKNOWN RESERVED UNKNOWN UNKNOWN UNKNOWN UNKNOWN UNKNOWN UNKNOWN UNKNOWN UNKNOWN UNKNOWN UNKNOWN UNKNOWN UNKNOWN UNKNOWN UNKNOWN "00000",
                  HEAD "1111 00000" UNKNOWN UNKNOWN UNKNOWN UNKNOWN UNKNOWN UNKNOWN UNKNOWN UNKNOWN UNKNOWN UNKNOWN UNKNOWN UNKNOWN UNKNOWN UNKNOWN UNKNOWN "00000", "46,1,5");
}

/* An extended element that is refused behind a divergence: nothing of it shows in the records, and the next one counts. */
static void nothing_shows(void)
{
    static const char object[] = "0001 0111 0  0 00 001 000000 00 000001 00 1 0 11 1 000001 000010 1 0011 0 001 1 00 0 0 0 0 10 10 0 0000 "; /* two blocks: 73 bits */
    static const char refused[] = "0101 0001 0  0 1 1 00 11 1 11 000000 ";                                                                   /* the mode of block 1, bit 104, is 3 */
    static const char good[] = "0101 0001 0  0 1 0 1 10 000111 0 000 ";                                                                      /* block 1: mode 2, code 7 */
    static uint8_t payload[64], left[MOST], records[SKRIEMELT_MOST_RECORD_BYTES], trim[SKRIEMELT_MOST_TRIM_BYTES];
    char digits[400], expected[400];
    skriemelt_read_answer r;
    size_t n;

    snprintf(digits, sizeof digits, "%s0011 %s%s%s0000000", HEAD, object, refused, good);
    snprintf(expected, sizeof expected, "%s0010 %s%s0000000", HEAD, object, good);
    leaves_digits(digits, expected, "104,5,5");
    n = bytes_of(digits, payload);
    n = salvage(payload, n, n, left).length;
    r = skriemelt_read(left, n, 0, records, sizeof records, trim, sizeof trim);
    check(r.refusal == SKRIEMELT_ACCEPTED && r.timing.blocks == 2, "two blocks");
    check(memcmp(records + SKRIEMELT_RECORD_DIVERGENCE, "\0\0\0", 3) == 0, "nothing of the refused element");
    check(memcmp(records + SKRIEMELT_RECORD_STRIDE + SKRIEMELT_RECORD_DIVERGENCE, "\1\2\7", 3) == 0, "the divergence of the kept one");
}

/* As many elements as a payload can have, all dropped: 10 + 9 + 46 * 17 bits and 7 of padding. */
static void all_dropped(void)
{
    static char digits[2000] = HEAD "1111 11111";
    static uint8_t payload[200], left[MOST];
    skriemelt_salvage_answer a;
    size_t n;
    unsigned i;

    for (i = 0; i < SKRIEMELT_MOST_DROPS; i++)
        strcat(digits, EXTENDED);
    n = bytes_of(digits, payload);
    a = salvage(payload, n, 3, left);
    check(n == 101 && a.refusal == SKRIEMELT_ACCEPTED && a.drops == SKRIEMELT_MOST_DROPS && a.length == 3 && memcmp(left, "\1\0\0", 3) == 0, "46 elements are dropped");
    for (i = 0; i < a.drops; i++)
        check(a.dropped[i].place == 19 + 17 * i && a.dropped[i].id == SKRIEMELT_ELEMENT_EXTENDED && a.dropped[i].refusal == SKRIEMELT_EXTENDED_EARLY, "each where it stood");
}

static void refusals(void)
{
    static uint8_t longer[MOST + 1];
    skriemelt_salvage_answer a = skriemelt_salvage(NULL, 0, NULL, 0);

    check(a.refusal == SKRIEMELT_PAST_PAYLOAD && a.place == 0 && a.missing == 2 && a.length == 0 && a.drops == 0 && rest_is_empty(&a), "no payload and no buffer");
    refuses(longer, sizeof longer, SKRIEMELT_TOO_LONG, sizeof longer, 0, "too long");
    refuses(NULL, 0, SKRIEMELT_PAST_PAYLOAD, 0, 2, "no payload");
    refuses_digits("01 00000 0", SKRIEMELT_OTHER_VERSION, 0, 0, "another version");
    refuses_digits("00 00000 0 0000", SKRIEMELT_COUNTS_DISAGREE, 12, 0, "counts disagree");
    refuses_digits("00 00000 0 0010 110", SKRIEMELT_RESERVED_VALUE, 12, 0, "a reserved value in the program assignment");
    refuses_digits(HEAD "1111 00", SKRIEMELT_PAST_PAYLOAD, 14, 3, "the element count ends early");
    refuses_digits(HEAD "0001 00", SKRIEMELT_PAST_PAYLOAD, 14, 2, "an id ends early");
    refuses_digits(HEAD "0010" RESERVED "0010 0001 0 0 0000000", SKRIEMELT_PAST_PAYLOAD, 35, 8, "a size behind an element that is dropped");
    refuses_digits(HEAD "0011" OBJECT OBJECT, SKRIEMELT_PAST_PAYLOAD, 80, 4, "nothing is reported of a salvage that ends early");
}

static void bits_counted(void)
{
    uint8_t p[64];

    check(bytes_of(HEAD "0001" RESERVED "1", p) == 4 && memcmp(p, "\x01\x04\x40\xC1", 4) == 0, "the digits of the first worked payload");
    check(bytes_of(HEAD "0011" RESERVED EXTENDED TRIM "0000000", p) == 10 && memcmp(p, "\x01\x0C\x40\xC0\xA0\x00\x21\x10\xC0\x00", 10) == 0, "and of the second");
}

/* What a salvage of any payload comes to, by what its read does. */
static void one_payload(const uint8_t *p, size_t n)
{
    static uint8_t records[SKRIEMELT_MOST_RECORD_BYTES], trim[SKRIEMELT_MOST_TRIM_BYTES], left[MOST];
    skriemelt_read_answer r = skriemelt_read(p, n, 0, records, sizeof records, trim, sizeof trim);
    skriemelt_salvage_answer a = salvage(p, n, n < MOST ? n : MOST, left);
    unsigned i;

    if (r.refusal == SKRIEMELT_ACCEPTED) {
        stays(p, n, "an accepted payload comes back as it is");
        return;
    }
    if (a.refusal == SKRIEMELT_ACCEPTED) {
        check(a.drops > 0 && a.dropped[0].place == r.place && a.dropped[0].refusal == r.refusal, "the first drop is what a read refuses");
        check(a.length <= n, "what is left is not longer");
        for (i = 1; i < a.drops; i++)
            check(a.dropped[i].place >= a.dropped[i - 1].place, "the drops stand in their order");
        stays(left, a.length, "what is left is accepted, and stays");
        return;
    }
    if (r.refusal < SKRIEMELT_RESERVED_VALUE || a.refusal == SKRIEMELT_RESERVED_VALUE)
        check(a.refusal == r.refusal && a.place == r.place && a.missing == r.missing, "refused as a read is");
    else
        check(a.refusal == SKRIEMELT_PAST_PAYLOAD && a.place >= r.place, "a later reading ends early");
}

/* A payload as it is, and, if it is short, with each bit changed in turn. */
static void changed(const uint8_t *p, size_t n)
{
    uint8_t other[128];
    size_t bit;

    one_payload(p, n);
    if (n > sizeof other)
        return;
    for (bit = 0; bit < 8 * n; bit++) {
        memcpy(other, p, n);
        other[bit / 8] = (uint8_t)(other[bit / 8] ^ 0x80 >> bit % 8);
        one_payload(other, n);
    }
}

static size_t whole(const char *name, uint8_t *all, size_t room)
{
    FILE *file = fopen(name, "rb");
    size_t bytes;

    if (file == NULL) {
        perror(name);
        exit(2);
    }
    bytes = fread(all, 1, room, file);
    fclose(file);
    return bytes;
}

int main(int argc, char **argv)
{
    static uint8_t all[1 << 22];
    size_t bytes, at, n;

    if (argc != 3)
        return 2;
    bits_counted();
    worked();
    counted();
    nothing_shows();
    all_dropped();
    refusals();
    changed(all, whole(argv[1], all, sizeof all));
    bytes = whole(argv[2], all, sizeof all);
    for (at = 0; at + 2 <= bytes; at += 2 + n) {
        n = 256U * all[at] + all[at + 1];
        changed(all + at + 2, n);
    }
    return finish("test_salvage");
}
