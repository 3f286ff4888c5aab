/*
 * skriemelt_summarise: a segment worked out by hand, late blocks and ramps, refused payloads and refused calls, the most payloads and one more, every part of a store, and all vectors
 * against what is counted from the slots and answers of a batch.
 * Arguments: samples/three-objects.oamd, crates/vectors/data/payloads.
 */
#include "bits.h"
#include "test.h"

#define COUNTERS 93 /* all of a summary, records first */

/* The sample, and the four bytes of the requirements behind it. */
static uint8_t store[49];

/* What a call is given. */
typedef struct segment {
    const uint8_t *store;
    size_t store_bytes;
    const uint64_t *starts, *lengths;
    size_t starts_count, lengths_count;
} segment;

/* All counters of a summary in the header's order. */
static void counters_of(const skriemelt_summary *s, uint32_t *all)
{
    *all++ = s->records;
    memcpy(all, s->gains, sizeof s->gains);
    all += SKRIEMELT_GAINS;
    memcpy(all, s->zones, sizeof s->zones);
    all += SKRIEMELT_ZONES;
    memcpy(all, s->classes, sizeof s->classes);
    all += SKRIEMELT_CLASSES;
    memcpy(all, s->activity, sizeof s->activity);
    all += SKRIEMELT_ACTIVITIES;
    *all++ = s->late;
    *all++ = s->ramps;
    memcpy(all, s->payloads, sizeof s->payloads);
}

/* Field by field: what lies between them carries nothing. */
static int same(const skriemelt_summary *a, const skriemelt_summary *b)
{
    uint32_t of_a[COUNTERS], of_b[COUNTERS];

    counters_of(a, of_a);
    counters_of(b, of_b);
    return a->refusal == b->refusal && a->place == b->place && memcmp(of_a, of_b, sizeof of_a) == 0;
}

static uint64_t sum(const uint32_t *counters, size_t count)
{
    uint64_t all = 0;

    while (count > 0)
        all += counters[--count];
    return all;
}

/* The four sorts of counts add up to the records, and the payloads to their number. */
static int adds_up(const skriemelt_summary *s, size_t payloads)
{
    return sum(s->gains, SKRIEMELT_GAINS) == s->records && sum(s->zones, SKRIEMELT_ZONES) == s->records && sum(s->classes, SKRIEMELT_CLASSES) == s->records &&
           sum(s->activity, SKRIEMELT_ACTIVITIES) == s->records && sum(s->payloads, SKRIEMELT_PAYLOAD_ANSWERS) == payloads;
}

static skriemelt_summary empty(void)
{
    skriemelt_summary s;

    memset(&s, 0, sizeof s);
    return s;
}

/* A copy of its own, of just its length, so that the address sanitizer sees a step out of it. */
static void *copy_of(const void *from, size_t bytes)
{
    void *to = malloc(bytes ? bytes : 1);

    if (to == NULL)
        exit(2);
    if (bytes > 0)
        memcpy(to, from, bytes);
    return to;
}

/* The call; what it may only look at stays as it was. */
static skriemelt_summary call(const segment *s)
{
    uint8_t *bytes = copy_of(s->store, s->store_bytes);
    uint64_t *starts = copy_of(s->starts, 8 * s->starts_count), *lengths = copy_of(s->lengths, 8 * s->lengths_count);
    skriemelt_summary a = skriemelt_summarise(bytes, s->store_bytes, starts, s->starts_count, lengths, s->lengths_count);

    check(s->store_bytes == 0 || memcmp(bytes, s->store, s->store_bytes) == 0, "the store stays");
    check(s->starts_count == 0 || memcmp(starts, s->starts, 8 * s->starts_count) == 0, "the starts stay");
    check(s->lengths_count == 0 || memcmp(lengths, s->lengths, 8 * s->lengths_count) == 0, "the lengths stay");
    free(bytes);
    free(starts);
    free(lengths);
    return a;
}

/* The call is accepted, and counts what is expected. */
static void accepted(const segment *s, const skriemelt_summary *expected, const char *what)
{
    skriemelt_summary a = call(s);

    check(same(&a, expected), what);
    check(adds_up(&a, s->starts_count), what);
}

/* The whole call is refused, its place the number of starts, and nothing is counted. */
static void refused(const segment *s, uint8_t refusal, const char *what)
{
    skriemelt_summary a = call(s), expected = empty();

    expected.refusal = refusal;
    expected.place = s->starts_count;
    check(same(&a, &expected), what);
}

/* `times` the counts of the sample: as README.md lists its records. */
static skriemelt_summary samples(uint32_t times)
{
    skriemelt_summary s = empty();

    s.records = 6 * times;
    s.gains[50] = 3 * times;
    s.gains[62] = times;
    s.gains[0] = 2 * times;
    s.zones[0] = 6 * times;
    s.classes[SKRIEMELT_CLASS_BED] = 2 * times;
    s.classes[SKRIEMELT_CLASS_DYNAMIC] = 4 * times;
    s.activity[0] = times;
    s.activity[1] = 5 * times;
    s.payloads[SKRIEMELT_ACCEPTED] = times;
    return s;
}

/* The sample, the four bytes cut to three, the four bytes, which have no blocks; and in another order, repeated and overlapping. */
static void worked(void)
{
    static const uint64_t starts[3] = {0, 45, 45}, lengths[3] = {45, 3, 4};
    static const uint64_t other_starts[7] = {45, 0, 45, 0, 45, 0, 45}, other_lengths[7] = {4, 49, 3, 45, 0, 46, 4};
    segment s = {store, 49, starts, lengths, 3, 3}, other = {store, 49, other_starts, other_lengths, 7, 7};
    skriemelt_summary expected = samples(1);

    expected.payloads[SKRIEMELT_ACCEPTED] = 2;
    expected.payloads[SKRIEMELT_PAST_PAYLOAD] = 1;
    accepted(&s, &expected, "the sample and the four bytes");
    expected = samples(3);
    expected.payloads[SKRIEMELT_ACCEPTED] = 5;
    expected.payloads[SKRIEMELT_PAST_PAYLOAD] = 2;
    accepted(&other, &expected, "repeated and overlapping payloads");
}

/* No pointer at all where the length is 0. */
static void nothing(void)
{
    static const uint64_t zeros[2] = {0, 0}, ones[2] = {1, 1};
    segment s = {NULL, 0, zeros, zeros, 2, 2}, outside = {NULL, 0, zeros, ones, 2, 2};
    skriemelt_summary a = skriemelt_summarise(NULL, 0, NULL, 0, NULL, 0), expected = empty();

    check(same(&a, &expected), "nothing at all");
    a = skriemelt_summarise(store, 49, NULL, 0, NULL, 0);
    check(same(&a, &expected), "a store without payloads");
    expected.payloads[SKRIEMELT_PAST_PAYLOAD] = 2;
    accepted(&s, &expected, "empty payloads of no store");
    expected = empty();
    expected.payloads[SKRIEMELT_OUTSIDE] = 2;
    accepted(&outside, &expected, "payloads that no store has");
}

/* Payloads that leave the store, none of whose sums wraps around, and ones that are too long. */
static void outside(void)
{
    static const uint64_t starts[8] = {46, 49, 50, UINT64_MAX, 1, 45, UINT64_C(1) << 63, 0}, lengths[8] = {4, 0, 0, 1, UINT64_MAX, UINT64_MAX - 44, UINT64_C(1) << 63, 45};
    static const uint64_t zeros[5] = {0, 0, 0, 1, 0}, longest[5] = {4096, 4097, 5000, 5000, 5001};
    static uint8_t bytes[5000];
    segment s = {store, 49, starts, lengths, 8, 8}, of_longest = {bytes, sizeof bytes, zeros, longest, 5, 5};
    skriemelt_summary expected = samples(1);

    expected.payloads[SKRIEMELT_PAST_PAYLOAD] = 1;
    expected.payloads[SKRIEMELT_OUTSIDE] = 6;
    accepted(&s, &expected, "about the store's end");
    memcpy(bytes, store + 45, 4);
    expected = empty();
    expected.payloads[SKRIEMELT_ACCEPTED] = 1;
    expected.payloads[SKRIEMELT_TOO_LONG] = 2;
    expected.payloads[SKRIEMELT_OUTSIDE] = 2;
    accepted(&of_longest, &expected, "about the longest payload");
}

/* Lists of unequal length come first, then too many payloads; the most that are taken are all counted. */
static void limits(void)
{
    static uint64_t starts[SKRIEMELT_MOST_ENTRIES + 2], lengths[SKRIEMELT_MOST_ENTRIES + 2];
    segment s = {store, 49, starts, lengths, SKRIEMELT_MOST_ENTRIES, SKRIEMELT_MOST_ENTRIES};
    skriemelt_summary expected = samples(SKRIEMELT_MOST_ENTRIES);
    size_t i;

    for (i = 0; i < SKRIEMELT_MOST_ENTRIES + 2; i++)
        lengths[i] = 45;
    accepted(&s, &expected, "65,536 payloads");
    s.starts_count = SKRIEMELT_MOST_ENTRIES + 1;
    refused(&s, SKRIEMELT_LISTS, "65,537 starts and 65,536 lengths");
    s.lengths_count = SKRIEMELT_MOST_ENTRIES + 2;
    refused(&s, SKRIEMELT_LISTS, "65,537 starts and 65,538 lengths");
    s.lengths_count = SKRIEMELT_MOST_ENTRIES + 1;
    refused(&s, SKRIEMELT_TOO_MANY, "65,537 payloads");
    s.starts_count = SKRIEMELT_MOST_ENTRIES;
    refused(&s, SKRIEMELT_LISTS, "65,536 starts and 65,537 lengths");
    s.starts_count = 0;
    refused(&s, SKRIEMELT_LISTS, "no starts");
    s.starts_count = 3;
    s.lengths_count = 2;
    refused(&s, SKRIEMELT_LISTS, "a length is missing");
    s.lengths_count = 0;
    refused(&s, SKRIEMELT_LISTS, "no lengths");
}

/* Late blocks and ramps of one payload, given as digits, that is accepted and has so many inactive records of dynamic objects. */
static void one_timing(const char *digits, uint32_t records, uint32_t late, uint32_t ramps, const char *what)
{
    static const uint64_t zero = 0;
    uint8_t payload[64];
    uint64_t length = bytes_of(digits, payload);
    segment s = {payload, 0, &zero, &length, 1, 1};
    skriemelt_summary expected = empty();

    s.store_bytes = (size_t)length;
    expected.records = expected.gains[0] = expected.zones[0] = expected.classes[SKRIEMELT_CLASS_DYNAMIC] = expected.activity[0] = records;
    expected.late = late;
    expected.ramps = ramps;
    expected.payloads[SKRIEMELT_ACCEPTED] = 1;
    accepted(&s, &expected, what);
}

/* Head, id and size; discard flag, sample offset, blocks; factor and ramp of each block; no reserved data; the objects' blocks, each inactive and without additional data; padding. */
static void timings(void)
{
    one_timing("00 00000  1 0  0 0001  0001 0010 0  0  10 11111 000  101111 00  1  10  00", 1, 0, 0, "a start at sample 1,535");
    one_timing("00 00000  1 0  0 0001  0001 0010 0  0  00 000  110000 00  1  10  0000000", 1, 1, 0, "a start at sample 1,536");
    one_timing("00 00000  1 0  0 0001  0001 0010 0  0  10 11111 000  111111 00  1  10  00", 1, 1, 0, "a start at sample 2,047");
    one_timing("00 00000  1 0  0 0001  0001 0011 0  0  00 001  110000 01  111111 10  1  10 10  00000", 2, 2, 512 + 1536, "two late blocks with ramps");
    one_timing("00 00011  1 0  0 0001  0001 0101 0  0  00 001  101111 01  110000 10  1  10 10 10 10 10 10 10 10  0000000", 8, 1, 512 + 1536,
               "a block counts once, whatever its objects");
    one_timing("00 00000  1 0  0 0001  0001 0010 0  0  00 000  000000 11 1 1111  1  10  00", 1, 0, 2048, "the longest ramp");
    one_timing("00 00000  1 0  0 0001  0001 0011 0  0  00 000  000000 11 0 00000000011  1  10  000", 1, 0, 3, "a ramp of 3 samples");
}

/* The greatest sum of ramps, 2^30, and the most late blocks: 65,536 payloads, each with eight blocks that start at sample 1,536 and have ramps of 2,048. */
static void greatest(void)
{
#define LATE "110000 11 1 1111 "
    static const char digits[] = "00 00000  1 0  0 0001  0001 1111 0  0  00 111  " LATE LATE LATE LATE LATE LATE LATE LATE " 1  10 10 10 10 10 10 10 10  0000";
    static uint64_t starts[SKRIEMELT_MOST_ENTRIES], lengths[SKRIEMELT_MOST_ENTRIES];
    uint8_t payload[64];
    segment s = {payload, 0, starts, lengths, SKRIEMELT_MOST_ENTRIES, SKRIEMELT_MOST_ENTRIES};
    skriemelt_summary expected = empty();
    size_t i;

    s.store_bytes = bytes_of(digits, payload);
    for (i = 0; i < SKRIEMELT_MOST_ENTRIES; i++)
        lengths[i] = s.store_bytes;
    expected.records = expected.gains[0] = expected.zones[0] = expected.classes[SKRIEMELT_CLASS_DYNAMIC] = expected.activity[0] = expected.late = 8 * SKRIEMELT_MOST_ENTRIES;
    expected.ramps = UINT32_C(1) << 30;
    expected.payloads[SKRIEMELT_ACCEPTED] = SKRIEMELT_MOST_ENTRIES;
    accepted(&s, &expected, "the greatest sum of ramps");
}

/* A late payload with a ramp that ends early counts by its refusal alone. */
static void refused_payload(void)
{
    static const char digits[] = "00 00000  1 0  0 0001  0001 0010 0  0  00 000  110000 10  1  10  0000000";
    static const uint64_t starts[2] = {0, 0};
    uint8_t payload[64];
    uint64_t lengths[2];
    segment s = {payload, 0, starts, lengths, 2, 2};
    skriemelt_summary expected = empty();

    lengths[0] = s.store_bytes = bytes_of(digits, payload);
    lengths[1] = lengths[0] - 1;
    expected.records = expected.gains[0] = expected.zones[0] = expected.classes[SKRIEMELT_CLASS_DYNAMIC] = expected.activity[0] = expected.late = 1;
    expected.ramps = 1536;
    expected.payloads[SKRIEMELT_ACCEPTED] = expected.payloads[SKRIEMELT_PAST_PAYLOAD] = 1;
    accepted(&s, &expected, "a payload, and the same without its last byte");
}

/* Adds what a batch has answered for a payload. */
static void add(skriemelt_summary *s, const skriemelt_read_answer *a, const uint8_t *records)
{
    unsigned object, block;

    s->payloads[a->refusal]++;
    for (block = 0; block < a->timing.blocks; block++) {
        s->late += a->timing.updates[block].start >= SKRIEMELT_FRAME_SAMPLES;
        s->ramps += a->timing.updates[block].ramp;
        for (object = 0; object < a->programme.objects; object++) {
            const uint8_t *record = skriemelt_record(a, records, object, block);

            s->records++;
            s->gains[record[SKRIEMELT_RECORD_GAIN]]++;
            s->zones[record[SKRIEMELT_RECORD_ZONE]]++;
            s->classes[record[SKRIEMELT_RECORD_CLASS]]++;
            s->activity[record[SKRIEMELT_RECORD_ACTIVE]]++;
        }
    }
}

/* A segment against what is counted from the answers and slots of batches of it; the frames do not matter. */
static void as_batch(const segment *s, const char *what)
{
    static uint8_t records[100 * SKRIEMELT_MOST_RECORD_BYTES], trims[100 * SKRIEMELT_MOST_TRIM_BYTES];
    static skriemelt_read_answer answers[100];
    static const uint32_t frames[100] = {7, UINT32_MAX, 0};
    skriemelt_summary expected = empty();
    size_t at, i;

    for (at = 0; at < s->starts_count; at += 100) {
        size_t n = s->starts_count - at < 100 ? s->starts_count - at : 100;
        skriemelt_batch_answer a = skriemelt_read_batch(s->store, s->store_bytes, s->starts + at, n, s->lengths + at, n, frames, n, SKRIEMELT_MOST_RECORD_BYTES, SKRIEMELT_MOST_TRIM_BYTES,
                                                        records, sizeof records, trims, sizeof trims, answers, sizeof answers);

        check(a.refusal == SKRIEMELT_ACCEPTED, what);
        for (i = 0; i < n; i++)
            add(&expected, &answers[i], records + i * SKRIEMELT_MOST_RECORD_BYTES);
    }
    accepted(s, &expected, what);
}

/* Every part of the store, and parts that leave it: each start with each length, up to two bytes past the end. */
static void every_part(void)
{
    static uint64_t starts[52 * 52], lengths[52 * 52];
    segment s = {store, 49, starts, lengths, 52 * 52, 52 * 52};
    size_t i;

    for (i = 0; i < 52 * 52; i++) {
        starts[i] = i / 52;
        lengths[i] = i % 52;
    }
    as_batch(&s, "every part of the store");
}

/* The file of the vectors as the store: two bytes of length, the higher first, stand before each payload. All at once, and each by itself. */
static void vectors(const char *name)
{
    static uint8_t bytes[1 << 20];
    static uint64_t starts[1000], lengths[1000];
    FILE *file = fopen(name, "rb");
    segment s = {bytes, 0, starts, lengths, 0, 0};
    size_t at, n = 0, i;

    if (file == NULL)
        exit(2);
    s.store_bytes = fread(bytes, 1, sizeof bytes, file);
    fclose(file);
    for (at = 0; at < s.store_bytes && n < 1000; at += (size_t)lengths[n++] + 2) {
        starts[n] = at + 2;
        lengths[n] = 256 * (uint64_t)bytes[at] + bytes[at + 1];
    }
    check(n > 0 && n < 1000 && at == s.store_bytes, "the vectors' payloads");
    s.starts_count = s.lengths_count = n;
    as_batch(&s, "all vectors against a batch");
    for (i = 0; i < n; i++) {
        segment one = {bytes, s.store_bytes, starts + i, lengths + i, 1, 1};

        as_batch(&one, "a vector against a batch");
    }
}

int main(int argc, char **argv)
{
    static const uint8_t small[4] = {0x01, 0x07, 0xC1, 0x00};
    FILE *file = argc == 3 ? fopen(argv[1], "rb") : NULL;

    if (file == NULL || fread(store, 1, sizeof store, file) != 45) {
        fprintf(stderr, "usage: test_summary SAMPLE PAYLOADS\n");
        return 2;
    }
    fclose(file);
    memcpy(store + 45, small, sizeof small);
    nothing();
    worked();
    outside();
    limits();
    timings();
    greatest();
    refused_payload();
    every_part();
    vectors(argv[2]);
    return finish("test_summary");
}
