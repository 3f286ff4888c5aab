/*
 * skriemelt_read_batch: a shelf worked out by hand, every part of a store, refused entries and refused calls, lists and lengths near 2^64, and all vectors against single
 * reads, each entry in a frame of its own. Each buffer lies between canaries, and is held whole to what is expected of it: slots, answers with their padding, and what stands behind the last of them.
 * Arguments: samples/three-objects.oamd, crates/vectors/data/payloads.
 */
#include "lending.h"
#include "sample.h"

#define MOST_ENTRIES 8
#define ANSWER_BYTES 136

/* What is expected of an entry: one of the two accepted payloads, or a refusal. */
enum { REFUSED, SAMPLE, SMALL };

typedef struct entry {
    uint64_t start, length;
    int what;
    uint8_t refusal;
    uint64_t place;
    uint32_t missing;
} entry;

/* What a call is given, but for the buffers. */
typedef struct shelf {
    const uint8_t *store;
    size_t store_bytes;
    const uint64_t *starts, *lengths;
    const uint32_t *frames;
    size_t starts_count, lengths_count, frames_count, record_slot, trim_slot;
} shelf;

typedef struct buffers {
    lending records, trims, answers;
} buffers;

/* The sample, and the four bytes of the requirements behind it. */
static uint8_t store[49];

/* Buffers with these rooms; the answers stay aligned. */
static buffers lend_all(size_t skew, size_t records, size_t trims, size_t answers)
{
    buffers b;

    b.records = lend(skew, records);
    b.trims = lend((3 * skew + 1) % 9, trims);
    b.answers = lend(8 * (skew % 2), answers);
    return b;
}

static void give_back(buffers *b)
{
    give_one_back(&b->records);
    give_one_back(&b->trims);
    give_one_back(&b->answers);
}

/* The frames of the entries, in this order and over again. */
static uint32_t frame_of(size_t i)
{
    static const uint32_t frames[5] = {7, UINT32_MAX, 0, 2796203, 7};

    return frames[i % 5];
}

/* The call; what it may only look at stays as it was. */
static skriemelt_batch_answer call(const shelf *s, const buffers *b)
{
    uint8_t *bytes = copy_of(s->store, s->store_bytes);
    uint64_t *starts = copy_of(s->starts, 8 * s->starts_count), *lengths = copy_of(s->lengths, 8 * s->lengths_count);
    uint32_t *frames = copy_of(s->frames, 4 * s->frames_count);
    const lending *r = &b->records, *t = &b->trims, *p = &b->answers;
    skriemelt_batch_answer a = skriemelt_read_batch(
        bytes, s->store_bytes, starts, s->starts_count, lengths, s->lengths_count, frames, s->frames_count, s->record_slot, s->trim_slot, bytes_in(r), r->room,
        bytes_in(t), t->room, (skriemelt_read_answer *)(void *)bytes_in(p), p->room);

    check(s->store_bytes == 0 || memcmp(bytes, s->store, s->store_bytes) == 0, "the store stays");
    check(s->starts_count == 0 || memcmp(starts, s->starts, 8 * s->starts_count) == 0, "the starts stay");
    check(s->lengths_count == 0 || memcmp(lengths, s->lengths, 8 * s->lengths_count) == 0, "the lengths stay");
    check(s->frames_count == 0 || memcmp(frames, s->frames, 4 * s->frames_count) == 0, "the frames stay");
    free(bytes);
    free(starts);
    free(lengths);
    free(frames);
    return a;
}

/* The call is accepted, and leaves the buffers as it is expected of them. */
static void accepted(const shelf *s, buffers *b, const char *what)
{
    skriemelt_batch_answer a = call(s, b);

    check(a.refusal == SKRIEMELT_ACCEPTED && a.place == 0, what);
    hold(&b->records, what);
    hold(&b->trims, what);
    hold(&b->answers, what);
    give_back(b);
}

/* The whole call is refused with 13, its place the number of starts, and every buffer is as it came. */
static void refused(const shelf *s, buffers *b, const char *what)
{
    skriemelt_batch_answer a = call(s, b);

    check(a.refusal == SKRIEMELT_LISTS && a.place == s->starts_count, what);
    check(untouched(b->records.all, b->records.skew, b->records.room, 0), what);
    check(untouched(b->trims.all, b->trims.skew, b->trims.room, 0), what);
    check(untouched(b->answers.all, b->answers.skew, b->answers.room, 0), what);
    give_back(b);
}

/* What entry i leaves: all of its answer, and if it is accepted the first bytes of its slots. */
static void expect_entry(const buffers *b, const shelf *s, size_t i, const entry *e)
{
    uint8_t *answer = expect(&b->answers, ANSWER_BYTES * i);

    memset(answer, 0, ANSWER_BYTES);
    if (e->what == SAMPLE) {
        answer[12] = 3;
        answer[13] = answer[14] = 1;
        answer[96] = 2;
        answer[98 + 4] = 32;
        lay_sample(expect(&b->records, i * s->record_slot), s->frames[i]);
        memset(expect(&b->trims, i * s->trim_slot), 0, 97);
    } else if (e->what == SMALL) {
        answer[9] = answer[12] = answer[13] = 1;
        memset(expect(&b->trims, i * s->trim_slot), 0, 95);
    } else {
        lay(answer, e->place, 8);
        answer[8] = e->refusal;
        lay(answer + 132, e->missing, 4);
    }
}

/* A shelf of entries on a store, into exact buffers and into longer ones. */
static void shelf_of(const uint8_t *bytes, size_t count, const entry *entries, size_t n, size_t record_slot, size_t trim_slot, const char *what)
{
    uint64_t starts[MOST_ENTRIES], lengths[MOST_ENTRIES];
    uint32_t frames[MOST_ENTRIES];
    shelf s = {NULL, 0, NULL, NULL, NULL, 0, 0, 0, 0, 0};
    size_t skew, i;

    for (i = 0; i < n; i++) {
        starts[i] = entries[i].start;
        lengths[i] = entries[i].length;
        frames[i] = frame_of(i);
    }
    s.store = bytes;
    s.store_bytes = count;
    s.starts = starts;
    s.lengths = lengths;
    s.frames = frames;
    s.starts_count = s.lengths_count = s.frames_count = n;
    s.record_slot = record_slot;
    s.trim_slot = trim_slot;
    for (skew = 0; skew < 18; skew++) {
        size_t more = skew / 9 * 40;
        buffers b = lend_all(skew % 9, n * record_slot + more, n * trim_slot + 3 * more, n * ANSWER_BYTES + 5 * more);
        for (i = 0; i < n; i++)
            expect_entry(&b, &s, i, &entries[i]);
        accepted(&s, &b, what);
    }
}

/* The sample, the four bytes cut to three, the four bytes: with slots that suffice for all, longer ones, and ones that are short for some. */
static void worked(void)
{
    static const entry enough[3] = {{0, 45, SAMPLE, 0, 0, 0}, {45, 3, REFUSED, SKRIEMELT_PAST_PAYLOAD, 18, 7}, {45, 4, SMALL, 0, 0, 0}};
    static const entry no_records[3] = {{0, 45, REFUSED, SKRIEMELT_NO_ROOM, 192, 0}, {45, 3, REFUSED, SKRIEMELT_PAST_PAYLOAD, 18, 7}, {45, 4, SMALL, 0, 0, 0}};
    static const entry no_trim[3] = {{0, 45, REFUSED, SKRIEMELT_NO_ROOM, 97, 0}, {45, 3, REFUSED, SKRIEMELT_PAST_PAYLOAD, 18, 7}, {45, 4, REFUSED, SKRIEMELT_NO_ROOM, 95, 0}};
    static const entry one_trim[3] = {{0, 45, REFUSED, SKRIEMELT_NO_ROOM, 97, 0}, {45, 3, REFUSED, SKRIEMELT_PAST_PAYLOAD, 18, 7}, {45, 4, SMALL, 0, 0, 0}};
    static const entry nothing[3] = {{0, 45, REFUSED, SKRIEMELT_NO_ROOM, 192, 0}, {45, 3, REFUSED, SKRIEMELT_PAST_PAYLOAD, 18, 7}, {45, 4, REFUSED, SKRIEMELT_NO_ROOM, 95, 0}};

    shelf_of(store, 49, enough, 3, 192, 97, "slots that suffice");
    shelf_of(store, 49, enough, 3, 193, 98, "slots one byte longer");
    shelf_of(store, 49, enough, 3, SKRIEMELT_MOST_RECORD_BYTES, SKRIEMELT_MOST_TRIM_BYTES, "the longest slots");
    shelf_of(store, 49, no_records, 3, 191, 97, "record slots one byte short");
    shelf_of(store, 49, no_records, 3, 0, 97, "record slots of no length");
    shelf_of(store, 49, one_trim, 3, 192, 96, "trim slots one byte short");
    shelf_of(store, 49, one_trim, 3, 192, 95, "trim slots that suffice for one object");
    shelf_of(store, 49, no_trim, 3, 192, 94, "trim slots that are short for all");
    shelf_of(store, 49, no_trim, 3, 192, 0, "trim slots of no length");
    shelf_of(store, 49, nothing, 3, 191, 94, "both slots one byte short: records first");
    shelf_of(store, 49, nothing, 3, 0, 0, "slots of no length");
}

/* Entries that leave the store, among others; none of the sums wraps around. */
static void outside(void)
{
    static const entry some[5] = {{46, 4, REFUSED, SKRIEMELT_OUTSIDE, 46, 0},
                                  {49, 0, REFUSED, SKRIEMELT_PAST_PAYLOAD, 0, 2},
                                  {50, 0, REFUSED, SKRIEMELT_OUTSIDE, 50, 0},
                                  {UINT64_MAX, 1, REFUSED, SKRIEMELT_OUTSIDE, UINT64_MAX, 0},
                                  {45, 4, SMALL, 0, 0, 0}};
    static const entry great[8] = {{0, UINT64_MAX, REFUSED, SKRIEMELT_OUTSIDE, 0, 0},
                                   {1, UINT64_MAX, REFUSED, SKRIEMELT_OUTSIDE, 1, 0},
                                   {45, UINT64_MAX - 44, REFUSED, SKRIEMELT_OUTSIDE, 45, 0},
                                   {49, UINT64_MAX - 44, REFUSED, SKRIEMELT_OUTSIDE, 49, 0},
                                   {UINT64_MAX, 0, REFUSED, SKRIEMELT_OUTSIDE, UINT64_MAX, 0},
                                   {UINT64_MAX - 3, 8, REFUSED, SKRIEMELT_OUTSIDE, UINT64_MAX - 3, 0},
                                   {UINT64_C(1) << 63, UINT64_C(1) << 63, REFUSED, SKRIEMELT_OUTSIDE, UINT64_C(1) << 63, 0},
                                   {UINT64_C(1) << 32, 45, REFUSED, SKRIEMELT_OUTSIDE, UINT64_C(1) << 32, 0}};

    shelf_of(store, 49, some, 5, 192, 97, "about the store's end");
    shelf_of(store, 49, great, 8, 192, 97, "starts and lengths near 2^64");
    shelf_of(store, 49, great, 8, 0, 0, "starts and lengths near 2^64, slots of no length");
}

/* Payloads that repeat and overlap, in any order; bytes behind a payload change nothing. */
static void repeated(void)
{
    static const entry some[8] = {{45, 4, SMALL, 0, 0, 0},  {0, 45, SAMPLE, 0, 0, 0}, {0, 45, SAMPLE, 0, 0, 0}, {0, 49, SAMPLE, 0, 0, 0},
                                  {45, 4, SMALL, 0, 0, 0},  {0, 46, SAMPLE, 0, 0, 0}, {45, 0, REFUSED, SKRIEMELT_PAST_PAYLOAD, 0, 2},
                                  {0, 45, SAMPLE, 0, 0, 0}};

    shelf_of(store, 49, some, 8, 192, 97, "repeated and overlapping payloads");
    shelf_of(store, 49, some, 8, 200, 253, "repeated and overlapping payloads, longer slots");
}

/* A payload that is too long, inside a store and leaving it. */
static void too_long(void)
{
    static uint8_t bytes[5000];
    static const entry some[5] = {{0, 4096, SMALL, 0, 0, 0},
                                  {0, 4097, REFUSED, SKRIEMELT_TOO_LONG, 4097, 0},
                                  {0, 5000, REFUSED, SKRIEMELT_TOO_LONG, 5000, 0},
                                  {1, 5000, REFUSED, SKRIEMELT_OUTSIDE, 1, 0},
                                  {0, 5001, REFUSED, SKRIEMELT_OUTSIDE, 0, 0}};

    memcpy(bytes, store + 45, 4);
    shelf_of(bytes, sizeof bytes, some, 5, 192, 97, "about the longest payload");
}

/* No pointer at all where the length is 0. */
static void nulls(void)
{
    static const uint64_t zeros[2] = {0, 0};
    static const uint32_t frame = 7;
    static const entry none[1] = {{0, 0, REFUSED, SKRIEMELT_PAST_PAYLOAD, 0, 2}}, no_store[2] = {{0, 1, REFUSED, SKRIEMELT_OUTSIDE, 0, 0}, {1, 0, REFUSED, SKRIEMELT_OUTSIDE, 1, 0}};
    skriemelt_read_answer place;
    skriemelt_batch_answer a = skriemelt_read_batch(NULL, 0, NULL, 0, NULL, 0, NULL, 0, 0, 0, NULL, 0, NULL, 0, NULL, 0);

    check(a.refusal == SKRIEMELT_ACCEPTED && a.place == 0, "nothing at all");
    a = skriemelt_read_batch(NULL, 0, NULL, 0, NULL, 0, NULL, 0, SIZE_MAX, SIZE_MAX, NULL, 0, NULL, 0, NULL, 0);
    check(a.refusal == SKRIEMELT_ACCEPTED && a.place == 0, "no entry takes no room, however long a slot is");
    memset(&place, 0x5A, sizeof place);
    a = skriemelt_read_batch(NULL, 0, zeros, 1, zeros, 1, &frame, 1, 0, 0, NULL, 0, NULL, 0, &place, sizeof place);
    check(a.refusal == SKRIEMELT_ACCEPTED && a.place == 0, "no store, no slots");
    check(place.refusal == SKRIEMELT_PAST_PAYLOAD && place.place == 0 && place.missing == 2 && place.programme.objects == 0, "an empty payload of no store");
    a = skriemelt_read_batch(NULL, 0, zeros, 1, zeros, 1, &frame, 1, 0, 0, NULL, 0, NULL, 0, NULL, 0);
    check(a.refusal == SKRIEMELT_LISTS && a.place == 1, "no answers");
    a = skriemelt_read_batch(NULL, 0, NULL, 0, zeros, 1, NULL, 0, 0, 0, NULL, 0, NULL, 0, NULL, 0);
    check(a.refusal == SKRIEMELT_LISTS && a.place == 0, "a length and no start");
    a = skriemelt_read_batch(NULL, 0, zeros, 2, NULL, 0, NULL, 0, 0, 0, NULL, 0, NULL, 0, NULL, 0);
    check(a.refusal == SKRIEMELT_LISTS && a.place == 2, "two starts and no length");
    a = skriemelt_read_batch(NULL, 0, NULL, 0, NULL, 0, &frame, 1, 0, 0, NULL, 0, NULL, 0, NULL, 0);
    check(a.refusal == SKRIEMELT_LISTS && a.place == 0, "a frame and no start");
    a = skriemelt_read_batch(NULL, 0, zeros, 1, zeros, 1, NULL, 0, 0, 0, NULL, 0, NULL, 0, &place, sizeof place);
    check(a.refusal == SKRIEMELT_LISTS && a.place == 1, "a start and no frame");
    shelf_of(store, 0, none, 1, 192, 97, "an empty store");
    shelf_of(store, 0, no_store, 2, 192, 97, "entries that leave an empty store");
    shelf_of(store, 49, none, 0, 192, 97, "no entry: every byte stays");
}

/* Lists and rooms of a call that must be refused. */
typedef struct bad {
    size_t starts, lengths, frames, record_slot, trim_slot, records, trims, answers;
    const char *what;
} bad;

/* 3 * WRAPS is 2^64 + 2, and 2 * HALF is 2^64. */
#define WRAPS ((size_t)6148914691236517206u)
#define HALF ((size_t)1 << 63)

static const bad bad_lists[] = {
    {3, 2, 3, 192, 97, 576, 291, 408, "three starts, two lengths"},
    {3, 4, 3, 192, 97, 576, 291, 408, "three starts, four lengths"},
    {2, 3, 2, 192, 97, 576, 291, 408, "two starts, three lengths"},
    {0, 3, 0, 192, 97, 576, 291, 408, "no start, three lengths"},
    {3, 0, 3, 192, 97, 576, 291, 408, "three starts, no length"},
    {3, 3, 2, 192, 97, 576, 291, 408, "three starts, two frames"},
    {3, 3, 4, 192, 97, 576, 291, 408, "three starts, four frames"},
    {3, 3, 0, 192, 97, 576, 291, 408, "three starts, no frame"},
    {0, 0, 1, 192, 97, 576, 291, 408, "no start, one frame"},
    {3, 2, 2, 192, 97, 576, 291, 408, "three starts, two of the others"},
    {3, 2, 4, 192, 97, 576, 291, 408, "three lists of three lengths"},
    {3, 3, 3, 192, 97, 575, 291, 408, "one record byte too few"},
    {3, 3, 3, 192, 97, 0, 291, 408, "no record bytes"},
    {3, 3, 3, 193, 97, 576, 291, 408, "record slots one byte too long"},
    {3, 3, 3, 192, 97, 576, 290, 408, "one trim byte too few"},
    {3, 3, 3, 192, 97, 576, 0, 408, "no trim bytes"},
    {3, 3, 3, 192, 98, 576, 291, 408, "trim slots one byte too long"},
    {3, 3, 3, 192, 97, 576, 291, 407, "one answer byte too few"},
    {3, 3, 3, 192, 97, 576, 291, 272, "one answer too few"},
    {3, 3, 3, 192, 97, 576, 291, 0, "no answers"},
    {3, 3, 3, 0, 0, 0, 0, 407, "slots of no length, answers too short"},
    {3, 3, 3, HALF, 97, 10, 291, 408, "record slots of 2^63"},
    {3, 3, 3, WRAPS, 97, 10, 291, 408, "record slots that wrap around"},
    {3, 3, 3, 192, WRAPS, 576, 10, 408, "trim slots that wrap around"},
    {2, 2, 2, HALF, 97, 0, 291, 408, "record slots that wrap around to 0"},
    {2, 2, 2, 192, HALF, 576, 0, 408, "trim slots that wrap around to 0"},
    {3, 3, 3, SIZE_MAX, SIZE_MAX, 576, 291, 408, "the longest slots of all"},
    {4, 3, 4, 193, 98, 575, 290, 407, "all of it"},
};

static void lists(void)
{
    static const uint64_t starts[4] = {0, 45, 45, 0}, lengths[4] = {45, 3, 4, 45};
    static const uint32_t frames[4] = {7, 8, 9, 10};
    size_t i;

    for (i = 0; i < sizeof bad_lists / sizeof bad_lists[0]; i++) {
        const bad *x = &bad_lists[i];
        shelf s = {store, 49, starts, lengths, frames, 0, 0, 0, 0, 0};
        buffers b = lend_all(i % 9, x->records, x->trims, x->answers);
        s.starts_count = x->starts;
        s.lengths_count = x->lengths;
        s.frames_count = x->frames;
        s.record_slot = x->record_slot;
        s.trim_slot = x->trim_slot;
        refused(&s, &b, x->what);
    }
}

/* All bytes of an answer's place, from the fields of one by value. */
static void lay_answer(uint8_t *to, const skriemelt_read_answer *a)
{
    const skriemelt_programme *p = &a->programme;
    const uint8_t fields[10] = {p->objects, p->dynonly, p->lfe, p->content, p->distribute, p->multiple, p->instances, p->bedcount, p->isf, p->dynamics};
    size_t k;

    memset(to, 0, ANSWER_BYTES);
    lay(to, a->place, 8);
    to[8] = a->refusal;
    to[9] = a->unknown;
    memcpy(to + 12, fields, sizeof fields);
    for (k = 0; k < SKRIEMELT_MOST_BEDS; k++) {
        lay(to + 24 + 8 * k, p->beds[k].assignment, 4);
        to[28 + 8 * k] = p->beds[k].lfeonly;
        to[29 + 8 * k] = p->beds[k].standard;
    }
    to[96] = a->timing.blocks;
    for (k = 0; k < SKRIEMELT_MOST_BLOCKS; k++) {
        lay(to + 98 + 4 * k, a->timing.updates[k].start, 2);
        lay(to + 100 + 4 * k, a->timing.updates[k].ramp, 2);
    }
    lay(to + 132, a->missing, 4);
}

/* A shelf against single reads of its entries, each into its slots as they are lent. */
static void as_single_reads(const shelf *s, const char *what)
{
    size_t n = s->starts_count, i;
    buffers b = lend_all(n % 9, n * s->record_slot + 50, n * s->trim_slot + 50, n * ANSWER_BYTES + 50);

    for (i = 0; i < n; i++) {
        uint8_t *answer = expect(&b.answers, ANSWER_BYTES * i);
        skriemelt_read_answer a;
        if (s->starts[i] > s->store_bytes || s->lengths[i] > s->store_bytes - s->starts[i]) {
            memset(answer, 0, ANSWER_BYTES);
            lay(answer, s->starts[i], 8);
            answer[8] = SKRIEMELT_OUTSIDE;
            continue;
        }
        a = skriemelt_read(s->store + s->starts[i], s->lengths[i], s->frames[i], expect(&b.records, i * s->record_slot), s->record_slot,
                           expect(&b.trims, i * s->trim_slot), s->trim_slot);
        lay_answer(answer, &a);
    }
    accepted(s, &b, what);
}

/* Every part of the store, and parts that leave it, all in one call: each start with each length, up to two bytes past the end. */
static void every_part(void)
{
    static uint64_t starts[52 * 52], lengths[52 * 52];
    static uint32_t frames[52 * 52];
    static const size_t slots[4][2] = {{192, 97}, {191, 97}, {192, 95}, {0, 0}};
    shelf s = {store, 49, starts, lengths, frames, 52 * 52, 52 * 52, 52 * 52, 0, 0};
    size_t i;

    for (i = 0; i < 52 * 52; i++) {
        starts[i] = i / 52;
        lengths[i] = i % 52;
        frames[i] = frame_of(i);
    }
    for (i = 0; i < 4; i++) {
        s.record_slot = slots[i][0];
        s.trim_slot = slots[i][1];
        as_single_reads(&s, "every part of the store");
    }
}

/* The file of the vectors as the store: two bytes of length, the higher first, stand before each payload. */
static void vectors(const char *name)
{
    static uint8_t bytes[1 << 20];
    static uint64_t starts[1000], lengths[1000];
    static uint32_t frames[1000];
    static const size_t slots[4][2] = {{SKRIEMELT_MOST_RECORD_BYTES, SKRIEMELT_MOST_TRIM_BYTES}, {640, 97}, {130, 253}, {0, 0}};
    FILE *file = fopen(name, "rb");
    shelf s = {bytes, 0, starts, lengths, frames, 0, 0, 0, 0, 0};
    size_t at, n = 0, i;

    if (file == NULL)
        exit(2);
    s.store_bytes = fread(bytes, 1, sizeof bytes, file);
    fclose(file);
    for (at = 0; at < s.store_bytes && n < 1000; at += (size_t)lengths[n++] + 2) {
        starts[n] = at + 2;
        lengths[n] = 256 * (uint64_t)bytes[at] + bytes[at + 1];
        frames[n] = frame_of(n);
    }
    check(n > 0 && n < 1000 && at == s.store_bytes, "the vectors' payloads");
    s.starts_count = s.lengths_count = s.frames_count = n;
    for (i = 0; i < 4; i++) {
        s.record_slot = slots[i][0];
        s.trim_slot = slots[i][1];
        as_single_reads(&s, "all vectors against single reads");
    }
}

int main(int argc, char **argv)
{
    static const uint8_t small[4] = {0x01, 0x07, 0xC1, 0x00};
    FILE *file = argc == 3 ? fopen(argv[1], "rb") : NULL;

    if (file == NULL || fread(store, 1, sizeof store, file) != 45) {
        fprintf(stderr, "usage: test_batch SAMPLE PAYLOADS\n");
        return 2;
    }
    fclose(file);
    memcpy(store + 45, small, sizeof small);
    nulls();
    worked();
    outside();
    repeated();
    too_long();
    lists();
    every_part();
    vectors(argv[2]);
    return finish("test_batch");
}
