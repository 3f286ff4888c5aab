/*
 * serve: the library over standard input and output, for a program that cannot be linked to it (bench/compare on a machine that is not x86-64).
 *
 * Numbers have their lowest byte first, lengths and the skew 4 bytes; tables and answers are their fields in the header's order, without padding. What a
 * call looks at is sent as its length and its bytes, a list as its length and 8 bytes for each number, or 4 for each frame, a frame by itself as 4 bytes, a lent buffer as its
 * length, its skew and its bytes.
 *   request v                                                  answer: version
 *   request r, payload, frame, record buffer, trim buffer      answer: place, refusal, unknown, programme, timing, missing, the bytes of both buffers
 *   request b, store, starts, lengths, frames, both slot lengths (8 bytes each), buffers of records, trim tables and answers
 *                                                              answer: place, refusal, the bytes of the three buffers
 *   request s, store, starts, lengths                          answer: place, refusal, all counters
 *   request w, programme, timing, frame, records, trim, buffer answer: place, length, refusal, the bytes of the buffer
 *   request c, store, starts, lengths, frames, text buffer     answer: place, length (8 bytes), refusal, the bytes of the buffer
 *   request C, the same, with the buffer of the update before in front of the text buffer
 *                                                              answer: the same, the bytes of both buffers
 *   request t, text, buffers of lines and records              answer: place, frames and bytes (8 bytes each), refusal, the bytes of both buffers
 *   request T, text, buffers of the update before, lines and records
 *                                                              answer: the same, the bytes of the three buffers
 *   request y, payload, object, block and byte (4 bytes each)  answer: place, missing, refusal, count, all steps
 *   request S, payload, buffer                                 answer: place, missing, length, refusal, drops, all drops, the bytes of the buffer
 * A buffer is sent as it is lent and answered whole. It is lent at an address that leaves the remainder `skew` by 16, with canaries around it.
 * Exit status: 0 at the end of the input; 1 for a request that is not one, or a call that changed a canary or what it may only look at.
 */
#include "skriemelt.h"

#include <stdio.h>
#include <stdlib.h>
#include <string.h>

#define MOST 1048576
#define MOST_NUMBERS 65552 /* more than a summary takes */
#define SIDE 64
#define CANARY 0x5C

/* What a call looks at, and a copy of it. */
typedef struct given {
    uint8_t bytes[MOST], kept[MOST];
    size_t length;
} given;

/* A list that a call looks at, and a copy of it. */
typedef struct list {
    uint64_t numbers[MOST_NUMBERS], kept[MOST_NUMBERS];
    size_t length;
} list;

/* A list of frames, likewise. */
typedef struct frame_list {
    uint32_t numbers[MOST_NUMBERS], kept[MOST_NUMBERS];
    size_t length;
} frame_list;

/* A lent buffer, and the bytes in which it lies. */
typedef struct lent {
    uint8_t all[16 + SIDE + MOST + SIDE];
    uint8_t *bytes;
    size_t length;
} lent;

static void stop(const char *why)
{
    fprintf(stderr, "serve: %s\n", why);
    exit(1);
}

static void get_bytes(uint8_t *bytes, size_t count)
{
    if (fread(bytes, 1, count, stdin) != count)
        stop("the input ends within a request");
}

static uint64_t get_long(size_t bytes)
{
    uint8_t from[8];
    uint64_t value = 0;

    get_bytes(from, bytes);
    while (bytes-- > 0)
        value = value << 8 | from[bytes];
    return value;
}

static uint32_t get(size_t bytes)
{
    return (uint32_t)get_long(bytes);
}

static uint8_t get_byte(void)
{
    return (uint8_t)get(1);
}

static uint16_t get_half(void)
{
    return (uint16_t)get(2);
}

static void put(uint64_t value, size_t bytes)
{
    for (; bytes > 0; bytes--, value >>= 8)
        putchar((int)(value & 255));
}

static skriemelt_programme get_programme(void)
{
    skriemelt_programme p;
    size_t i;

    p.objects = get_byte();
    p.dynonly = get_byte();
    p.lfe = get_byte();
    p.content = get_byte();
    p.distribute = get_byte();
    p.multiple = get_byte();
    p.instances = get_byte();
    p.bedcount = get_byte();
    p.isf = get_byte();
    p.dynamics = get_byte();
    for (i = 0; i < SKRIEMELT_MOST_BEDS; i++) {
        p.beds[i].assignment = get(4);
        p.beds[i].lfeonly = get_byte();
        p.beds[i].standard = get_byte();
    }
    return p;
}

static skriemelt_timing get_timing(void)
{
    skriemelt_timing t;
    size_t i;

    t.blocks = get_byte();
    for (i = 0; i < SKRIEMELT_MOST_BLOCKS; i++) {
        t.updates[i].start = get_half();
        t.updates[i].ramp = get_half();
    }
    return t;
}

static void put_programme(const skriemelt_programme *p)
{
    size_t i;

    put(p->objects, 1);
    put(p->dynonly, 1);
    put(p->lfe, 1);
    put(p->content, 1);
    put(p->distribute, 1);
    put(p->multiple, 1);
    put(p->instances, 1);
    put(p->bedcount, 1);
    put(p->isf, 1);
    put(p->dynamics, 1);
    for (i = 0; i < SKRIEMELT_MOST_BEDS; i++) {
        put(p->beds[i].assignment, 4);
        put(p->beds[i].lfeonly, 1);
        put(p->beds[i].standard, 1);
    }
}

static void put_timing(const skriemelt_timing *t)
{
    size_t i;

    put(t->blocks, 1);
    for (i = 0; i < SKRIEMELT_MOST_BLOCKS; i++) {
        put(t->updates[i].start, 2);
        put(t->updates[i].ramp, 2);
    }
}

static size_t get_length(void)
{
    size_t length = get(4);

    if (length > MOST)
        stop("a length is too great");
    return length;
}

/* Takes what a call looks at. */
static void get_given(given *g)
{
    g->length = get_length();
    get_bytes(g->bytes, g->length);
    memcpy(g->kept, g->bytes, g->length);
}

/* Stops if the call has changed it. */
static void hold_given(const given *g)
{
    if (memcmp(g->bytes, g->kept, g->length) != 0)
        stop("what a call may only look at has changed");
}

static size_t get_list_length(void)
{
    size_t length = get_length();

    if (length > MOST_NUMBERS)
        stop("a list is too long");
    return length;
}

static void get_list(list *l)
{
    size_t i;

    l->length = get_list_length();
    for (i = 0; i < l->length; i++)
        l->numbers[i] = get_long(8);
    memcpy(l->kept, l->numbers, 8 * l->length);
}

static void hold_list(const list *l)
{
    if (memcmp(l->numbers, l->kept, 8 * l->length) != 0)
        stop("a list has changed");
}

static void get_frames(frame_list *l)
{
    size_t i;

    l->length = get_list_length();
    for (i = 0; i < l->length; i++)
        l->numbers[i] = get(4);
    memcpy(l->kept, l->numbers, 4 * l->length);
}

static void hold_frames(const frame_list *l)
{
    if (memcmp(l->numbers, l->kept, 4 * l->length) != 0)
        stop("the frames have changed");
}

/* Takes a lent buffer, and lays canaries around it. */
static void get_lent(lent *l)
{
    uint32_t skew;

    l->length = get_length();
    skew = get(4);
    if (skew > 15)
        stop("a skew is too great");
    l->bytes = l->all + SIDE;
    l->bytes += (16 + skew - (uintptr_t)l->bytes % 16) % 16;
    memset(l->bytes - SIDE, CANARY, SIDE);
    get_bytes(l->bytes, l->length);
    memset(l->bytes + l->length, CANARY, SIDE);
}

/* Answers a buffer, if the call has kept to it. */
static void put_lent(const lent *l)
{
    size_t i;

    for (i = 1; i <= SIDE; i++) {
        if (*(l->bytes - i) != CANARY || l->bytes[l->length + i - 1] != CANARY)
            stop("a byte beside a buffer has changed");
    }
    fwrite(l->bytes, 1, l->length, stdout);
}

static void serve_read(void)
{
    static given payload;
    static lent records, trim;
    uint32_t frame;
    skriemelt_read_answer a;

    get_given(&payload);
    frame = get(4);
    get_lent(&records);
    get_lent(&trim);
    a = skriemelt_read(payload.bytes, payload.length, frame, records.bytes, records.length, trim.bytes, trim.length);
    hold_given(&payload);
    put(a.place, 8);
    put(a.refusal, 1);
    put(a.unknown, 1);
    put_programme(&a.programme);
    put_timing(&a.timing);
    put(a.missing, 4);
    put_lent(&records);
    put_lent(&trim);
}

static void serve_batch(void)
{
    static given store;
    static list starts, lengths;
    static frame_list frames;
    static lent records, trims, answers;
    size_t record_slot, trim_slot;
    skriemelt_batch_answer a;

    get_given(&store);
    get_list(&starts);
    get_list(&lengths);
    get_frames(&frames);
    record_slot = get_long(8);
    trim_slot = get_long(8);
    get_lent(&records);
    get_lent(&trims);
    get_lent(&answers);
    a = skriemelt_read_batch(store.bytes, store.length, starts.numbers, starts.length, lengths.numbers, lengths.length, frames.numbers, frames.length,
                             record_slot, trim_slot, records.bytes, records.length, trims.bytes, trims.length, (skriemelt_read_answer *)(void *)answers.bytes, answers.length);
    hold_given(&store);
    hold_list(&starts);
    hold_list(&lengths);
    hold_frames(&frames);
    put(a.place, 8);
    put(a.refusal, 1);
    put_lent(&records);
    put_lent(&trims);
    put_lent(&answers);
}

static void put_counters(const uint32_t *counters, size_t count)
{
    size_t i;

    for (i = 0; i < count; i++)
        put(counters[i], 4);
}

static void serve_summary(void)
{
    static given store;
    static list starts, lengths;
    skriemelt_summary a;

    get_given(&store);
    get_list(&starts);
    get_list(&lengths);
    a = skriemelt_summarise(store.bytes, store.length, starts.numbers, starts.length, lengths.numbers, lengths.length);
    hold_given(&store);
    hold_list(&starts);
    hold_list(&lengths);
    put(a.place, 8);
    put(a.refusal, 1);
    put(a.records, 4);
    put_counters(a.gains, SKRIEMELT_GAINS);
    put_counters(a.zones, SKRIEMELT_ZONES);
    put_counters(a.classes, SKRIEMELT_CLASSES);
    put_counters(a.activity, SKRIEMELT_ACTIVITIES);
    put(a.late, 4);
    put(a.ramps, 4);
    put_counters(a.payloads, SKRIEMELT_PAYLOAD_ANSWERS);
}

/* Writes a catalogue, behind an update or with none before. */
static void serve_catalogue(int behind)
{
    static given store;
    static list starts, lengths;
    static frame_list frames;
    static lent before, text;
    skriemelt_catalogue_answer a;

    get_given(&store);
    get_list(&starts);
    get_list(&lengths);
    get_frames(&frames);
    if (behind)
        get_lent(&before);
    get_lent(&text);
    if (behind)
        a = skriemelt_catalogue_write_on(store.bytes, store.length, starts.numbers, starts.length, lengths.numbers, lengths.length, frames.numbers, frames.length,
                                         (skriemelt_catalogue_before *)(void *)before.bytes, before.length, text.bytes, text.length);
    else
        a = skriemelt_catalogue_write(store.bytes, store.length, starts.numbers, starts.length, lengths.numbers, lengths.length, frames.numbers, frames.length, text.bytes,
                                      text.length);
    hold_given(&store);
    hold_list(&starts);
    hold_list(&lengths);
    hold_frames(&frames);
    put(a.place, 8);
    put(a.length, 8);
    put(a.refusal, 1);
    if (behind)
        put_lent(&before);
    put_lent(&text);
}

/* Reads a catalogue back, behind an update or with none before. */
static void serve_back(int behind)
{
    static given text;
    static lent before, lines, records;
    skriemelt_back_answer a;

    get_given(&text);
    if (behind)
        get_lent(&before);
    get_lent(&lines);
    get_lent(&records);
    if (behind)
        a = skriemelt_catalogue_read_on(text.bytes, text.length, (skriemelt_catalogue_before *)(void *)before.bytes, before.length,
                                        (skriemelt_catalogue_frame *)(void *)lines.bytes, lines.length, records.bytes, records.length);
    else
        a = skriemelt_catalogue_read(text.bytes, text.length, (skriemelt_catalogue_frame *)(void *)lines.bytes, lines.length, records.bytes, records.length);
    hold_given(&text);
    put(a.place, 8);
    put(a.frames, 8);
    put(a.bytes, 8);
    put(a.refusal, 1);
    if (behind)
        put_lent(&before);
    put_lent(&lines);
    put_lent(&records);
}

static void serve_why(void)
{
    static given payload;
    uint32_t object, block, byte;
    skriemelt_why_answer a;
    size_t i;

    get_given(&payload);
    object = get(4);
    block = get(4);
    byte = get(4);
    a = skriemelt_why(payload.bytes, payload.length, object, block, byte);
    hold_given(&payload);
    put(a.place, 8);
    put(a.missing, 4);
    put(a.refusal, 1);
    put(a.count, 1);
    for (i = 0; i < SKRIEMELT_MOST_STEPS; i++) {
        put(a.steps[i].bit, 4);
        put(a.steps[i].object, 1);
        put(a.steps[i].block, 1);
        put(a.steps[i].value, 1);
        put(a.steps[i].source, 1);
        put(a.steps[i].field, 1);
        put(a.steps[i].difference, 1);
    }
}

static void serve_salvage(void)
{
    static given payload;
    static lent out;
    skriemelt_salvage_answer a;
    size_t i;

    get_given(&payload);
    get_lent(&out);
    a = skriemelt_salvage(payload.bytes, payload.length, out.bytes, out.length);
    hold_given(&payload);
    put(a.place, 8);
    put(a.missing, 4);
    put(a.length, 4);
    put(a.refusal, 1);
    put(a.drops, 1);
    for (i = 0; i < SKRIEMELT_MOST_DROPS; i++) {
        put(a.dropped[i].place, 4);
        put(a.dropped[i].id, 1);
        put(a.dropped[i].refusal, 1);
    }
    put_lent(&out);
}

static void serve_write(void)
{
    static given records, trim;
    static lent payload;
    skriemelt_programme programme = get_programme();
    skriemelt_timing timing = get_timing();
    uint32_t frame = get(4);
    skriemelt_write_answer a;

    get_given(&records);
    get_given(&trim);
    get_lent(&payload);
    a = skriemelt_write(programme, timing, frame, records.bytes, records.length, trim.bytes, trim.length, payload.bytes, payload.length);
    hold_given(&records);
    hold_given(&trim);
    put(a.place, 8);
    put(a.length, 4);
    put(a.refusal, 1);
    put_lent(&payload);
}

int main(void)
{
    static char in[2 * MOST], out[2 * MOST];
    int request;

    setvbuf(stdin, in, _IOFBF, sizeof in);
    setvbuf(stdout, out, _IOFBF, sizeof out);
    while ((request = getchar()) != EOF) {
        if (request == 'v')
            put(skriemelt_version(), 4);
        else if (request == 'r')
            serve_read();
        else if (request == 'b')
            serve_batch();
        else if (request == 's')
            serve_summary();
        else if (request == 'w')
            serve_write();
        else if (request == 'y')
            serve_why();
        else if (request == 'S')
            serve_salvage();
        else if (request == 'c' || request == 'C')
            serve_catalogue(request == 'C');
        else if (request == 't' || request == 'T')
            serve_back(request == 'T');
        else
            stop("an unknown request");
        if (fflush(stdout) != 0)
            stop("the answer cannot be written");
    }
    return 0;
}
