/*
 * Every vector of crates/vectors/data/payloads through skriemelt_read with frame 0, printed as the listing program prints it and with a line for a trim table that is
 * not all 0, against crates/vectors/stdout; the tables of each accepted one through skriemelt_write, against crates/vectors/data/written, and read back. The same in the last
 * frame of all: other times, the same form.
 * Arguments: the payloads, the expected lines, the written forms. The last file has an entry for each payload, in the same order: two bytes of length and
 * the form; the length is 0 where the payload is refused, has the reserved content flag set, or has a form of more than 4,096 bytes.
 */
#include "test.h"

#include <stdarg.h>

static char *text;
static size_t text_bytes, text_room;

/* Appends to the text. */
static void say(const char *form, ...)
{
    va_list list;
    int n;

    if (text_room - text_bytes < 256) {
        text_room = 2 * text_room + 4096;
        text = realloc(text, text_room);
        if (text == NULL)
            exit(2);
    }
    va_start(list, form);
    n = vsnprintf(text + text_bytes, text_room - text_bytes, form, list);
    va_end(list);
    text_bytes += (size_t)n;
}

static uint8_t *whole(const char *name, size_t *bytes)
{
    FILE *file = fopen(name, "rb");
    size_t room = 1 << 22;
    uint8_t *all = malloc(room);

    if (file == NULL || all == NULL) {
        perror(name);
        exit(2);
    }
    *bytes = fread(all, 1, room, file);
    fclose(file);
    return all;
}

/* How many of the programme's records in block 0 are of a class; without blocks, from the programme. */
static unsigned beds_of(const skriemelt_programme *p)
{
    static const unsigned labels[10] = {2, 1, 1, 2, 2, 2, 2, 2, 2, 1}; /* index 0 is the lowest bit */
    unsigned sum = 0, i, k;

    if (p->dynonly)
        return p->lfe;
    for (i = 0; i < p->bedcount; i++) {
        const skriemelt_bed *b = &p->beds[i];
        if (b->lfeonly)
            sum++;
        for (k = 0; k < 17; k++)
            if (b->assignment >> k & 1)
                sum += b->standard ? labels[k] : 1;
    }
    return sum;
}

static unsigned isf_of(const skriemelt_programme *p)
{
    static const unsigned objects[6] = {4, 8, 10, 14, 15, 30};

    return p->content & SKRIEMELT_CONTENT_ISF ? objects[p->isf] : 0;
}

static void accepted(const skriemelt_read_answer *a, const uint8_t *records)
{
    unsigned bed = beds_of(&a->programme), isf = isf_of(&a->programme), o, b, i;

    say("objects=%u\nbed=%u\nisf=%u\ndynamic=%u\n", a->programme.objects, bed, isf, a->programme.objects - bed - isf);
    say("blocks=%u\nunknown=%u\n", a->timing.blocks, a->unknown);
    for (b = 0; b < a->timing.blocks; b++)
        say("block=%u,%u,%u\n", b, a->timing.updates[b].start, a->timing.updates[b].ramp);
    for (o = 0; o < a->programme.objects; o++) {
        for (b = 0; b < a->timing.blocks; b++) {
            const uint8_t *r = records + SKRIEMELT_RECORD_STRIDE * (o * a->timing.blocks + b);
            say("record=%u,%u,", o, b);
            for (i = 0; i < SKRIEMELT_RECORD_STRIDE; i++)
                say("%02x", r[i]);
            say("\n");
        }
    }
}

/* The trim table, unless it is all 0, as it must be without a trim element. */
static void say_trim(const uint8_t *trim, size_t bytes)
{
    size_t i = 0;

    while (i < bytes && trim[i] == 0)
        i++;
    if (i == bytes)
        return;
    say("trim=");
    for (i = 0; i < bytes; i++)
        say("%02x", trim[i]);
    say("\n");
}

/* Where the line that holds a byte begins. */
static size_t line_start(const uint8_t *s, size_t at)
{
    while (at > 0 && s[at - 1] != '\n')
        at--;
    return at;
}

/* Whether what the text has from a place on is what is expected there. */
static int as_expected(size_t from, const uint8_t *want, size_t want_bytes)
{
    size_t k = from, s;

    if (text_bytes <= want_bytes && memcmp(text + from, want + from, text_bytes - from) == 0)
        return 1;
    while (k < text_bytes && k < want_bytes && (uint8_t)text[k] == want[k])
        k++;
    s = line_start(want, k < want_bytes ? k : want_bytes);
    printf("got %.60s\n   expected %.60s\n", text + s, (const char *)want + s);
    return 0;
}

/* Field by field: what lies between the fields carries nothing. */
static int same_programme(const skriemelt_programme *a, const skriemelt_programme *b)
{
    unsigned i;
    int same = a->objects == b->objects && a->dynonly == b->dynonly && a->lfe == b->lfe && a->content == b->content &&
               a->distribute == b->distribute && a->multiple == b->multiple && a->instances == b->instances && a->bedcount == b->bedcount &&
               a->isf == b->isf && a->dynamics == b->dynamics;

    for (i = 0; i < SKRIEMELT_MOST_BEDS; i++)
        same = same && a->beds[i].assignment == b->beds[i].assignment && a->beds[i].lfeonly == b->beds[i].lfeonly &&
               a->beds[i].standard == b->beds[i].standard;
    return same;
}

static int same_timing(const skriemelt_timing *a, const skriemelt_timing *b)
{
    unsigned i;
    int same = a->blocks == b->blocks;

    for (i = 0; i < SKRIEMELT_MOST_BLOCKS; i++)
        same = same && a->updates[i].start == b->updates[i].start && a->updates[i].ramp == b->updates[i].ramp;
    return same;
}

/* What a read leaves: its answer, and the lent buffers. */
typedef struct tables {
    skriemelt_read_answer answer;
    uint8_t records[SKRIEMELT_MOST_RECORD_BYTES], trim[SKRIEMELT_MOST_TRIM_BYTES];
} tables;

static size_t trim_bytes(const tables *t)
{
    return SKRIEMELT_TRIM_FIXED + (size_t)t->answer.programme.objects;
}

/* The written form, read, gives the tables that it was written from, and no unknown element. */
static void read_back(const tables *t, uint32_t frame, const uint8_t *form, size_t length)
{
    static uint8_t again[SKRIEMELT_MOST_RECORD_BYTES], again_trim[SKRIEMELT_MOST_TRIM_BYTES];
    const skriemelt_read_answer *a = &t->answer;
    size_t bytes = (size_t)SKRIEMELT_RECORD_STRIDE * a->programme.objects * a->timing.blocks;
    skriemelt_read_answer b = skriemelt_read(form, length, frame, again, sizeof again, again_trim, sizeof again_trim);

    check(b.refusal == SKRIEMELT_ACCEPTED && b.place == 0 && b.unknown == 0, "the written form is accepted");
    check(same_programme(&a->programme, &b.programme), "the written programme is read back");
    check(same_timing(&a->timing, &b.timing), "the written timing is read back");
    check(memcmp(t->records, again, bytes) == 0, "the written records are read back");
    check(memcmp(t->trim, again_trim, trim_bytes(t)) == 0, "the written trim table is read back");
}

/* In another frame the payload gives the same but for the times, and its tables have the same form. */
static void in_other_frame(const tables *t, const uint8_t *payload, size_t n, const uint8_t *form, size_t form_bytes)
{
    static tables other;
    static uint8_t again[SKRIEMELT_MOST_PAYLOAD_BYTES];
    const skriemelt_read_answer *a = &t->answer, *b = &other.answer;
    unsigned blocks = a->timing.blocks, count = (unsigned)a->programme.objects * blocks, i;
    skriemelt_write_answer w;

    other.answer = skriemelt_read(payload, n, UINT32_MAX, other.records, sizeof other.records, other.trim, sizeof other.trim);
    check(b->refusal == a->refusal && b->unknown == a->unknown && same_programme(&a->programme, &b->programme) && same_timing(&a->timing, &b->timing), "another frame's answer");
    check(memcmp(t->trim, other.trim, trim_bytes(t)) == 0, "another frame's trim table");
    for (i = 0; i < count; i++) {
        const uint8_t *r = t->records + SKRIEMELT_RECORD_STRIDE * i, *s = other.records + SKRIEMELT_RECORD_STRIDE * i;

        check(memcmp(r, s, SKRIEMELT_RECORD_BYTES) == 0, "another frame's record");
        check(skriemelt_time(r) == a->timing.updates[i % blocks].start, "a time in frame 0");
        check(skriemelt_time(s) == UINT64_C(4294967295) * 1536 + a->timing.updates[i % blocks].start, "a time in the last frame");
    }
    if (form_bytes == 0)
        return;
    w = skriemelt_write(b->programme, b->timing, UINT32_MAX, other.records, sizeof other.records, other.trim, sizeof other.trim, again, sizeof again);
    check(w.refusal == SKRIEMELT_ACCEPTED && w.length == form_bytes && memcmp(again, form, form_bytes) == 0, "the form does not depend on the frame");
    read_back(&other, UINT32_MAX, again, form_bytes);
    w = skriemelt_write(b->programme, b->timing, 0, other.records, sizeof other.records, other.trim, sizeof other.trim, again, sizeof again);
    check(count == 0 ? w.refusal == SKRIEMELT_ACCEPTED : w.refusal == SKRIEMELT_NOT_VALID && w.place == 1, "times of another frame are not written");
}

/* The lines of a form that was written and read back. */
static void say_form(const uint8_t *form, size_t bytes)
{
    size_t i;

    say("written=");
    for (i = 0; i < bytes; i++)
        say("%02x", form[i]);
    say("\nread back=1\n");
}

/* Writes the tables of a vector into exactly the expected room. Nothing is expected of tables that are refused. */
static void write_vector(const tables *t, const uint8_t *want, size_t want_bytes)
{
    uint8_t *form = calloc(want_bytes ? want_bytes : 1, 1);
    const skriemelt_read_answer *a = &t->answer;
    skriemelt_write_answer w;

    if (form == NULL)
        exit(2);
    w = skriemelt_write(a->programme, a->timing, 0, t->records, sizeof t->records, t->trim, sizeof t->trim, form, want_bytes);
    if (a->programme.content & SKRIEMELT_CONTENT_RESERVED) {
        check(want_bytes == 0 && w.refusal == SKRIEMELT_NOT_VALID && w.place == 0 && w.length == 0, "the reserved content flag is not written");
    } else if (want_bytes == 0) {
        check(w.refusal == SKRIEMELT_NO_FIT && w.place > SKRIEMELT_MOST_PAYLOAD_BYTES && w.length == 0, "a form of more than 4,096 bytes");
        say("written refusal=%u place=%llu\n", w.refusal, (unsigned long long)w.place);
    } else {
        check(w.refusal == SKRIEMELT_ACCEPTED && w.place == 0 && w.length == want_bytes, "the written form's length");
        check(w.refusal != SKRIEMELT_ACCEPTED || memcmp(form, want, want_bytes) == 0, "the written form");
        if (w.refusal == SKRIEMELT_ACCEPTED)
            read_back(t, 0, form, want_bytes);
        say_form(form, want_bytes);
    }
    free(form);
}

/* The next entry of a file: two bytes of length, the higher first, and as many bytes. */
static const uint8_t *entry(const uint8_t *file, size_t bytes, size_t *at, size_t *length)
{
    const uint8_t *start;

    if (bytes - *at < 2 || bytes - *at - 2 < (*length = 256 * (size_t)file[*at] + file[*at + 1])) {
        fprintf(stderr, "test_vectors: a file ends within an entry\n");
        exit(2);
    }
    start = file + *at + 2;
    *at += 2 + *length;
    return start;
}

/* Reads a vector and says its lines; writes its tables if it is accepted. */
static void one_vector(unsigned number, const uint8_t *bytes, size_t n, const uint8_t *form, size_t form_bytes)
{
    static tables t;
    /* a copy of its own, so that the address sanitizer sees a read past its end */
    uint8_t *payload = malloc(n ? n : 1);

    if (payload == NULL)
        exit(2);
    memcpy(payload, bytes, n);
    memset(&t, 0xA5, sizeof t);
    t.answer = skriemelt_read(payload, n, 0, t.records, sizeof t.records, t.trim, sizeof t.trim);
    say("vector=%u\nrefusal=%u\nplace=%llu\n", number, t.answer.refusal, (unsigned long long)t.answer.place);
    if (t.answer.refusal == SKRIEMELT_PAST_PAYLOAD)
        say("missing=%lu\n", (unsigned long)t.answer.missing);
    if (t.answer.refusal == SKRIEMELT_ACCEPTED) {
        accepted(&t.answer, t.records);
        say_trim(t.trim, trim_bytes(&t));
        write_vector(&t, form, form_bytes);
        in_other_frame(&t, payload, n, form, form_bytes);
    } else {
        check(form_bytes == 0, "no form of a refused vector is expected");
    }
    free(payload);
}

int main(int argc, char **argv)
{
    size_t bytes, want_bytes, written_bytes, at = 0, written_at = 0, from = 0;
    unsigned number;
    uint8_t *store, *want, *written;

    if (argc != 4) {
        fprintf(stderr, "usage: test_vectors PAYLOADS EXPECTED WRITTEN\n");
        return 2;
    }
    store = whole(argv[1], &bytes);
    want = whole(argv[2], &want_bytes);
    written = whole(argv[3], &written_bytes);
    for (number = 0; at < bytes; number++) {
        size_t n, form_bytes;
        const uint8_t *payload = entry(store, bytes, &at, &n);
        const uint8_t *form = entry(written, written_bytes, &written_at, &form_bytes);
        unsigned long failed = test_failed;

        one_vector(number, payload, n, form, form_bytes);
        check(as_expected(from, want, want_bytes), "a vector's lines");
        if (test_failed != failed)
            printf("   in vector %u\n", number);
        from = text_bytes;
    }
    check(text_bytes == want_bytes, "nothing more is expected");
    check(written_at == written_bytes, "no more written forms are expected");
    check(number > 0, "there are vectors");
    free(text);
    free(store);
    free(want);
    free(written);
    return finish("test_vectors");
}
