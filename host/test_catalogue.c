/*
 * skriemelt_catalogue_write, .._write_on, .._read and .._read_on: texts worked out by hand from README's listing of the sample, there and back; refused calls, in their order; the update
 * before, carried, too short, and with bytes that no call leaves; texts in pieces; every part of a store and all vectors against single reads. What lines can stand in a text is
 * tried in test_lines.c. Each buffer lies between canaries, and is held whole to what is expected of it.
 * Arguments: samples/three-objects.oamd, crates/vectors/data/payloads.
 */
#include "bits.h"
#include "catalogue.h"

#define MOST_ENTRIES 3000
#define MOST_TEXT (1 << 22)

/* The sample, the four bytes of the requirements, and a payload of one inactive dynamic object with one block that starts at sample 1,536. */
#define STORE_BYTES 60
static uint8_t store[STORE_BYTES];
static size_t late_bytes;

/* What is written: payloads of a store. */
typedef struct segment {
    const uint8_t *store;
    size_t store_bytes;
    const uint64_t *starts, *lengths;
    const uint32_t *frames;
    size_t starts_count, lengths_count, frames_count;
} segment;

/* The payloads of the worked text. */
static const uint64_t worked_starts[3] = {0, 45, 45}, worked_lengths[3] = {45, 3, 4};
static const uint32_t worked_frames[3] = {7, 8, 9};
static const segment worked_segment = {store, 49, worked_starts, worked_lengths, worked_frames, 3, 3, 3};

/* The call, on with an update before, if there is one; what it may only look at stays as it was. */
static skriemelt_catalogue_answer write_call(const segment *s, const lending *before, const lending *text)
{
    uint8_t *bytes = copy_of(s->store, s->store_bytes);
    uint64_t *starts = copy_of(s->starts, 8 * s->starts_count), *lengths = copy_of(s->lengths, 8 * s->lengths_count);
    uint32_t *frames = copy_of(s->frames, 4 * s->frames_count);
    skriemelt_catalogue_answer a;

    if (before == NULL)
        a = skriemelt_catalogue_write(bytes, s->store_bytes, starts, s->starts_count, lengths, s->lengths_count, frames, s->frames_count, bytes_in(text), text->room);
    else
        a = skriemelt_catalogue_write_on(bytes, s->store_bytes, starts, s->starts_count, lengths, s->lengths_count, frames, s->frames_count,
                                         (skriemelt_catalogue_before *)(void *)bytes_in(before), before->room, bytes_in(text), text->room);
    check(s->store_bytes == 0 || memcmp(bytes, s->store, s->store_bytes) == 0, "the store stays");
    check(s->starts_count == 0 || memcmp(starts, s->starts, 8 * s->starts_count) == 0, "the starts stay");
    check(s->lengths_count == 0 || memcmp(lengths, s->lengths, 8 * s->lengths_count) == 0, "the lengths stay");
    check(s->frames_count == 0 || memcmp(frames, s->frames, 4 * s->frames_count) == 0, "the frames stay");
    free(bytes);
    free(starts);
    free(lengths);
    free(frames);
    return a;
}

/* Writing into `room` bytes is accepted, and the text is this one. The update before is then as it is expected. */
static void writes(const segment *s, const lending *before, size_t room, const char *text, const char *what)
{
    size_t length = strlen(text);
    lending l = lend(room % 5, room);
    skriemelt_catalogue_answer a;

    memcpy(expect(&l, 0), text, length);
    a = write_call(s, before, &l);
    check(a.refusal == SKRIEMELT_ACCEPTED && a.place == 0 && a.length == length, what);
    hold(&l, what);
    if (before != NULL)
        hold(before, what);
    give_one_back(&l);
}

/* Writing into `room` bytes is refused, and every buffer is as it came. */
static void no_write(const segment *s, const lending *before, size_t room, uint8_t refusal, uint64_t place, const char *what)
{
    lending l = lend(room % 5, room);
    skriemelt_catalogue_answer a = write_call(s, before, &l);

    check(a.refusal == refusal && a.place == place && a.length == 0, what);
    check(untouched(l.all, l.skew, room, 0), what);
    if (before != NULL)
        hold(before, what);
    give_one_back(&l);
}

/* The rows of the sample's update 0 or 1. */
static const uint8_t *sample_rows(unsigned block)
{
    static uint8_t rows[2][72];
    size_t object;

    for (object = 0; object < 3; object++)
        memcpy(rows[block] + 24 * object, sample_records + 24 * (2 * object + block), 24);
    return rows[block];
}

/* Every room about the needed one. */
static void worked_write(void)
{
    const char *text = worked_text();
    size_t room;

    for (room = 0; room < WORKED_BYTES + 20; room++) {
        if (room < WORKED_BYTES)
            no_write(&worked_segment, NULL, room, SKRIEMELT_SHORT_TEXT, WORKED_BYTES, "too little room for the text");
        else
            writes(&worked_segment, NULL, room, text, "the worked text");
    }
    writes(&worked_segment, NULL, 2 * WORKED_BYTES, text, "the worked text with more room");
}

/* Room for the records first, then for the lines. */
static void worked_read(void)
{
    const char *text = worked_text();
    tables t = worked_tables();
    size_t more, room;

    for (more = 0; more < 45; more++)
        reads(text, WORKED_BYTES, NULL, &t, more, "the worked text read back");
    for (room = 0; room < 192; room++)
        no_read(text, WORKED_BYTES, NULL, 119 + room % 3, room, SKRIEMELT_NO_ROOM, 192, "too little room for the records");
    for (room = 0; room < 120; room++)
        no_read(text, WORKED_BYTES, NULL, room, 192 + room % 3, SKRIEMELT_NO_ROOM, 120, "too little room for the lines");
    no_read(text, WORKED_BYTES, NULL, 0, 0, SKRIEMELT_NO_ROOM, 192, "no room at all: records first");
}

/* No pointer at all where the length is 0. */
static void nothing(void)
{
    static const uint64_t zero = 0;
    static const uint32_t frame = UINT32_MAX;
    static skriemelt_catalogue_before none, before;
    segment empty = {NULL, 0, &zero, &zero, &frame, 1, 1, 1};
    skriemelt_catalogue_answer a = skriemelt_catalogue_write(NULL, 0, NULL, 0, NULL, 0, NULL, 0, NULL, 0);
    skriemelt_back_answer b = skriemelt_catalogue_read(NULL, 0, NULL, 0, NULL, 0);

    check(a.refusal == SKRIEMELT_ACCEPTED && a.place == 0 && a.length == 0, "no payloads: the empty text");
    check(b.refusal == SKRIEMELT_ACCEPTED && b.place == 0 && b.frames == 0 && b.bytes == 0, "the empty text: no frames");
    a = skriemelt_catalogue_write_on(NULL, 0, NULL, 0, NULL, 0, NULL, 0, &before, sizeof before, NULL, 0);
    check(a.refusal == SKRIEMELT_ACCEPTED && a.length == 0 && memcmp(&before, &none, sizeof none) == 0, "no payloads behind others");
    b = skriemelt_catalogue_read_on(NULL, 0, &before, sizeof before, NULL, 0, NULL, 0);
    check(b.refusal == SKRIEMELT_ACCEPTED && b.frames == 0 && memcmp(&before, &none, sizeof none) == 0, "the empty text behind others");
    a = skriemelt_catalogue_write(store, 49, worked_starts, 3, worked_lengths, 3, worked_frames, 3, NULL, 0);
    check(a.refusal == SKRIEMELT_SHORT_TEXT && a.place == WORKED_BYTES && a.length == 0, "the length can be asked for");
    a = skriemelt_catalogue_write_on(NULL, 0, NULL, 0, NULL, 0, NULL, 0, NULL, 0, NULL, 0);
    check(a.refusal == SKRIEMELT_NO_ROOM && a.place == SKRIEMELT_BEFORE_BYTES && a.length == 0, "no update before to write on");
    b = skriemelt_catalogue_read_on(NULL, 0, NULL, 0, NULL, 0, NULL, 0);
    check(b.refusal == SKRIEMELT_NO_ROOM && b.place == SKRIEMELT_BEFORE_BYTES && b.frames == 0 && b.bytes == 0, "no update before to read on");
    writes(&empty, NULL, 100, "frame=4294967295,refusal=2\n", "an empty payload of no store in the last frame");
}

/* 13 is asked first, its place the number of starts; then 9 for the update before; then 18. */
static void write_order(void)
{
    static const size_t counts[6][3] = {{3, 2, 3}, {3, 3, 2}, {2, 3, 3}, {0, 3, 3}, {3, 0, 0}, {1, 2, 3}};
    lending shorter = lend(1, SKRIEMELT_BEFORE_BYTES - 1), before = lend_before(SKRIEMELT_BEFORE_BYTES, 0, NULL);
    segment s = worked_segment;
    size_t i;

    for (i = 0; i < 6; i++) {
        s.starts_count = counts[i][0];
        s.lengths_count = counts[i][1];
        s.frames_count = counts[i][2];
        no_write(&s, NULL, 1000, SKRIEMELT_LISTS, counts[i][0], "lists of unequal length");
        no_write(&s, NULL, 0, SKRIEMELT_LISTS, counts[i][0], "lists of unequal length before too little room");
        no_write(&s, &before, 1000, SKRIEMELT_LISTS, counts[i][0], "lists of unequal length, behind others");
        no_write(&s, &shorter, 0, SKRIEMELT_LISTS, counts[i][0], "lists of unequal length before all else");
    }
    no_write(&worked_segment, &shorter, 1000, SKRIEMELT_NO_ROOM, 3817, "an update before of 3,816 bytes");
    no_write(&worked_segment, &shorter, 0, SKRIEMELT_NO_ROOM, 3817, "the update before is asked before the room");
    no_write(&worked_segment, &before, 935, SKRIEMELT_SHORT_TEXT, WORKED_BYTES, "too little room, behind others");
    give_one_back(&shorter);
    give_one_back(&before);
}

/* 9 for the update before is asked first; then 17; then 9 for the records, then for the lines. */
static void read_order(void)
{
    const char *text = worked_text();
    lending none = lend(2, 0), shorter = lend(1, SKRIEMELT_BEFORE_BYTES - 1), before = lend_before(SKRIEMELT_BEFORE_BYTES, 0, NULL);

    no_read(text, WORKED_BYTES, &none, 400, 400, SKRIEMELT_NO_ROOM, 3817, "an update before of no bytes");
    no_read(text, WORKED_BYTES, &shorter, 400, 400, SKRIEMELT_NO_ROOM, 3817, "an update before of 3,816 bytes");
    no_read(text, WORKED_BYTES - 1, &shorter, 0, 0, SKRIEMELT_NO_ROOM, 3817, "the update before is asked first");
    no_read(text, WORKED_BYTES - 1, &before, 0, 0, SKRIEMELT_BAD_LINE, 10, "then the lines of the text");
    no_read(text, WORKED_BYTES, &before, 0, 191, SKRIEMELT_NO_ROOM, 192, "then the room for the records");
    no_read(text, WORKED_BYTES, &before, 119, 192, SKRIEMELT_NO_ROOM, 120, "then the room for the lines");
    give_one_back(&none);
    give_one_back(&shorter);
    give_one_back(&before);
}

/* The payloads of a text that is worked by hand: the sample, the four bytes and the first three of them, the late one; each as part of the store. */
enum { SAMPLE, SMALL, CUT, LATE };

/* A segment of these payloads, in frames from 7 on. */
static segment segment_of(const int *what, size_t count)
{
    static uint64_t starts[16], lengths[16];
    static uint32_t frames[16];
    segment s = {store, sizeof store, starts, lengths, frames, count, count, count};
    size_t i;

    for (i = 0; i < count; i++) {
        starts[i] = what[i] == SAMPLE ? 0 : what[i] == LATE ? 49 : 45;
        lengths[i] = what[i] == SAMPLE ? 45 : what[i] == SMALL ? 4 : what[i] == CUT ? 3 : late_bytes;
        frames[i] = 7 + (uint32_t)i;
    }
    return s;
}

/* The part of a segment from one entry up to another. */
static segment part_of(const segment *s, size_t from, size_t to)
{
    segment part = *s;

    part.starts += from;
    part.lengths += from;
    part.frames += from;
    part.starts_count = part.lengths_count = part.frames_count = to - from;
    return part;
}

/* Frames that are passed over, another number of objects and back, an update that changes nothing. */
#define TWO(first, second) "start=0,ramp=0\n" first "start=32,ramp=0\n" second
#define LATE_0 "object=0,active=0,class=2,gain=0,priority=0,x=31,y=31,z=64" REST "\n"
static const int many[9] = {SMALL, SAMPLE, CUT, SMALL, SAMPLE, LATE, SMALL, LATE, SAMPLE};
static const char *const many_texts[9] = {
    "frame=7,objects=1,blocks=0\n", "frame=8,objects=3,blocks=2\n" TWO(FULL, ON), "frame=9,refusal=2\n", "frame=10,objects=1,blocks=0\n", "frame=11,objects=3,blocks=2\n" TWO(BACK, ON),
    "frame=12,objects=1,blocks=1\nstart=1536,ramp=0\n" LATE_0, "frame=13,objects=1,blocks=0\n", "frame=14,objects=1,blocks=1\nstart=1536,ramp=0\n", "frame=15,objects=3,blocks=2\n" TWO(FULL, ON),
};

/* The update that is the last one behind entry i of these: none, the sample's, the late one's. */
static void expect_before(const lending *before, size_t i)
{
    if (i >= 5 && i < 8)
        lay_before(expect(before, 0), 1, sample_rows(0) + 48); /* object 2 of the sample is inactive in update 0, with the same defaults */
    else if (i >= 1)
        lay_before(expect(before, 0), 3, sample_rows(1));
}

/* Written in one call, and in two, cut anywhere. */
static void carried(void)
{
    segment all = segment_of(many, 9);
    char text[8192] = "", begun[8192] = "", rest[8192];
    size_t cut, i;

    for (i = 0; i < 9; i++)
        strcat(text, many_texts[i]);
    writes(&all, NULL, sizeof text, text, "many frames");
    for (cut = 0; cut <= 9; cut++) {
        segment first = part_of(&all, 0, cut), second = part_of(&all, cut, 9);
        lending before = lend_before(SKRIEMELT_BEFORE_BYTES + cut, 0, NULL);

        strcpy(rest, text + strlen(begun));
        if (cut > 0)
            expect_before(&before, cut - 1);
        writes(&first, &before, sizeof text, begun, "many frames, the first of them");
        if (cut < 9) {
            no_write(&second, &before, 0, SKRIEMELT_SHORT_TEXT, strlen(rest), "the length of the rest");
            expect_before(&before, 8);
        }
        writes(&second, &before, sizeof text, rest, "many frames, the rest of them");
        give_one_back(&before);
        if (cut < 9)
            strcat(begun, many_texts[cut]);
    }
}

/* The tables of some of these frames: of the sample its records in that frame, of the late one its record. */
static tables many_tables(size_t from, size_t to)
{
    static const uint16_t timing[4] = {0, 0, 32, 0}, late[2] = {1536, 0};
    static uint8_t lines[9 * LINE_BYTES], records[9 * 192];
    tables t = {lines, records, to - from, 0};
    size_t i;

    for (i = from; i < to; i++) {
        uint8_t *line = lines + LINE_BYTES * (i - from);
        uint32_t frame = 7 + (uint32_t)i;

        if (many[i] == SAMPLE) {
            lay_line(line, frame, 0, 3, 2, timing);
            lay_sample(records + t.bytes, frame);
            t.bytes += 192;
        } else if (many[i] == LATE) {
            lay_line(line, frame, 0, 1, 1, late);
            memcpy(records + t.bytes, sample_rows(0) + 48, 24);
            lay(records + t.bytes + 24, UINT64_C(1536) * (frame + 1), 8);
            t.bytes += 32;
        } else {
            lay_line(line, frame, many[i] == CUT ? 2 : 0, many[i] == CUT ? 0 : 1, 0, NULL);
        }
    }
    return t;
}

/* And read back in one call, in two, cut anywhere, and frame by frame. */
static void carried_back(void)
{
    lending single = lend_before(SKRIEMELT_BEFORE_BYTES, 0, NULL);
    char text[8192] = "", begun[8192] = "";
    size_t cut, i;
    tables t;

    for (i = 0; i < 9; i++)
        strcat(text, many_texts[i]);
    t = many_tables(0, 9);
    reads(text, strlen(text), NULL, &t, 7, "many frames read back");
    for (cut = 0; cut <= 9; cut++) {
        lending before = lend_before(SKRIEMELT_BEFORE_BYTES + cut, 0, NULL);

        if (cut > 0)
            expect_before(&before, cut - 1);
        t = many_tables(0, cut);
        reads(begun, strlen(begun), &before, &t, 7, "many frames read back, the first of them");
        if (cut < 9)
            expect_before(&before, 8);
        t = many_tables(cut, 9);
        reads(text + strlen(begun), strlen(text) - strlen(begun), &before, &t, 7, "many frames read back, the rest of them");
        give_one_back(&before);
        if (cut == 9)
            break;
        strcat(begun, many_texts[cut]);
        t = many_tables(cut, cut + 1);
        expect_before(&single, cut);
        reads(many_texts[cut], strlen(many_texts[cut]), &single, &t, 0, "a frame read back by itself");
    }
    give_one_back(&single);
}

/* Without what came before, the rest of a text begins with an update that should list every field. */
static void not_carried(void)
{
    char text[8192];

    strcpy(text, many_texts[4]);
    bad_text(text, strlen(text), 3, "an update held to none");
    strcpy(text, many_texts[7]);
    bad_text(text, strlen(text), 3, "an update without entries held to none");
}

/* Rows that no call leaves are taken as they stand: every byte of them is another, so every field is listed; or the update is the one before, so none is. */
static void other_rows(void)
{
    static const int sample[1] = {SAMPLE};
    segment s = segment_of(sample, 1);
    uint8_t rows[SKRIEMELT_BEFORE_BYTES - 1];
    lending before;

    memset(rows, 0xFF, sizeof rows);
    before = lend_before(SKRIEMELT_BEFORE_BYTES, 3, rows);
    lay_before(expect(&before, 0), 3, sample_rows(1));
    writes(&s, &before, 2000, "frame=7,objects=3,blocks=2\n" TWO(FULL, ON), "rows that no record has");
    give_one_back(&before);
    before = lend_before(SKRIEMELT_BEFORE_BYTES, 3, sample_rows(0));
    lay_before(expect(&before, 0), 3, sample_rows(1));
    writes(&s, &before, 2000, "frame=7,objects=3,blocks=2\n" TWO("", ON), "rows of the same update");
    give_one_back(&before);
    before = lend_before(SKRIEMELT_BEFORE_BYTES, 4, rows);
    lay_before(expect(&before, 0), 3, sample_rows(1));
    writes(&s, &before, 2000, "frame=7,objects=3,blocks=2\n" TWO(FULL, ON), "rows of one object more");
    give_one_back(&before);
}

/* The same when reading: what is listed must be another than the row's byte, what is not keeps it, whatever it is. */
static void other_rows_back(void)
{
    static const char text[] = "frame=7,objects=3,blocks=1\nstart=32,ramp=0\nobject=1,gain=50,z=64\n";
    static const uint16_t timing[2] = {32, 0};
    uint8_t rows[72], line[LINE_BYTES], records[96];
    tables t = {line, records, 1, 96};
    lending before;
    size_t i;

    memset(rows, 0xEE, sizeof rows);
    before = lend_before(SKRIEMELT_BEFORE_BYTES, 3, rows);
    rows[24 + 2] = 50;
    rows[24 + 6] = 64;
    lay_before(expect(&before, 0), 3, rows);
    lay_line(line, 7, 0, 3, 1, timing);
    for (i = 0; i < 3; i++) {
        memcpy(records + 32 * i, rows + 24 * i, 24);
        lay(records + 32 * i + 24, 10784, 8);
    }
    reads(text, sizeof text - 1, &before, &t, 11, "bytes that no record has are kept");
    no_read(text, sizeof text - 1, &before, 400, 400, SKRIEMELT_BAD_LINE, 3, "a byte that is listed as it was");
    give_one_back(&before);
}

/* A count above 159 is taken as 159, and given back so where no update is met. */
static void other_counts(void)
{
    static const unsigned counts[4] = {159, 160, 200, 255};
    static const int no_update[2] = {CUT, SMALL}, sample[1] = {SAMPLE};
    static uint8_t rows[SKRIEMELT_BEFORE_BYTES - 1];
    static const char text[] = "frame=1,objects=159,blocks=1\nstart=0,ramp=0\nobject=158,gain=9\n";
    tables nothing_read = {NULL, NULL, 0, 0};
    size_t i;

    for (i = 0; i < sizeof rows; i++)
        rows[i] = (uint8_t)(i % 251);
    for (i = 0; i < 4; i++) {
        lending before = lend_before(SKRIEMELT_BEFORE_BYTES + 5, (uint8_t)counts[i], rows);
        segment s = segment_of(no_update, 2);

        no_read(text, sizeof text - 1, &before, 0, 0, SKRIEMELT_NO_ROOM, 5088, "held to 159 objects");
        *expect(&before, 0) = 159;
        writes(&s, &before, 100, "frame=7,refusal=2\nframe=8,objects=1,blocks=0\n", "no update behind so many objects");
        *bytes_in(&before) = (uint8_t)counts[i];
        reads("", 0, &before, &nothing_read, 5, "no text behind so many objects");
        *bytes_in(&before) = (uint8_t)counts[i];
        s = segment_of(sample, 1);
        lay_before(expect(&before, 0), 3, sample_rows(1));
        writes(&s, &before, 2000, "frame=7,objects=3,blocks=2\n" TWO(FULL, ON), "the rows behind those of three objects stay");
        give_one_back(&before);
    }
}

/* Payloads that leave the store, none of whose sums wraps around; one that is too long; repeated and overlapping ones; frames in any order. */
static void outside(void)
{
    static const uint64_t starts[8] = {46, 49, 50, UINT64_MAX, 1, 0, 0, 0}, lengths[8] = {4, 0, 0, 1, UINT64_MAX, 45, 49, 45};
    static const uint32_t frames[8] = {3, 2, 1, 0, UINT32_MAX, 5, 5, 0};
    static const uint64_t zeros[2] = {0, 0}, longest[2] = {4096, 4097};
    static uint8_t bytes[4097];
    segment s = {store, 49, starts, lengths, frames, 8, 8, 8}, of_longest = {bytes, sizeof bytes, zeros, longest, frames, 2, 2, 2};

    writes(&s, NULL, 3000,
           "frame=3,refusal=12\nframe=2,refusal=2\nframe=1,refusal=12\nframe=0,refusal=12\nframe=4294967295,refusal=12\n"
           "frame=5,objects=3,blocks=2\n" TWO(FULL, ON) "frame=5,objects=3,blocks=2\n" TWO(BACK, ON) "frame=0,objects=3,blocks=2\n" TWO(BACK, ON),
           "about the store's end");
    memcpy(bytes, store + 45, 4);
    writes(&of_longest, NULL, 100, "frame=3,objects=1,blocks=0\nframe=2,refusal=1\n", "about the longest payload");
}

/* What single reads give for the payloads of a segment, in their frames. */
static tables single_reads(const segment *s)
{
    static uint8_t records[SKRIEMELT_MOST_RECORD_BYTES], trim[SKRIEMELT_MOST_TRIM_BYTES];
    tables t = {room_for(LINE_BYTES * s->starts_count), NULL, s->starts_count, 0};
    size_t i, k, room = 0;

    for (i = 0; i < s->starts_count; i++) {
        uint64_t from = s->starts[i], length = s->lengths[i];
        int inside = from <= s->store_bytes && length <= s->store_bytes - from;
        skriemelt_read_answer a = skriemelt_read(s->store + (inside ? from : 0), inside ? (size_t)length : 0, s->frames[i], records, sizeof records, trim, sizeof trim);
        size_t bytes = 32 * (size_t)a.programme.objects * a.timing.blocks;
        uint16_t timing[16];

        for (k = 0; k < 8; k++) {
            timing[2 * k] = a.timing.updates[k].start;
            timing[2 * k + 1] = a.timing.updates[k].ramp;
        }
        lay_line(t.lines + LINE_BYTES * i, s->frames[i], inside ? a.refusal : SKRIEMELT_OUTSIDE, a.programme.objects, a.timing.blocks, timing);
        if (room < t.bytes + bytes)
            t.records = realloc(t.records, room = 2 * (t.bytes + bytes));
        if (bytes > 0)
            memcpy(t.records + t.bytes, records, bytes);
        t.bytes += bytes;
    }
    return t;
}

/* The text of a segment, with a byte 0 behind it. */
static char *text_of(const segment *s, const char *what)
{
    lending none = lend(0, 0), text;
    skriemelt_catalogue_answer a = write_call(s, NULL, &none);
    char *out;

    check(a.refusal == SKRIEMELT_SHORT_TEXT && a.length == 0 && a.place < MOST_TEXT, what);
    text = lend(3, (size_t)a.place);
    out = room_for((size_t)a.place + 1);
    a = write_call(s, NULL, &text);
    check(a.refusal == SKRIEMELT_ACCEPTED && a.place == 0 && a.length == text.room, what);
    memcpy(out, bytes_in(&text), text.room);
    out[text.room] = '\0';
    memcpy(expect(&text, 0), out, text.room);
    hold(&text, what);
    give_one_back(&none);
    give_one_back(&text);
    return out;
}

/* The segment written in parts of so many payloads: the texts one behind the other are the whole. */
static void in_parts(const segment *s, const char *text, size_t entries, const char *what)
{
    skriemelt_catalogue_before before;
    uint8_t *part_text = room_for(MOST_TEXT);
    size_t at, done = 0;

    memset(&before, 0, sizeof before);
    for (at = 0; at < s->starts_count; at += entries) {
        segment part = part_of(s, at, at + entries < s->starts_count ? at + entries : s->starts_count);
        skriemelt_catalogue_answer a = skriemelt_catalogue_write_on(part.store, part.store_bytes, part.starts, part.starts_count, part.lengths, part.lengths_count, part.frames, part.frames_count,
                                                                    &before, sizeof before, part_text, MOST_TEXT);

        check(a.refusal == SKRIEMELT_ACCEPTED && a.length <= strlen(text) - done && memcmp(part_text, text + done, (size_t)a.length) == 0, what);
        done += (size_t)a.length;
    }
    check(done == strlen(text), what);
    free(part_text);
}

/* Where a piece of so many frames ends. */
static const char *behind_frames(const char *text, size_t frames)
{
    while (frames-- > 0 && *text != '\0') {
        const char *next = strstr(text, "\nframe=");

        text = next == NULL ? text + strlen(text) : next + 1;
    }
    return text;
}

/* The text read in pieces of so many frames: their lines and records one behind the other are those of the whole. */
static void in_pieces(const char *text, const tables *t, size_t frames, const char *what)
{
    skriemelt_catalogue_before before;
    skriemelt_catalogue_frame *lines = room_for(LINE_BYTES * frames);
    uint8_t *records = room_for(SKRIEMELT_MOST_RECORD_BYTES * frames);
    size_t frames_done = 0, bytes_done = 0;

    memset(&before, 0, sizeof before);
    while (*text != '\0') {
        const char *next = behind_frames(text, frames);
        skriemelt_back_answer a = skriemelt_catalogue_read_on((const uint8_t *)text, (size_t)(next - text), &before, sizeof before, lines, LINE_BYTES * frames, records,
                                                              SKRIEMELT_MOST_RECORD_BYTES * frames);

        check(a.refusal == SKRIEMELT_ACCEPTED && a.frames <= t->frames - frames_done && a.bytes <= t->bytes - bytes_done, what);
        check(memcmp(lines, t->lines + LINE_BYTES * frames_done, LINE_BYTES * (size_t)a.frames) == 0, what);
        check(a.bytes == 0 || memcmp(records, t->records + bytes_done, (size_t)a.bytes) == 0, what);
        frames_done += (size_t)a.frames;
        bytes_done += (size_t)a.bytes;
        text = next;
    }
    check(frames_done == t->frames && bytes_done == t->bytes, what);
    free(lines);
    free(records);
}

/* A segment there and back against single reads, at once, in parts and in pieces. */
static void there_and_back(const segment *s, const char *what)
{
    static const size_t sizes[4] = {1, 2, 7, 100};
    char *text = text_of(s, what);
    tables t = single_reads(s);
    size_t i;

    reads(text, strlen(text), NULL, &t, 0, what);
    reads(text, strlen(text), NULL, &t, 33, what);
    no_read(text, strlen(text), NULL, LINE_BYTES * t.frames, t.bytes - 1, SKRIEMELT_NO_ROOM, t.bytes, what);
    no_read(text, strlen(text), NULL, LINE_BYTES * t.frames - 1, t.bytes, SKRIEMELT_NO_ROOM, LINE_BYTES * t.frames, what);
    for (i = 0; i < 4; i++) {
        in_parts(s, text, sizes[i], what);
        in_pieces(text, &t, sizes[i], what);
    }
    free(text);
    free(t.lines);
    free(t.records);
}

/* Every part of the store, and parts that leave it: each start with each length, up to two bytes past the end. */
static void every_part(void)
{
    static uint64_t starts[52 * 52], lengths[52 * 52];
    static uint32_t frames[52 * 52];
    segment s = {store, 49, starts, lengths, frames, 52 * 52, 52 * 52, 52 * 52};
    size_t i;

    for (i = 0; i < 52 * 52; i++) {
        starts[i] = i / 52;
        lengths[i] = i % 52;
        frames[i] = (uint32_t)(i * 1588444911u);
    }
    there_and_back(&s, "every part of the store");
}

/* The file of the vectors as the store: two bytes of length, the higher first, stand before each payload. */
static void vectors(const char *name)
{
    static uint8_t bytes[1 << 20];
    static uint64_t starts[MOST_ENTRIES], lengths[MOST_ENTRIES];
    static uint32_t frames[MOST_ENTRIES];
    FILE *file = fopen(name, "rb");
    segment s = {bytes, 0, starts, lengths, frames, 0, 0, 0};
    size_t at, n = 0;

    if (file == NULL)
        exit(2);
    s.store_bytes = fread(bytes, 1, sizeof bytes, file);
    fclose(file);
    for (at = 0; at < s.store_bytes && n < MOST_ENTRIES; at += (size_t)lengths[n++] + 2) {
        starts[n] = at + 2;
        lengths[n] = 256 * (uint64_t)bytes[at] + bytes[at + 1];
        frames[n] = (uint32_t)(n * 2796203);
    }
    check(n > 0 && n < MOST_ENTRIES && at == s.store_bytes, "the vectors' payloads");
    s.starts_count = s.lengths_count = s.frames_count = n;
    there_and_back(&s, "all vectors");
}

/* The sample and the payloads behind it. */
static int fill_store(const char *sample)
{
    static const uint8_t small[4] = {0x01, 0x07, 0xC1, 0x00};
    FILE *file = fopen(sample, "rb");
    size_t got;

    if (file == NULL)
        return 0;
    got = fread(store, 1, sizeof store, file);
    fclose(file);
    memcpy(store + 45, small, sizeof small);
    late_bytes = bytes_of("00 00000  1 0  0 0001  0001 0010 0  0  00 000  110000 00  1  10  0000000", store + 49);
    return got == 45 && 49 + late_bytes <= sizeof store;
}

int main(int argc, char **argv)
{
    if (argc != 3 || !fill_store(argv[1])) {
        fprintf(stderr, "usage: test_catalogue SAMPLE PAYLOADS\n");
        return 2;
    }
    worked_write();
    worked_read();
    nothing();
    write_order();
    read_order();
    carried();
    carried_back();
    not_carried();
    other_rows();
    other_rows_back();
    other_counts();
    outside();
    every_part();
    vectors(argv[2]);
    return finish("test_catalogue");
}
