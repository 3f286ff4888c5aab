/* A catalogue's text that is worked out by hand from README's listing of the sample, what it is read back to, and reading into buffers that are held whole to what is expected of them. */
#ifndef CATALOGUE_H
#define CATALOGUE_H

#include "lending.h"
#include "sample.h"

#define LINE_BYTES 40
#define WORKED_BYTES 936

/* The fields behind z, which are the same in all records of the sample: all 0 but the elevation flag. */
#define REST                                                                                                                                              \
    ",distance=0,width=0,depth=0,height=0,zone=0,elevation=1,screen=0,screen_factor=0,screen_depth=0,snap=0,divergence=0,divergence_mode=0,divergence_value=0" \
    ",precise=0,precise_x=0,precise_y=0,precise_z=0"

/* The entries of the sample's update 0 with all fields, and of its update 1 behind update 0. */
#define FULL_0 "object=0,active=1,class=0,gain=50,priority=2,x=31,y=31,z=64" REST
#define FULL_1 "object=1,active=1,class=2,gain=50,priority=32,x=11,y=12,z=77" REST
#define FULL_2 "object=2,active=0,class=2,gain=0,priority=0,x=31,y=31,z=64" REST
#define FULL FULL_0 "\n" FULL_1 "\n" FULL_2 "\n"
#define ON "object=0,gain=62,priority=4\nobject=2,active=1,x=9,y=8,z=57\n"

/* And of its update 0 behind its update 1: what ON has changed is changed back. */
#define BACK "object=0,gain=50,priority=2\nobject=2,active=0,x=31,y=31,z=64\n"

/* The sample in frame 7; of the four bytes the first three, in frame 8; all four, which have no blocks, in frame 9. */
static const char *const worked_lines[10] = {
    "frame=7,objects=3,blocks=2", "start=0,ramp=0", FULL_0, FULL_1, FULL_2, "start=32,ramp=0", "object=0,gain=62,priority=4", "object=2,active=1,x=9,y=8,z=57", "frame=8,refusal=2",
    "frame=9,objects=1,blocks=0",
};

/* The call, on with an update before, if there is one; the text stays as it was. */
static skriemelt_back_answer read_call(const char *text, size_t length, const lending *before, const lending *lines, const lending *records)
{
    uint8_t *bytes = copy_of(text, length);
    skriemelt_catalogue_frame *frames = (skriemelt_catalogue_frame *)(void *)bytes_in(lines);
    skriemelt_back_answer a;

    if (before == NULL)
        a = skriemelt_catalogue_read(bytes, length, frames, lines->room, bytes_in(records), records->room);
    else
        a = skriemelt_catalogue_read_on(bytes, length, (skriemelt_catalogue_before *)(void *)bytes_in(before), before->room, frames, lines->room, bytes_in(records), records->room);
    check(length == 0 || memcmp(bytes, text, length) == 0, "the text stays");
    free(bytes);
    return a;
}

/* What a text is read back to. */
typedef struct tables {
    uint8_t *lines, *records;
    size_t frames, bytes;
} tables;

/* Reading is accepted with so many bytes of room more than needed, and gives these tables. The update before is then as it is expected. */
static void reads(const char *text, size_t length, const lending *before, const tables *t, size_t more, const char *what)
{
    lending lines = lend(4 * (more % 2), LINE_BYTES * t->frames + more), records = lend(more % 7, t->bytes + more);
    skriemelt_back_answer a;

    if (t->frames > 0)
        memcpy(expect(&lines, 0), t->lines, LINE_BYTES * t->frames);
    if (t->bytes > 0)
        memcpy(expect(&records, 0), t->records, t->bytes);
    a = read_call(text, length, before, &lines, &records);
    check(a.refusal == SKRIEMELT_ACCEPTED && a.place == 0 && a.frames == t->frames && a.bytes == t->bytes, what);
    hold(&lines, what);
    hold(&records, what);
    if (before != NULL)
        hold(before, what);
    give_one_back(&lines);
    give_one_back(&records);
}

/* Reading into this room is refused, and every buffer is as it came. */
static void no_read(const char *text, size_t length, const lending *before, size_t lines_room, size_t records_room, uint8_t refusal, uint64_t place, const char *what)
{
    lending lines = lend(4, lines_room), records = lend(3, records_room);
    skriemelt_back_answer a = read_call(text, length, before, &lines, &records);

    check(a.refusal == refusal && a.place == place && a.frames == 0 && a.bytes == 0, what);
    check(untouched(lines.all, lines.skew, lines_room, 0) && untouched(records.all, records.skew, records_room, 0), what);
    if (before != NULL)
        hold(before, what);
    give_one_back(&lines);
    give_one_back(&records);
}

/* Lays an update before. */
static void lay_before(uint8_t *to, uint8_t objects, const uint8_t *rows)
{
    size_t rows_bytes = 24 * (size_t)(objects > 159 ? 159 : objects);

    to[0] = objects;
    if (rows_bytes > 0)
        memcpy(to + 1, rows, rows_bytes);
}

/* An update before in `room` bytes, the others filled; it is expected to stay. */
static lending lend_before(size_t room, uint8_t objects, const uint8_t *rows)
{
    lending l = lend(room % 3, room);

    lay_before(bytes_in(&l), objects, rows);
    lay_before(expect(&l, 0), objects, rows);
    return l;
}

/* A frame's line by its places: number, refusal, objects, blocks, 0, and so many starts and ramps; all else 0. */
static void lay_line(uint8_t *to, uint32_t frame, uint8_t refusal, uint8_t objects, uint8_t blocks, const uint16_t *timing)
{
    size_t i;

    memset(to, 0, LINE_BYTES);
    lay(to, frame, 4);
    to[4] = refusal;
    to[5] = objects;
    to[6] = blocks;
    for (i = 0; i < 2 * (size_t)blocks; i++)
        lay(to + 8 + 2 * i, timing[i], 2);
}

/* Lines joined, each with its LF, but one of them, counted from 1, put in or left out (NULL); the length. */
static size_t joined(char *to, const char *const *lines, size_t count, size_t number, const char *other)
{
    size_t i;

    to[0] = '\0';
    for (i = 0; i < count; i++) {
        const char *line = i + 1 == number ? other : lines[i];

        if (line != NULL)
            strcat(strcat(to, line), "\n");
    }
    return strlen(to);
}

static const char *worked_text(void)
{
    static char text[WORKED_BYTES + 1];

    check(joined(text, worked_lines, 10, 0, NULL) == WORKED_BYTES, "the worked text has 936 bytes");
    return text;
}

/* What the worked text is read back to. */
static tables worked_tables(void)
{
    static const uint16_t timing[4] = {0, 0, 32, 0};
    static uint8_t lines[3 * LINE_BYTES], records[192];
    tables t = {lines, records, 3, 192};

    lay_line(lines, 7, 0, 3, 2, timing);
    lay_line(lines + LINE_BYTES, 8, 2, 0, 0, NULL);
    lay_line(lines + 2 * LINE_BYTES, 9, 0, 1, 0, NULL);
    lay_sample(records, 7);
    return t;
}

/* A text that is refused at a line, whatever the room, and with an update before too. */
static void bad_text(const char *text, size_t length, uint64_t place, const char *what)
{
    lending before = lend_before(SKRIEMELT_BEFORE_BYTES, 0, NULL);

    no_read(text, length, NULL, 400, 400, SKRIEMELT_BAD_LINE, place, what);
    no_read(text, length, NULL, 0, 0, SKRIEMELT_BAD_LINE, place, what);
    no_read(text, length, &before, 400, 400, SKRIEMELT_BAD_LINE, place, what);
    give_one_back(&before);
}

#endif
