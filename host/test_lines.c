/*
 * skriemelt_catalogue_read, line by line: each sort of line that cannot stand where it stands, every beginning of a text, every value of every field, numbers about their bounds, bytes
 * changed one by one, and the longest text that a frame can have. Each buffer lies between canaries, and is held whole to what is expected of it.
 */
#include "catalogue.h"

/* The worked text with another line put in for one of its lines, or one left out. */
static void bad_line(size_t number, const char *other, uint64_t place)
{
    char text[2 * WORKED_BYTES];
    size_t length = joined(text, worked_lines, 10, number, other);

    bad_text(text, length, place, other == NULL ? "a line left out" : other);
}

/* Every beginning of the worked text: behind lines 6 to 10 it is whole. */
static void beginnings(void)
{
    static const uint16_t timing[4] = {0, 0, 32, 0};
    const char *text = worked_text();
    tables t = worked_tables();
    uint8_t records[192];
    size_t length, lines = 0, object;

    for (length = 0; length < WORKED_BYTES; length++) {
        lines += length > 0 && text[length - 1] == '\n';
        if (length > 0 && (text[length - 1] != '\n' || lines < 6))
            bad_text(text, length, lines + 1, "a beginning that is not whole");
    }
    /* lines 1 to 6: update 1 repeats update 0, but for its time */
    lay_sample(records, 7);
    for (object = 0; object < 3; object++)
        memcpy(records + 64 * object + 32, records + 64 * object, 24);
    lay_line(t.lines, 7, 0, 3, 2, timing);
    t.frames = 1;
    t.records = records;
    reads(text, (size_t)(strstr(text, "object=0,gain=62") - text), NULL, &t, 5, "an update without entries");
    t = worked_tables();
    t.frames = 2;
    reads(text, (size_t)(strstr(text, "frame=9") - text), NULL, &t, 5, "without the last frame");
    t.frames = t.bytes = 0;
    reads(text, 0, NULL, &t, 50, "without any frame");
}

/* Lines of another form, each in the place of a good one. */
static void forms(void)
{
    static const struct {
        size_t number;
        const char *line;
    } some[] = {
        {1, ""}, {1, "\r"}, {1, " frame=7,objects=3,blocks=2"}, {1, "frame=7,objects=3,blocks=2 "}, {1, "frame=7,objects=3,blocks=2\r"}, {1, "Frame=7,objects=3,blocks=2"},
        {1, "frame=7,objects=3"}, {1, "frame=7"}, {1, "frame=7,"}, {1, "frame=7,objects=3,blocks=2,"}, {1, "frame=7,objects=3,blocks=2,unknown=0"}, {1, "frame=7,blocks=2,objects=3"},
        {1, "objects=3,blocks=2"}, {1, "frame=7,objects=3,objects=3,blocks=2"}, {1, "frame=7,,objects=3,blocks=2"}, {1, "frame=7;objects=3;blocks=2"}, {1, "frame 7,objects=3,blocks=2"},
        {1, "frame==7,objects=3,blocks=2"}, {1, "frame=,objects=3,blocks=2"}, {1, "frame=07,objects=3,blocks=2"}, {1, "frame=+7,objects=3,blocks=2"}, {1, "frame=-7,objects=3,blocks=2"},
        {1, "frame=0x7,objects=3,blocks=2"}, {1, "frame=7,objects=03,blocks=2"}, {1, "frame=7,objects=3,blocks=02"}, {1, "frame=7,refusal=0,objects=3,blocks=2"}, {1, "# a comment"},
        {1, "frame=7,objects=3,blocks=2\n"}, {2, "start=0"}, {2, "start=0,"}, {2, "ramp=0,start=0"}, {2, "start=0,ramp=0,"}, {2, "start=00,ramp=0"}, {2, "start=0,ramp=00"},
        {2, "start=,ramp=0"}, {2, "start=0,ramp="}, {2, "start=0,ramp=0,ramp=0"}, {2, "start=0 ,ramp=0"}, {2, "start=0,object=0"}, {2, "start"}, {2, "s"},
        {7, "object=0"}, {7, "object=0,"}, {7, "object=00,gain=62,priority=4"}, {7, "object=,gain=62,priority=4"}, {7, "gain=62,priority=4"}, {7, "object=0,gain=062,priority=4"},
        {7, "object=0,priority=4,gain=62"}, {7, "object=0,gain=62,gain=62,priority=4"}, {7, "object=0,gain=62,gain=61"}, {7, "object=0,gain=62,priority=4,"}, {7, "object=0,gain=62,,priority=4"},
        {7, "object=0,gain=62priority=4"}, {7, "object=0,gain=62,time=4"}, {7, "object=0,Gain=62,priority=4"}, {7, "object=0,gains=62,priority=4"}, {7, "object=0,gain=,priority=4"},
        {7, "object=0,gain= 62,priority=4"}, {7, "object=0,gain=62,priority=4\t"}, {7, "object=0,gain=6 2,priority=4"}, {7, "object=0,gain=0x3e,priority=4"}, {7, "object=0,gain=62.0,priority=4"},
        {7, "object=0,precise_=1"}, {7, "object=0,screen_=1"}, {7, "object=0,divergence_mode_=1"}, {7, "object=0,2=62,3=4"}, {7, "object=0,object=1,gain=62"}, {7, "object=0,start=32"},
        {9, "frame=8,refusal=02"}, {9, "frame=8,refusal="}, {9, "frame=8,refusal=2,place=18"}, {9, "frame=8,refusal=2,"}, {9, "frame=08,refusal=2"}, {9, "refusal=2"}, {9, "frame=8,refusal=2x"},
        {10, "frame=9,objects=1,blocks=0\n"},
    };
    size_t i;

    for (i = 0; i < sizeof some / sizeof some[0]; i++) {
        size_t length = strlen(some[i].line);

        /* a blank line behind a good one is the next line */
        bad_line(some[i].number, some[i].line, some[i].number + (length > 0 && some[i].line[length - 1] == '\n'));
    }
}

/* Bytes that are no text, and ends without LF. */
static void other_bytes(void)
{
    char text[WORKED_BYTES + 2];
    size_t at;

    memcpy(text, worked_text(), WORKED_BYTES);
    text[WORKED_BYTES] = '\n';
    bad_text(text, WORKED_BYTES - 1, 10, "without the last LF");
    bad_text(text, WORKED_BYTES + 1, 11, "one LF more");
    text[WORKED_BYTES] = '\0';
    bad_text(text, WORKED_BYTES + 1, 11, "a byte 0 at the end");
    bad_text("\n", 1, 1, "a blank line");
    bad_text("\n\n", 2, 1, "two blank lines");
    bad_text("x", 1, 1, "one byte");
    bad_text("\xEF\xBB\xBF" "frame=8,refusal=2\n", 21, 1, "a mark of order before the text");
    bad_text("frame=8,refusal=2\r\n", 19, 1, "CR and LF");
    for (at = 0; at < 18; at++) {
        memcpy(text, "frame=8,refusal=2\n", 18);
        text[at] = '\0';
        bad_text(text, 18, 1, "a byte 0 in a line");
        text[at] = (char)0x80;
        bad_text(text, 18, 1, "a byte above 127 in a line");
    }
}

/* Good lines out of their place. */
static void places(void)
{
    bad_line(1, NULL, 1);
    bad_line(2, NULL, 2);
    bad_line(3, NULL, 3);
    bad_line(4, NULL, 4);
    bad_line(5, NULL, 5);
    bad_line(6, NULL, 6);
    bad_line(1, "frame=7,objects=3,blocks=3", 9);
    bad_line(1, "frame=7,objects=3,blocks=1", 6);
    bad_line(1, "frame=7,objects=3,blocks=0", 2);
    bad_line(1, "frame=7,objects=2,blocks=2", 5);
    bad_line(1, "frame=7,objects=4,blocks=2", 6);
    bad_line(1, "frame=7,refusal=2", 2);
    bad_line(2, "start=0,ramp=0\nstart=0,ramp=0", 3);
    bad_line(2, "frame=7,objects=3,blocks=2", 2);
    bad_line(3, FULL_1, 3);
    bad_line(4, FULL_0, 4);
    bad_line(5, FULL_1, 5);
    bad_line(5, FULL_2 "\n" FULL_2, 6);
    bad_line(6, "start=32,ramp=0\nstart=64,ramp=0", 7);
    bad_line(6, "frame=8,refusal=2", 6);
    bad_line(7, "object=2,active=1,x=9,y=8,z=57", 8);
    bad_line(7, "object=0,gain=62\nobject=0,priority=4", 8);
    bad_line(8, "object=0,active=0", 8);
    bad_line(8, "object=1,active=0\nobject=0,active=0", 9);
    bad_line(8, "object=3,active=0", 8);
    bad_line(9, "start=64,ramp=0", 9);
    bad_line(9, "frame=8,refusal=2\nobject=2,gain=1", 10);
    bad_line(9, "frame=8,refusal=2\nstart=0,ramp=0", 10);
    bad_line(10, "frame=9,objects=1,blocks=1", 11);
    bad_line(10, "frame=9,objects=3,blocks=1\nstart=0,ramp=0\nobject=0,gain=62", 12);
    bad_line(10, "frame=9,objects=3,blocks=1\nobject=0,gain=61", 11);
    bad_line(10, "frame=9,objects=1,blocks=1\nstart=0,ramp=0", 12);
    bad_line(10, "frame=9,objects=1,blocks=0\nobject=0,gain=61", 11);
    bad_line(10, "frame=9,objects=1,blocks=0\nstart=0,ramp=0", 11);
}

/* An update that lists every field lists each one of each object. */
static void full_entries(void)
{
    bad_line(3, "object=0,active=1", 3);
    bad_line(3, "object=0", 3);
    bad_line(3, "object=0,class=0,gain=50,priority=2,x=31,y=31,z=64" REST, 3);
    bad_line(3, "object=0,active=1,class=0,priority=2,x=31,y=31,z=64" REST, 3);
    bad_line(3, "object=0,active=1,class=0,gain=50,priority=2,x=31,y=31" REST, 3);
    bad_line(3, FULL_0 ",precise_z=0", 3);
    bad_line(3, FULL_0 ",", 3);
    bad_line(3, FULL_0 ",active=1", 3);
    bad_line(4, "object=1,active=1,class=2,gain=50,priority=32,x=11,y=12,z=80" REST, 4);
    bad_line(4, "object=1,active=1,class=3,gain=50,priority=32,x=11,y=12,z=77" REST, 4);
}

/* A listed field that is as before, with one that is not, too. */
static void unchanged(void)
{
    bad_line(7, "object=0,gain=50,priority=4", 7);
    bad_line(7, "object=0,gain=62,priority=2", 7);
    bad_line(7, "object=0,gain=50", 7);
    bad_line(7, "object=0,gain=62,priority=4,precise_z=0", 7);
    bad_line(7, "object=0,active=1,gain=62,priority=4", 7);
    bad_line(7, "object=1,active=1", 7);
    bad_line(8, "object=2,active=0,x=9,y=8,z=57", 8);
    bad_line(10, "frame=9,objects=3,blocks=1\nstart=0,ramp=0\nobject=0,gain=62", 12);
    bad_line(10, "frame=9,objects=3,blocks=1\nstart=0,ramp=0\nobject=0,gain=50,priority=4", 12);
}

/* Numbers about their bounds. A text that is one line and accepted has one frame and no records. */
static void one_line(const char *line, uint32_t frame, uint8_t refusal, uint8_t objects, int good)
{
    uint8_t bytes[LINE_BYTES];
    tables t = {bytes, NULL, 1, 0};
    char text[100];
    size_t length = joined(text, &line, 1, 0, NULL);

    lay_line(bytes, frame, refusal, objects, 0, NULL);
    if (good)
        reads(text, length, NULL, &t, 3, line);
    else
        bad_text(text, length, 1, line);
}

static void frame_numbers(void)
{
    char line[100];
    unsigned n;

    for (n = 0; n < 300; n++) {
        snprintf(line, sizeof line, "frame=3,refusal=%u", n);
        one_line(line, 3, (uint8_t)n, 0, (n >= 1 && n <= 8) || n == 12);
        snprintf(line, sizeof line, "frame=3,objects=%u,blocks=0", n);
        one_line(line, 3, 0, (uint8_t)n, n >= 1 && n <= 159);
        snprintf(line, sizeof line, "frame=%u,refusal=12", n);
        one_line(line, n, 12, 0, 1);
    }
    one_line("frame=4294967295,refusal=1", UINT32_MAX, 1, 0, 1);
    one_line("frame=4294967296,refusal=1", 0, 1, 0, 0);
    one_line("frame=4294967300,refusal=1", 0, 1, 0, 0);
    one_line("frame=9999999999,refusal=1", 0, 1, 0, 0);
    one_line("frame=42949672950,refusal=1", 0, 1, 0, 0);
    one_line("frame=18446744073709551617,refusal=1", 0, 1, 0, 0);
    one_line("frame=340282366920938463463374607431768211457,refusal=1", 0, 1, 0, 0);
    one_line("frame=1,refusal=257", 0, 1, 0, 0);
    one_line("frame=1,refusal=18446744073709551617", 0, 1, 0, 0);
    one_line("frame=1,objects=4294967297,blocks=0", 0, 0, 1, 0);
    one_line("frame=1,objects=1,blocks=256", 0, 0, 1, 0);
    one_line("frame=1,objects=1,blocks=9", 0, 0, 1, 0);
}

/* A frame of one object with so many updates, of which the first lists every field; `start`, `ramp` of them all. */
static void one_timing(unsigned blocks, unsigned start, unsigned ramp)
{
    uint8_t line[LINE_BYTES], records[9 * 32];
    uint16_t timing[18];
    tables t = {line, records, 1, 32 * (size_t)blocks};
    char text[1000];
    size_t length = (size_t)snprintf(text, sizeof text, "frame=1,objects=1,blocks=%u\n", blocks), i;

    for (i = 0; i < blocks; i++) {
        length += (size_t)snprintf(text + length, sizeof text - length, "start=%u,ramp=%u\n%s", start, ramp, i == 0 ? FULL_0 "\n" : "");
        timing[2 * i] = (uint16_t)start;
        timing[2 * i + 1] = (uint16_t)ramp;
        memcpy(records + 32 * i, sample_records, 24);
        lay(records + 32 * i + 24, 1536 + (uint64_t)start, 8);
    }
    if (blocks > 8) {
        bad_text(text, length, 1, "nine blocks");
    } else if (start > 2047 || ramp > 2048) {
        bad_text(text, length, 2, "a start or ramp that no update has");
    } else {
        lay_line(line, 1, 0, 1, (uint8_t)blocks, timing);
        reads(text, length, NULL, &t, 1, "starts and ramps");
    }
}

static void timings(void)
{
    static const unsigned numbers[12] = {0, 1, 9, 10, 1535, 1536, 2046, 2047, 2048, 2049, 65536, 65537};
    unsigned i, j;

    for (i = 0; i < 12; i++) {
        for (j = 0; j < 12; j++)
            one_timing(1 + i % 8, numbers[i], numbers[j]);
    }
    for (i = 1; i < 10; i++)
        one_timing(i, 100 * i, i);
}

/* The fields of a record and the values that each can have, by itself. */
static const struct field {
    const char *key;
    unsigned least, most;
} fields[24] = {
    {"active", 0, 1},       {"class", 0, 2},        {"gain", 0, 65},        {"priority", 0, 32},     {"x", 0, 62},         {"y", 0, 62},
    {"z", 49, 79},          {"distance", 0, 17},    {"width", 0, 31},       {"depth", 0, 31},        {"height", 0, 31},    {"zone", 0, 5},
    {"elevation", 0, 1},    {"screen", 0, 1},       {"screen_factor", 0, 7}, {"screen_depth", 0, 3}, {"snap", 0, 1},       {"divergence", 0, 1},
    {"divergence_mode", 0, 2}, {"divergence_value", 0, 63}, {"precise", 0, 7}, {"precise_x", 0, 3},  {"precise_y", 0, 3},  {"precise_z", 0, 3},
};

/* Lays an entry with all fields of a row, one of them with another value; the length. */
static size_t full_entry(char *to, size_t room, unsigned object, const uint8_t *row, size_t other, unsigned long value)
{
    size_t length = (size_t)snprintf(to, room, "object=%u", object), i;

    for (i = 0; i < 24; i++)
        length += (size_t)snprintf(to + length, room - length, ",%s=%lu", fields[i].key, i == other ? value : row[i]);
    return length + (size_t)snprintf(to + length, room - length, "\n");
}

/* A value of a field in an update that lists every field, and in one that lists it alone: there it must be another than before. */
static void one_value(size_t i, unsigned long value)
{
    static const uint16_t timing[4] = {5, 0, 6, 0};
    uint8_t line[LINE_BYTES], records[64];
    tables t = {line, records, 1, 64};
    char text[1000];
    int good = value >= fields[i].least && value <= fields[i].most;
    size_t begun = (size_t)snprintf(text, sizeof text, "frame=0,objects=1,blocks=2\nstart=5,ramp=0\n"), length;

    lay_line(line, 0, 0, 1, 2, timing);
    memset(records, 0, sizeof records);
    memcpy(records, sample_records, 24);
    memcpy(records + 32, sample_records, 24);
    records[24] = 5;
    records[32 + i] = (uint8_t)value;
    records[32 + 24] = 6;
    length = begun + full_entry(text + begun, sizeof text - begun, 0, sample_records, 24, 0);
    length += (size_t)snprintf(text + length, sizeof text - length, "start=6,ramp=0\nobject=0,%s=%lu\n", fields[i].key, value);
    if (good && value != sample_records[i])
        reads(text, length, NULL, &t, 0, fields[i].key);
    else
        bad_text(text, length, 5, fields[i].key);
    records[i] = (uint8_t)value;
    length = begun + full_entry(text + begun, sizeof text - begun, 0, sample_records, i, value);
    length += (size_t)snprintf(text + length, sizeof text - length, "start=6,ramp=0\n");
    if (good)
        reads(text, length, NULL, &t, 0, fields[i].key);
    else
        bad_text(text, length, 3, fields[i].key);
}

static void values(void)
{
    static const unsigned long great[8] = {128, 255, 256, 257, 306, 1000, 65536, 4294967296UL};
    size_t i, k;
    unsigned long value;

    for (i = 0; i < 24; i++) {
        for (value = 0; value < 102; value++)
            one_value(i, value);
        for (k = 0; k < 8; k++)
            one_value(i, great[k]);
    }
}

/* Values that no record has side by side, but each by itself: a bed's object with a position, starts with different remainders, codes without their presence bits. */
static void alone(void)
{
    static const char text[] = "frame=1,objects=1,blocks=2\nstart=1,ramp=0\n" FULL_0 "\nstart=34,ramp=0\nobject=0,active=0,x=5,precise_z=3\n";
    static const uint16_t timing[4] = {1, 0, 34, 0};
    uint8_t line[LINE_BYTES], records[64];
    tables t = {line, records, 1, 64};

    lay_line(line, 1, 0, 1, 2, timing);
    memcpy(records, sample_records, 24);
    memcpy(records + 32, sample_records, 24);
    lay(records + 24, 1537, 8);
    records[32] = 0;
    records[32 + 4] = 5;
    records[32 + 23] = 3;
    lay(records + 56, 1570, 8);
    reads(text, sizeof text - 1, NULL, &t, 9, "each value by itself");
}

/* One byte changed: the first bad line is not before it, and what is accepted is read to something else. */
static void changed_bytes(void)
{
    static const char bytes[] = "0123456789,=_ \n\rafo\xFF";
    static skriemelt_catalogue_frame lines[4];
    static uint8_t records[1000];
    tables t = worked_tables();
    char text[WORKED_BYTES];
    size_t at, i, line = 1;

    memcpy(text, worked_text(), WORKED_BYTES);
    for (at = 0; at < WORKED_BYTES; at++) {
        char kept = text[at];

        for (i = 0; i < sizeof bytes; i++) {
            skriemelt_back_answer a;

            text[at] = bytes[i];
            a = skriemelt_catalogue_read((const uint8_t *)text, WORKED_BYTES, lines, sizeof lines, records, sizeof records);
            if (a.refusal == SKRIEMELT_BAD_LINE)
                check(text[at] != kept && a.place >= line && a.place <= 11, "a byte changed, and refused");
            else
                check(a.refusal == SKRIEMELT_ACCEPTED && (text[at] == kept) == (a.frames == 3 && a.bytes == 192 && memcmp(lines, t.lines, 120) == 0 && memcmp(records, t.records, 192) == 0),
                      "a byte changed, and something else");
        }
        text[at] = kept;
        line += kept == '\n';
    }
}

/* A row of the longest entries: two digits where the field can have them. Two such rows differ in every field. */
static void longest_row(uint8_t *row, unsigned odd)
{
    size_t i;

    for (i = 0; i < 24; i++)
        row[i] = (uint8_t)((fields[i].least > 0 ? 50 : fields[i].most > 9 ? 10 : 0) + odd);
}

/*
 * The longest lines of a frame: 38 bytes for its own, 21 for each update, and for each entry `object=`, the object's digits, 24 commas, the keys with their =, 197 bytes, ten values of two digits and
 * fourteen of one, and LF: 263 and the digits, of which 159 objects have 10 + 2 * 90 + 3 * 59 = 367. Eight updates that list all: 38 + 8 * (21 + 159 * 263 + 367) = 337,678.
 */
static void longest(void)
{
    static char text[SKRIEMELT_MOST_FRAME_TEXT_BYTES + 1];
    static uint8_t line[LINE_BYTES], records[SKRIEMELT_MOST_RECORD_BYTES];
    static const uint16_t timing[16] = {2047, 2048, 2047, 2048, 2047, 2048, 2047, 2048, 2047, 2048, 2047, 2048, 2047, 2048, 2047, 2048};
    tables t = {line, records, 1, 32 * 159 * 8};
    uint8_t row[24];
    size_t length = (size_t)snprintf(text, sizeof text, "frame=4294967295,objects=159,blocks=8\n");
    unsigned block, object;

    for (block = 0; block < 8; block++) {
        longest_row(row, block % 2);
        length += (size_t)snprintf(text + length, sizeof text - length, "start=2047,ramp=2048\n");
        for (object = 0; object < 159; object++) {
            uint8_t *record = records + 32 * (8 * object + block);

            length += full_entry(text + length, sizeof text - length, object, row, 24, 0);
            memcpy(record, row, 24);
            lay(record + 24, UINT64_C(0x600000001FF), 8);
        }
    }
    check(length == 337678 && length <= SKRIEMELT_MOST_FRAME_TEXT_BYTES, "the longest lines of a frame");
    lay_line(line, UINT32_MAX, 0, 159, 8, timing);
    reads(text, length, NULL, &t, 6, "the longest lines of a frame");
    bad_text(text, length - 1, 1 + 8 * 160, "the longest lines of a frame, without the last LF");
}

int main(void)
{
    beginnings();
    forms();
    other_bytes();
    places();
    full_entries();
    unchanged();
    frame_numbers();
    timings();
    values();
    alone();
    changed_bytes();
    longest();
    return finish("test_lines");
}
