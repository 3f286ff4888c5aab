/* The header's own functions: sentences, places of records, numbers for people, channels, counts. What is expected is worked from the standard's tables. */
#include "test.h"

static int near(double a, double b)
{
    return a - b < 1e-9 && b - a < 1e-9;
}

/* Each refusal has a sentence of its own; a number that is none has one too. */
static void sentences(void)
{
    static const unsigned refusals[] = {0, 1, 2, 3, 4, 5, 6, 7, 8, 9, 10, 11, 12, 13, 14, 16, 17, 18};
    const size_t count = sizeof refusals / sizeof refusals[0];
    size_t i, j;

    for (i = 0; i < count; i++) {
        check(strcmp(skriemelt_refusal_text(refusals[i]), skriemelt_refusal_text(15)) != 0, "a refusal has a sentence");
        for (j = 0; j < i; j++)
            check(strcmp(skriemelt_refusal_text(refusals[i]), skriemelt_refusal_text(refusals[j])) != 0, "a sentence of its own");
    }
    check(skriemelt_refusal_text(255) != NULL && skriemelt_refusal_text(4000000000U) != NULL, "every number has a sentence");
}

/* A switch over all refusals, in which the compiler would miss one. */
static int is_refused(uint8_t number)
{
    switch ((skriemelt_refusal)number) {
    case SKRIEMELT_ACCEPTED:
        return 0;
    case SKRIEMELT_TOO_LONG:
    case SKRIEMELT_PAST_PAYLOAD:
    case SKRIEMELT_OTHER_VERSION:
    case SKRIEMELT_COUNTS_DISAGREE:
    case SKRIEMELT_RESERVED_VALUE:
    case SKRIEMELT_SECOND_ELEMENT:
    case SKRIEMELT_EXTENDED_EARLY:
    case SKRIEMELT_PAST_ELEMENT:
    case SKRIEMELT_NO_ROOM:
    case SKRIEMELT_NOT_VALID:
    case SKRIEMELT_NO_FIT:
    case SKRIEMELT_OUTSIDE:
    case SKRIEMELT_LISTS:
    case SKRIEMELT_NO_SUCH:
    case SKRIEMELT_TOO_MANY:
    case SKRIEMELT_BAD_LINE:
    case SKRIEMELT_SHORT_TEXT:
        return 1;
    }
    return -1;
}

static void places(void)
{
    static const uint8_t records[SKRIEMELT_MOST_RECORD_BYTES];
    skriemelt_read_answer a;

    memset(&a, 0, sizeof a);
    a.programme.objects = 3;
    a.timing.blocks = 2;
    check(skriemelt_record(&a, records, 0, 0) == records, "the first record");
    check(skriemelt_record(&a, records, 1, 0) == records + 64, "objects outermost");
    check(skriemelt_record(&a, records, 2, 1) == records + 160, "the last record");
    check(skriemelt_record(&a, records, 3, 0) == NULL && skriemelt_record(&a, records, 0, 2) == NULL, "no such record");
    a.timing.blocks = 0;
    check(skriemelt_record(&a, records, 0, 0) == NULL, "no blocks, no record");
}

static void record_bytes(void)
{
    skriemelt_catalogue_frame line;

    memset(&line, 0, sizeof line);
    check(skriemelt_catalogue_record_bytes(&line) == 0, "a refused frame has no records");
    line.objects = 3;
    check(skriemelt_catalogue_record_bytes(&line) == 0, "a frame without blocks has no records");
    line.blocks = 2;
    check(skriemelt_catalogue_record_bytes(&line) == 192, "a record for each object and block");
    line.objects = 159;
    line.blocks = 8;
    check(skriemelt_catalogue_record_bytes(&line) == 40704, "the most records");
}

static void numbers(void)
{
    uint8_t r[SKRIEMELT_RECORD_STRIDE] = {0};

    check(skriemelt_gain_db(r) == -HUGE_VAL, "minus infinity");
    r[SKRIEMELT_RECORD_GAIN] = 65;
    check(near(skriemelt_gain_db(r), 15), "+15 dB");
    r[SKRIEMELT_RECORD_GAIN] = 1;
    check(near(skriemelt_gain_db(r), -49), "-49 dB");
    r[SKRIEMELT_RECORD_X] = 31;
    r[SKRIEMELT_RECORD_Y] = 62;
    r[SKRIEMELT_RECORD_Z] = 49;
    check(near(skriemelt_x(r), 0.5) && near(skriemelt_y(r), 1) && near(skriemelt_z(r), -1), "centre, back, floor");
    r[SKRIEMELT_RECORD_PRECISE_X] = 1;
    r[SKRIEMELT_RECORD_PRECISE_Y] = 0;
    r[SKRIEMELT_RECORD_PRECISE_Z] = 3;
    check(near(skriemelt_x(r), 0.5) && near(skriemelt_z(r), -1), "codes without presence bits add nothing");
    r[SKRIEMELT_RECORD_PRECISE] = 7;
    check(near(skriemelt_x(r), 31.0 / 62 + 2.0 / 310), "code 1 adds two fifths");
    check(near(skriemelt_y(r), 1), "never beyond the back wall");
    check(near(skriemelt_z(r), -1 - 2.0 / 75), "code 3 takes two fifths");
    r[SKRIEMELT_RECORD_PRECISE_X] = 2;
    check(near(skriemelt_x(r), 31.0 / 62 - 1.0 / 310), "code 2 takes one fifth");
}

/* The time that a set lays is the one that is read, and no other byte changes. */
static void one_time(uint32_t frame, uint16_t start, uint64_t time, const uint8_t *bytes)
{
    uint8_t r[SKRIEMELT_RECORD_STRIDE];
    unsigned i;

    memset(r, 0xA5, sizeof r);
    skriemelt_set_time(r, frame, start);
    check(memcmp(r + SKRIEMELT_RECORD_TIME, bytes, 8) == 0, "a time's bytes");
    check(skriemelt_time(r) == time, "a time");
    for (i = 0; i < SKRIEMELT_RECORD_TIME; i++)
        check(r[i] == 0xA5, "a time leaves the other bytes");
}

/* 7 * 1,536 + 32 is 10,784, or 0x2A20; 4,294,967,295 * 1,536 + 2,047 is 0x600000001FF. */
static void times(void)
{
    static const uint8_t none[8] = {0}, start[8] = {0x20}, seventh[8] = {0x20, 0x2A}, last[8] = {0xFF, 0x01, 0, 0, 0, 0x06};
    static const uint8_t every[SKRIEMELT_RECORD_STRIDE] = {[SKRIEMELT_RECORD_TIME] = 1, 2, 3, 4, 5, 6, 7, 8};

    one_time(0, 0, 0, none);
    one_time(0, 32, 32, start);
    one_time(7, 32, 10784, seventh);
    one_time(UINT32_MAX, 2047, UINT64_C(0x600000001FF), last);
    check(skriemelt_time(every) == UINT64_C(0x0807060504030201), "least byte first");
}

static void channels(void)
{
    skriemelt_bed standard = {0x00F, 0, 1}, other = {0x10003, 0, 0}, lfe = {0, 1, 0};

    check(strcmp(skriemelt_channel_label(&standard, 0), "L R") == 0, "bit 0 is left and right");
    check(strcmp(skriemelt_channel_label(&standard, 9), "LFE2") == 0 && skriemelt_channel_label(&standard, 10) == NULL, "bit 9 is the last");
    check(strcmp(skriemelt_channel_label(&other, 1), "R") == 0, "bit 1 is right");
    check(strcmp(skriemelt_channel_label(&other, 16), "LFE2") == 0 && skriemelt_channel_label(&other, 17) == NULL, "bit 16 is the last");
    check(strcmp(skriemelt_channel_label(&lfe, 0), "LFE") == 0 && skriemelt_channel_label(&lfe, 1) == NULL, "an LFE-only bed");
    check(skriemelt_bed_objects(&standard) == 6, "L R C LFE LS RS");
    check(skriemelt_bed_objects(&other) == 3, "L R LFE2");
    check(skriemelt_bed_objects(&lfe) == 1, "one channel");
    standard.assignment = 0x3FF;
    check(skriemelt_bed_objects(&standard) == 17, "all of Table 12");
    other.assignment = 0x1FFFF;
    check(skriemelt_bed_objects(&other) == 17, "all of Table 13");
}

static int are(skriemelt_counts c, unsigned bed, unsigned isf, unsigned dynamic)
{
    return c.bed == bed && c.isf == isf && c.dynamic == dynamic;
}

static void counts(void)
{
    skriemelt_programme p;

    memset(&p, 0, sizeof p);
    p.objects = 11;
    p.dynonly = 1;
    p.lfe = 1;
    check(are(skriemelt_counts_of(&p), 1, 0, 10), "dynamic objects only, with an LFE object");
    p.dynonly = p.lfe = 0;
    p.objects = 23;
    p.content = SKRIEMELT_CONTENT_BED | SKRIEMELT_CONTENT_ISF | SKRIEMELT_CONTENT_DYNAMIC;
    p.bedcount = 2;
    p.beds[0].standard = 1;
    p.beds[0].assignment = 0x00F;
    p.beds[1].lfeonly = 1;
    p.isf = 2;
    p.dynamics = 5;
    check(are(skriemelt_counts_of(&p), 7, 10, 6), "two beds, SR7.3.0.0 and six more");
}

/* Names that are there up to the last and all differ. */
static void all_differ(const char *(*name)(unsigned), unsigned first, unsigned end, const char *what)
{
    unsigned i, j;

    for (i = first; i < end; i++) {
        check(name(i) != NULL && name(i)[0] != '\0', what);
        for (j = first; j < i; j++)
            check(strcmp(name(i), name(j)) != 0, what);
    }
    check(name(end) == NULL && name(4000000000U) == NULL, what);
}

/* Names of a record's bytes, and the standard's names of fields, each end and one between. */
static void names(void)
{
    all_differ(skriemelt_byte_name, 0, SKRIEMELT_RECORD_BYTES, "the name of a byte");
    check(strcmp(skriemelt_byte_name(SKRIEMELT_RECORD_ACTIVE), "active") == 0, "the first byte's name");
    check(strcmp(skriemelt_byte_name(SKRIEMELT_RECORD_SCREEN_DEPTH), "screen_depth") == 0, "the name of byte 15");
    check(strcmp(skriemelt_byte_name(SKRIEMELT_RECORD_PRECISE_Z), "precise_z") == 0, "the last byte's name");
    all_differ(skriemelt_field_name, SKRIEMELT_FIELD_NOT_ACTIVE, SKRIEMELT_FIELD_PRECISE_Z + 1, "the name of a field");
    check(skriemelt_field_name(SKRIEMELT_FIELD_NONE) == NULL, "no field has no name");
    check(strcmp(skriemelt_field_name(SKRIEMELT_FIELD_NOT_ACTIVE), "b_object_not_active") == 0, "the first field");
    check(strcmp(skriemelt_field_name(SKRIEMELT_FIELD_ZONE_IDX), "zone_constraints_idx") == 0, "field 15");
    check(strcmp(skriemelt_field_name(SKRIEMELT_FIELD_PRESENCE), "ext_prec_pos_presence[]") == 0, "an array");
    check(strcmp(skriemelt_field_name(SKRIEMELT_FIELD_PRECISE_Z), "ext_prec_pos3D_Z") == 0, "the last field");
}

static void words(void)
{
    static const char *const expected[7] = {"field", "programme", "default", "default", "nothing", "block", "object"};
    unsigned i;

    for (i = SKRIEMELT_SOURCE_FIELD; i <= SKRIEMELT_SOURCE_OBJECT; i++)
        check(strcmp(skriemelt_source_word(i), expected[i - 1]) == 0, "the word of a source");
    check(skriemelt_source_word(0) == NULL && skriemelt_source_word(8) == NULL, "no such source");
}

/* The known elements have a name, each its own, and no other id has. */
static void elements(void)
{
    unsigned id;

    check(strcmp(skriemelt_element_name(SKRIEMELT_ELEMENT_OBJECT), "object element") == 0, "the object element");
    check(strcmp(skriemelt_element_name(SKRIEMELT_ELEMENT_TRIM), "trim element") == 0, "the trim element");
    check(strcmp(skriemelt_element_name(SKRIEMELT_ELEMENT_EXTENDED), "extended object element") == 0, "the extended object element");
    for (id = 0; id < 20; id++)
        check((skriemelt_element_name(id) != NULL) == (id == 1 || id == 2 || id == 5), "no other element");
}

/* Two's complement of 3 bits. */
static void differences(void)
{
    static const int expected[8] = {0, 1, 2, 3, -4, -3, -2, -1};
    skriemelt_why_step s;
    unsigned i;

    memset(&s, 0, sizeof s);
    for (i = 0; i < 8; i++) {
        s.difference = (uint8_t)i;
        check(skriemelt_difference(&s) == expected[i], "a difference");
    }
}

int main(void)
{
    sentences();
    check(is_refused(0) == 0 && is_refused(14) == 1 && is_refused(16) == 1 && is_refused(17) == 1 && is_refused(18) == 1 && is_refused(15) == -1, "a switch over the enum");
    places();
    record_bytes();
    numbers();
    times();
    channels();
    counts();
    names();
    words();
    elements();
    differences();
    check(SKRIEMELT_VERSION == 1000 * SKRIEMELT_VERSION_MAJOR + SKRIEMELT_VERSION_MINOR, "the version's parts");
    check(strcmp(SKRIEMELT_VERSION_STRING, "3.4") == 0, "the version's text");
#ifndef SKRIEMELT_TOO_LONG
    check(0, "the names are macros too");
#endif
    return finish("test_header");
}
