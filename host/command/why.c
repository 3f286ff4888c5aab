/* skriemelt why: where a byte of a record comes from, step by step. */
#include "command.h"

#include <string.h>

#define CELL 48

/* What is asked for. */
typedef struct question {
    uint32_t object, block, byte;
} question;

#define MOST_NUMBER UINT32_MAX
#define NO_NUMBER ((unsigned long long)MOST_NUMBER + 1)

/* The byte of this name; SKRIEMELT_RECORD_BYTES if there is none. */
static unsigned byte_named(const char *name)
{
    unsigned byte;

    for (byte = 0; byte < SKRIEMELT_RECORD_BYTES; byte++) {
        if (strcmp(name, skriemelt_byte_name(byte)) == 0)
            break;
    }
    return byte;
}

/* Takes the words behind the file; whether they are a question, else complained of. */
static int take_question(const request *asked, question *q)
{
    unsigned long long object, block, byte;

    if (asked->name_count < 4) {
        misuse("why", "needs FILE OBJECT BLOCK BYTE");
        return 0;
    }
    object = number_of(asked->names[1], MOST_NUMBER, NO_NUMBER);
    block = number_of(asked->names[2], MOST_NUMBER, NO_NUMBER);
    byte = byte_named(asked->names[3]);
    if (byte == SKRIEMELT_RECORD_BYTES)
        byte = number_of(asked->names[3], MOST_NUMBER, NO_NUMBER);
    if (object == NO_NUMBER)
        misuse(asked->names[1], "an object is a number from 0 to 4294967295");
    else if (block == NO_NUMBER)
        misuse(asked->names[2], "a block is a number from 0 to 4294967295");
    else if (byte == NO_NUMBER)
        misuse(asked->names[3], "a byte is a number from 0 to 23, or a name such as gain ('skriemelt why --help' has them)");
    q->object = (uint32_t)object;
    q->block = (uint32_t)block;
    q->byte = (uint32_t)byte;
    return object != NO_NUMBER && block != NO_NUMBER && byte != NO_NUMBER;
}

/* ---- lines key=value */

static void print_step(const skriemelt_why_step *s)
{
    const char *word = skriemelt_source_word(s->source), *name = skriemelt_field_name(s->field);

    print("step=%u,%u,%u,%s", s->object, s->block, s->value, word != NULL ? word : "?");
    if (s->source == SKRIEMELT_SOURCE_BASIC_DEFAULT)
        print(",28");
    else if (s->source == SKRIEMELT_SOURCE_RENDER_DEFAULT)
        print(",29");
    if (name != NULL)
        print(",%s,%lu", name, (unsigned long)s->bit);
    if (name != NULL && s->source == SKRIEMELT_SOURCE_BLOCK)
        print(",%d", skriemelt_difference(s));
    print("\n");
}

static void print_lines(const skriemelt_why_answer *a)
{
    unsigned i;

    print("refusal=%u\nplace=%llu\n", a->refusal, (unsigned long long)a->place);
    if (a->refusal == SKRIEMELT_PAST_PAYLOAD)
        print("missing=%lu\n", (unsigned long)a->missing);
    for (i = 0; i < a->count; i++)
        print_step(&a->steps[i]);
}

/* ---- sentences */

static const char *const nouns[SKRIEMELT_RECORD_BYTES] = {
    "Active flag", "Class", "Gain", "Priority", "Position x", "Position y", "Position z", "Distance", "Width", "Depth", "Height", "Zone", "Elevation flag", "Screen flag", "Screen factor code",
    "Screen depth code", "Snap flag", "Divergence flag", "Divergence mode", "Divergence value", "Presence code of the precise position", "Precise code of x", "Precise code of y",
    "Precise code of z"};

/* The value of a byte as people say it. */
static void value_cell(unsigned byte, unsigned value, char *cell)
{
    switch (byte) {
    case SKRIEMELT_RECORD_ACTIVE:
    case SKRIEMELT_RECORD_ELEVATION:
    case SKRIEMELT_RECORD_SCREEN:
    case SKRIEMELT_RECORD_SNAP:
    case SKRIEMELT_RECORD_DIVERGENCE:
        snprintf(cell, CELL, value ? "set" : "not set");
        break;
    case SKRIEMELT_RECORD_CLASS:
        snprintf(cell, CELL, "%s", class_name(value));
        break;
    case SKRIEMELT_RECORD_GAIN:
        if (value == 0)
            snprintf(cell, CELL, "minus infinity");
        else
            snprintf(cell, CELL, "%+d dB", (int)value - 50);
        break;
    case SKRIEMELT_RECORD_PRIORITY:
        snprintf(cell, CELL, "%u/32", value);
        break;
    case SKRIEMELT_RECORD_X:
    case SKRIEMELT_RECORD_Y:
        snprintf(cell, CELL, "%u/62", value);
        break;
    case SKRIEMELT_RECORD_Z:
        snprintf(cell, CELL, "%+d/15", (int)value - 64);
        break;
    case SKRIEMELT_RECORD_DISTANCE:
        distance_cell(value, cell, CELL);
        break;
    case SKRIEMELT_RECORD_WIDTH:
    case SKRIEMELT_RECORD_DEPTH:
    case SKRIEMELT_RECORD_HEIGHT:
        snprintf(cell, CELL, "%u/31", value);
        break;
    case SKRIEMELT_RECORD_ZONE:
        snprintf(cell, CELL, "%u (%s)", value, zone_name(value));
        break;
    default:
        snprintf(cell, CELL, "%u", value);
    }
}

/* That of the block before, as it is or moved: by which field, by how much, and whether the end of the range held it up. */
static void print_before(const skriemelt_why_step *s, const skriemelt_why_step *behind)
{
    const char *name = skriemelt_field_name(s->field);
    int by = skriemelt_difference(s);

    print("it is that of the block before");
    if (name != NULL)
        print(", moved by %+d, which %s at bit %lu gives", by, name, (unsigned long)s->bit);
    if (behind->value + by != s->value)
        print(", and held at the end of its range");
    print(".\n");
}

/* A default, and what makes it one: a block of an object that is not active, a class that sends no position, or the block's status. */
static void print_default(unsigned table, const uint8_t *record)
{
    const char *since = "the block says so";

    if (!record[SKRIEMELT_RECORD_ACTIVE])
        since = "the object is not active there";
    else if (table == 29 && record[SKRIEMELT_RECORD_CLASS] != SKRIEMELT_CLASS_DYNAMIC)
        since = "the object is not a dynamic one";
    print("it is the default of Table %u, since %s.\n", table, since);
}

static void print_sentence(unsigned byte, const skriemelt_why_step *s, const skriemelt_why_step *behind, const uint8_t *record)
{
    const char *name = skriemelt_field_name(s->field);
    char value[CELL];

    value_cell(byte, s->value, value);
    print("%s of object %u in block %u is %s: ", nouns[byte], s->object, s->block, value);
    switch (s->source) {
    case SKRIEMELT_SOURCE_FIELD:
        print("%s at bit %lu gives it.\n", name != NULL ? name : "?", (unsigned long)s->bit);
        break;
    case SKRIEMELT_SOURCE_PROGRAMME:
        print("the programme gives it.\n");
        break;
    case SKRIEMELT_SOURCE_BASIC_DEFAULT:
        print_default(28, record);
        break;
    case SKRIEMELT_SOURCE_RENDER_DEFAULT:
        print_default(29, record);
        break;
    case SKRIEMELT_SOURCE_NOTHING:
        print("nothing is carried for it.\n");
        break;
    case SKRIEMELT_SOURCE_BLOCK:
        print_before(s, behind);
        break;
    default:
        print("it is that of the object before (object_gain_idx 3).\n");
    }
}

/* What there is none of, and what there is. */
static void print_no_such(const question *q, uint64_t place, const skriemelt_read_answer *r)
{
    unsigned objects = r->programme.objects, blocks = r->timing.blocks;

    print("refused (%u): there is no ", SKRIEMELT_NO_SUCH);
    if (place == 1)
        print("object %lu: the payload has %u object%s, counted from 0", (unsigned long)q->object, objects, objects == 1 ? "" : "s");
    else if (place == 2 && blocks == 0)
        print("block %lu: the payload has no object element", (unsigned long)q->block);
    else if (place == 2)
        print("block %lu: the payload has %u block%s, counted from 0", (unsigned long)q->block, blocks, blocks == 1 ? "" : "s");
    else
        print("byte %lu: the bytes that can be asked for are 0 to %d", (unsigned long)q->byte, SKRIEMELT_RECORD_BYTES - 1);
}

static void print_sentences(const question *q, const skriemelt_why_answer *a, const uint8_t *payload, size_t payload_bytes)
{
    static uint8_t records[SKRIEMELT_MOST_RECORD_BYTES], trim[SKRIEMELT_MOST_TRIM_BYTES];
    skriemelt_read_answer r = skriemelt_read(payload, payload_bytes, 0, records, sizeof records, trim, sizeof trim);
    const skriemelt_why_step *s = a->steps, *end = a->steps + a->count;

    for (; s < end; s++)
        print_sentence(q->byte, s, s + 1 < end ? s + 1 : s, skriemelt_record(&r, records, s->object, s->block));
    if (a->refusal == SKRIEMELT_ACCEPTED)
        return;
    if (a->refusal == SKRIEMELT_NO_SUCH)
        print_no_such(q, a->place, &r);
    else /* as in reading */
        print_reason(&r);
    print("\n");
}

int run_why(const request *asked)
{
    static uint8_t payload[LOOKED_AT];
    size_t payload_bytes;
    question q;
    skriemelt_why_answer a;

    if (!take_question(asked, &q) || !input_payload_file(asked->names[0], payload, &payload_bytes))
        return STATUS_FAILED;
    a = skriemelt_why(payload, payload_bytes, q.object, q.block, q.byte);
    if (asked->people)
        print_sentences(&q, &a, payload, payload_bytes);
    else
        print_lines(&a);
    return a.refusal == SKRIEMELT_ACCEPTED ? STATUS_ACCEPTED : STATUS_REFUSED;
}
