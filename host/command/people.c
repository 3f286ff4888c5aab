/* A payload as a table that a person reads. */
#include "command.h"

#include <string.h>

#define CELL 24

const char *class_name(unsigned class_number)
{
    static const char *const names[3] = {"bed", "ISF", "dynamic"};

    return class_number < 3 ? names[class_number] : "?";
}

/* Table 20. */
const char *zone_name(unsigned zone)
{
    static const char *const names[6] = {"all", "no back", "no side", "centre+back", "screen", "surround"};

    return zone < 6 ? names[zone] : "?";
}

/* The channel of object `object` of a bed, counted from 0, into the cell. */
static void bed_channel(const skriemelt_bed *bed, unsigned object, char *cell)
{
    unsigned bit, before = 0;
    const char *label;

    for (bit = 0; (label = skriemelt_channel_label(bed, bit)) != NULL; bit++) {
        const char *space = strchr(label, ' ');
        unsigned here = space == NULL ? 1 : 2;

        if (!bed->lfeonly && (bed->assignment >> bit & 1) == 0)
            continue;
        if (object < before + here) {
            int second = object > before;
            int length = (int)(second || space == NULL ? strlen(second ? space + 1 : label) : (size_t)(space - label));

            snprintf(cell, CELL, "bed %.*s", length, second ? space + 1 : label);
            return;
        }
        before += here;
    }
}

/* Class and, for a bed's object, its channel. */
static void class_cell(const skriemelt_programme *p, unsigned class_number, unsigned object, char *cell)
{
    unsigned i;

    snprintf(cell, CELL, "%s", class_name(class_number));
    if (class_number != SKRIEMELT_CLASS_BED)
        return;
    if (p->dynonly)
        snprintf(cell, CELL, "bed LFE");
    for (i = 0; i < p->bedcount && i < SKRIEMELT_MOST_BEDS; i++) {
        unsigned objects = skriemelt_bed_objects(&p->beds[i]);

        if (object < objects) {
            bed_channel(&p->beds[i], object, cell);
            return;
        }
        object -= objects;
    }
}

static void gain_cell(const uint8_t *record, char *cell)
{
    if (record[SKRIEMELT_RECORD_GAIN] == 0)
        snprintf(cell, CELL, "-inf");
    else
        snprintf(cell, CELL, "%+.0f", skriemelt_gain_db(record));
}

/* Table 15. */
void distance_cell(unsigned distance, char *cell, size_t room)
{
    static const double factors[16] = {1.1, 1.3, 1.6, 2.0, 2.5, 3.2, 4.0, 5.0, 6.3, 7.9, 10.0, 12.6, 15.8, 20.0, 25.1, 50.1};

    if (distance == 0)
        snprintf(cell, room, "in room");
    else if (distance == 1)
        snprintf(cell, room, "infinity");
    else
        snprintf(cell, room, "x %.1f", factors[(distance - 2) & 15]);
}

/* 5.6.1.1.19 and Table 16. */
static void screen_cell(const uint8_t *record, char *cell)
{
    static const double depths[4] = {0.25, 0.5, 1, 2};

    if (!record[SKRIEMELT_RECORD_SCREEN])
        snprintf(cell, CELL, "-");
    else
        snprintf(cell, CELL, "%.3f^%.2f", (record[SKRIEMELT_RECORD_SCREEN_FACTOR] + 1) / 8.0, depths[record[SKRIEMELT_RECORD_SCREEN_DEPTH] & 3]);
}

/* Table 42. */
static double divergence_of_code(unsigned code)
{
    static const double values[64] = {
        0,        0,        0.004026, 0.00716,  0.012731, 0.020173, 0.028485, 0.04021,  0.050582, 0.063601, 0.079914, 0.100299, 0.125666,
        0.140532, 0.157027, 0.175282, 0.195417, 0.217536, 0.241718, 0.268002, 0.296377, 0.326766, 0.359017, 0.392895, 0.428081, 0.464184,
        0.500755, 0.537316, 0.573389, 0.608529, 0.642346, 0.674524, 0.704833, 0.733123, 0.75932,  0.783416, 0.805451, 0.825506, 0.843686,
        0.860112, 0.874914, 0.888222, 0.900168, 0.910875, 0.920461, 0.929035, 0.936698, 0.943544, 0.949656, 0.955112, 0.95998,  0.964322,
        0.968195, 0.974729, 0.979923, 0.98405,  0.98733,  0.989935, 0.992874, 0.994955, 0.996817, 0.99821,  0.998993, 1,
    };

    return values[code & 63];
}

/* Tables 40 and 41. */
static void divergence_cell(const uint8_t *record, char *cell)
{
    static const double by_table[4] = {0.500755, 0.608529, 0.704833, 1.0};
    unsigned mode = record[SKRIEMELT_RECORD_DIVERGENCE_MODE], value = record[SKRIEMELT_RECORD_DIVERGENCE_VALUE];

    if (!record[SKRIEMELT_RECORD_DIVERGENCE])
        snprintf(cell, CELL, "-");
    else if (mode == 1)
        snprintf(cell, CELL, "as before");
    else
        snprintf(cell, CELL, "%.6f", mode == 0 ? by_table[value & 3] : divergence_of_code(value));
}

/* What only a dynamic object has. */
static void print_place(const uint8_t *record)
{
    char distance[CELL], screen[CELL], divergence[CELL];

    distance_cell(record[SKRIEMELT_RECORD_DISTANCE], distance, CELL);
    screen_cell(record, screen);
    divergence_cell(record, divergence);
    print(" %6.3f %6.3f %6.3f", skriemelt_x(record), skriemelt_y(record), skriemelt_z(record));
    print(" %5.3f %5.3f %6.3f", record[SKRIEMELT_RECORD_WIDTH] / 31.0, record[SKRIEMELT_RECORD_DEPTH] / 31.0, record[SKRIEMELT_RECORD_HEIGHT] / 31.0);
    print(" %-11s %-9s", zone_name(record[SKRIEMELT_RECORD_ZONE]), record[SKRIEMELT_RECORD_ELEVATION] ? "yes" : "no");
    print(" %-4s %-8s %-10s %s\n", record[SKRIEMELT_RECORD_SNAP] ? "yes" : "no", distance, screen, divergence);
}

static void print_record(const reading *r, unsigned object, unsigned block)
{
    const uint8_t *record = skriemelt_record(&r->answer, r->records, object, block);
    char class_text[CELL], gain[CELL];

    class_cell(&r->answer.programme, record[SKRIEMELT_RECORD_CLASS], object, class_text);
    gain_cell(record, gain);
    print("%6u %5u %-8s %-6s %7s %8.3f", object, block, class_text, record[SKRIEMELT_RECORD_ACTIVE] ? "yes" : "no", gain, record[SKRIEMELT_RECORD_PRIORITY] / 32.0);
    if (record[SKRIEMELT_RECORD_CLASS] == SKRIEMELT_CLASS_DYNAMIC)
        print_place(record);
    else
        print("\n");
}

static void print_records(const reading *r)
{
    unsigned object, block;

    print("%6s %5s %-8s %-6s %7s %8s %6s %6s %6s %5s %5s %6s", "object", "block", "class", "active", "gain dB", "priority", "x", "y", "z", "width", "depth", "height");
    print(" %-11s %-9s %-4s %-8s %-10s %s\n", "zone", "elevation", "snap", "distance", "screen", "divergence");
    for (object = 0; object < r->answer.programme.objects; object++) {
        for (block = 0; block < r->answer.timing.blocks; block++)
            print_record(r, object, block);
    }
}

void print_samples(uint64_t samples, unsigned long rate)
{
    unsigned long long ms = (1000 * samples + rate / 2) / rate, seconds = ms / 1000;

    print("%llu samples (%llu:%02llu:%02llu.%03llu)", (unsigned long long)samples, seconds / 3600, seconds / 60 % 60, seconds % 60, ms % 1000);
}

/* Every object has a record in every block, with the time of the block. */
static void print_blocks(const reading *r, unsigned long rate)
{
    const skriemelt_timing *t = &r->answer.timing;
    unsigned i;

    for (i = 0; i < t->blocks; i++) {
        print("block %u: start %u samples (%.3f ms), ramp %u samples (%.3f ms), time ", i, t->updates[i].start, 1000.0 * t->updates[i].start / (double)rate, t->updates[i].ramp,
              1000.0 * t->updates[i].ramp / (double)rate);
        print_samples(skriemelt_time(skriemelt_record(&r->answer, r->records, 0, i)), rate);
        print("\n");
    }
}

void print_reason(const skriemelt_read_answer *a)
{
    const char *unit = a->refusal == SKRIEMELT_TOO_LONG ? "bytes looked at" : "bit";

    print("refused (%u): %s; %s %llu", a->refusal, skriemelt_refusal_text(a->refusal), unit, (unsigned long long)a->place);
    if (a->refusal == SKRIEMELT_PAST_PAYLOAD)
        print(", %lu bits missing", (unsigned long)a->missing);
}

void print_people(const reading *r, unsigned long rate)
{
    const skriemelt_read_answer *a = &r->answer;
    skriemelt_counts counts = skriemelt_counts_of(&a->programme);

    if (a->refusal != SKRIEMELT_ACCEPTED) {
        print_reason(a);
        print("; frame %lu\n", (unsigned long)r->frame);
        return;
    }
    print("accepted: %u objects (%u bed, %u ISF, %u dynamic), %u blocks, %u unknown elements; frame %lu\n", a->programme.objects, counts.bed, counts.isf, counts.dynamic,
          a->timing.blocks, a->unknown, (unsigned long)r->frame);
    print_blocks(r, rate);
    if (a->timing.blocks > 0)
        print_records(r);
}
