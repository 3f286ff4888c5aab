/* Sizes and offsets of what crosses the border, and what the names stand for. bench/src/proved.rs asserts the same numbers on the Rust side. */
#include "test.h"

#define SIZE(type, n) check(sizeof(type) == (n), "sizeof " #type)
#define AT(type, field, n) check(offsetof(type, field) == (n), "offset of " #type "." #field)

static void sizes(void)
{
    SIZE(skriemelt_bed, 8);
    SIZE(skriemelt_programme, 84);
    SIZE(skriemelt_update, 4);
    SIZE(skriemelt_timing, 34);
    SIZE(skriemelt_read_answer, 136);
    SIZE(skriemelt_write_answer, 16);
    SIZE(skriemelt_batch_answer, 16);
    SIZE(skriemelt_text_answer, 16);
    SIZE(skriemelt_summary, 384);
    SIZE(skriemelt_catalogue_answer, 24);
    SIZE(skriemelt_back_answer, 32);
    SIZE(skriemelt_catalogue_frame, 40);
    SIZE(skriemelt_catalogue_before, 3817);
    SIZE(skriemelt_why_step, 12);
    SIZE(skriemelt_why_answer, 2008);
    SIZE(skriemelt_drop, 8);
    SIZE(skriemelt_salvage_answer, 392);
}

static void offsets(void)
{
    AT(skriemelt_bed, assignment, 0);
    AT(skriemelt_bed, lfeonly, 4);
    AT(skriemelt_bed, standard, 5);
    AT(skriemelt_programme, objects, 0);
    AT(skriemelt_programme, dynonly, 1);
    AT(skriemelt_programme, lfe, 2);
    AT(skriemelt_programme, content, 3);
    AT(skriemelt_programme, distribute, 4);
    AT(skriemelt_programme, multiple, 5);
    AT(skriemelt_programme, instances, 6);
    AT(skriemelt_programme, bedcount, 7);
    AT(skriemelt_programme, isf, 8);
    AT(skriemelt_programme, dynamics, 9);
    AT(skriemelt_programme, beds, 12);
    AT(skriemelt_update, start, 0);
    AT(skriemelt_update, ramp, 2);
    AT(skriemelt_timing, blocks, 0);
    AT(skriemelt_timing, updates, 2);
    AT(skriemelt_read_answer, place, 0);
    AT(skriemelt_read_answer, refusal, 8);
    AT(skriemelt_read_answer, unknown, 9);
    AT(skriemelt_read_answer, programme, 12);
    AT(skriemelt_read_answer, timing, 96);
    AT(skriemelt_read_answer, missing, 132);
    AT(skriemelt_write_answer, place, 0);
    AT(skriemelt_write_answer, length, 8);
    AT(skriemelt_write_answer, refusal, 12);
    AT(skriemelt_batch_answer, place, 0);
    AT(skriemelt_batch_answer, refusal, 8);
    AT(skriemelt_text_answer, place, 0);
    AT(skriemelt_text_answer, length, 8);
    AT(skriemelt_text_answer, refusal, 12);
    AT(skriemelt_summary, place, 0);
    AT(skriemelt_summary, refusal, 8);
    AT(skriemelt_summary, records, 12);
    AT(skriemelt_summary, gains, 16);
    AT(skriemelt_summary, zones, 280);
    AT(skriemelt_summary, classes, 304);
    AT(skriemelt_summary, activity, 316);
    AT(skriemelt_summary, late, 324);
    AT(skriemelt_summary, ramps, 328);
    AT(skriemelt_summary, payloads, 332);
}

static void catalogue_offsets(void)
{
    AT(skriemelt_catalogue_answer, place, 0);
    AT(skriemelt_catalogue_answer, length, 8);
    AT(skriemelt_catalogue_answer, refusal, 16);
    AT(skriemelt_back_answer, place, 0);
    AT(skriemelt_back_answer, frames, 8);
    AT(skriemelt_back_answer, bytes, 16);
    AT(skriemelt_back_answer, refusal, 24);
    AT(skriemelt_catalogue_frame, frame, 0);
    AT(skriemelt_catalogue_frame, refusal, 4);
    AT(skriemelt_catalogue_frame, objects, 5);
    AT(skriemelt_catalogue_frame, blocks, 6);
    AT(skriemelt_catalogue_frame, zero, 7);
    AT(skriemelt_catalogue_frame, updates, 8);
    AT(skriemelt_catalogue_before, objects, 0);
    AT(skriemelt_catalogue_before, rows, 1);
}

static void why_offsets(void)
{
    AT(skriemelt_why_step, bit, 0);
    AT(skriemelt_why_step, object, 4);
    AT(skriemelt_why_step, block, 5);
    AT(skriemelt_why_step, value, 6);
    AT(skriemelt_why_step, source, 7);
    AT(skriemelt_why_step, field, 8);
    AT(skriemelt_why_step, difference, 9);
    AT(skriemelt_why_answer, place, 0);
    AT(skriemelt_why_answer, missing, 8);
    AT(skriemelt_why_answer, refusal, 12);
    AT(skriemelt_why_answer, count, 13);
    AT(skriemelt_why_answer, steps, 16);
}

static void salvage_offsets(void)
{
    AT(skriemelt_drop, place, 0);
    AT(skriemelt_drop, id, 4);
    AT(skriemelt_drop, refusal, 5);
    AT(skriemelt_salvage_answer, place, 0);
    AT(skriemelt_salvage_answer, missing, 8);
    AT(skriemelt_salvage_answer, length, 12);
    AT(skriemelt_salvage_answer, refusal, 16);
    AT(skriemelt_salvage_answer, drops, 17);
    AT(skriemelt_salvage_answer, dropped, 20);
}

int main(void)
{
    sizes();
    offsets();
    catalogue_offsets();
    why_offsets();
    salvage_offsets();
    check(skriemelt_version() == SKRIEMELT_VERSION, "version");
    check(SKRIEMELT_RECORD_BYTES == SKRIEMELT_RECORD_PRECISE_Z + 1, "what the payload gives ends with the code of z");
    check(SKRIEMELT_RECORD_TIME == SKRIEMELT_RECORD_BYTES, "the time follows");
    check(SKRIEMELT_RECORD_STRIDE == SKRIEMELT_RECORD_TIME + sizeof(uint64_t), "a record ends with its time");
    check(SKRIEMELT_MOST_RECORD_BYTES >= SKRIEMELT_RECORD_STRIDE * SKRIEMELT_MOST_OBJECTS * SKRIEMELT_MOST_BLOCKS, "the most records");
    check(SKRIEMELT_TRIM_CONFIG == SKRIEMELT_TRIM_GLOBAL_MODE + 1, "the configurations follow the modes");
    check(SKRIEMELT_TRIM_CONFIG_STRIDE == SKRIEMELT_TRIM_CONFIG_AMOUNT_LIS + 1, "a configuration ends with the amount of the listener plane");
    check(SKRIEMELT_TRIM_PER_OBJECT == SKRIEMELT_TRIM_CONFIG + SKRIEMELT_TRIM_CONFIG_STRIDE * SKRIEMELT_TRIM_CONFIGS, "nine configurations");
    check(SKRIEMELT_TRIM_FIXED == SKRIEMELT_TRIM_PER_OBJECT + 1, "the flags of the objects are last");
    check(SKRIEMELT_CLASSES == SKRIEMELT_CLASS_DYNAMIC + 1, "a summary counts every class");
    check(SKRIEMELT_PAYLOAD_ANSWERS == SKRIEMELT_OUTSIDE + 1, "a summary counts every answer of a payload");
    check(SKRIEMELT_BEFORE_BYTES == 1 + SKRIEMELT_RECORD_BYTES * SKRIEMELT_MOST_OBJECTS, "an update before has a count, and a row for each object");
    check(SKRIEMELT_MOST_STEPS == SKRIEMELT_MOST_OBJECTS - 1 + SKRIEMELT_MOST_BLOCKS - 1 + 1, "each step goes back by a block or by an object");
    check(SKRIEMELT_MOST_DROPS == SKRIEMELT_MOST_UNKNOWN, "every element of a payload may be unknown, and every one may be dropped");
    check(SKRIEMELT_MOST_TRIM_BYTES == SKRIEMELT_TRIM_FIXED + SKRIEMELT_MOST_OBJECTS, "the longest trim table");
    return finish("test_layout");
}
