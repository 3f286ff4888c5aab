/* skriemelt salvage: a damaged payload without the elements that are refused. */
#include "command.h"

#include <stdarg.h>

/* What is told of a salvage: a line or sentence for each element, and a few more. */
static char report[16384];
static size_t report_bytes;

#if defined(__GNUC__)
__attribute__((format(printf, 1, 2)))
#endif
static void tell(const char *format, ...)
{
    va_list arguments;
    int count;

    va_start(arguments, format);
    count = vsnprintf(report + report_bytes, sizeof report - report_bytes, format, arguments);
    va_end(arguments);
    if (count > 0 && (size_t)count < sizeof report - report_bytes)
        report_bytes += (size_t)count;
}

/* ---- lines key=value */

static void tell_lines(const skriemelt_salvage_answer *a)
{
    unsigned i;

    tell("refusal=%u\nplace=%llu\n", a->refusal, (unsigned long long)a->place);
    if (a->refusal == SKRIEMELT_PAST_PAYLOAD)
        tell("missing=%lu\n", (unsigned long)a->missing);
    if (a->refusal != SKRIEMELT_ACCEPTED)
        return;
    tell("length=%lu\ndrops=%u\n", (unsigned long)a->length, a->drops);
    for (i = 0; i < a->drops; i++)
        tell("place=%lu\nid=%u\nrefusal=%u\n", (unsigned long)a->dropped[i].place, a->dropped[i].id, a->dropped[i].refusal);
}

/* ---- sentences */

static void tell_drop(const skriemelt_drop *d)
{
    const char *name = skriemelt_element_name(d->id);

    tell("dropped: %s (id %u), refused (%u): %s; bit %lu\n", name != NULL ? name : "element", d->id, d->refusal, skriemelt_refusal_text(d->refusal), (unsigned long)d->place);
}

static void tell_refused(const skriemelt_salvage_answer *a)
{
    const char *unit = a->refusal == SKRIEMELT_TOO_LONG ? "bytes looked at" : "bit";

    tell("refused (%u): %s; %s %llu", a->refusal, skriemelt_refusal_text(a->refusal), unit, (unsigned long long)a->place);
    if (a->refusal == SKRIEMELT_PAST_PAYLOAD)
        tell(", %lu bits missing", (unsigned long)a->missing);
    tell("; nothing is written\n");
}

static void tell_people(const skriemelt_salvage_answer *a, size_t payload_bytes)
{
    unsigned i;

    if (a->refusal != SKRIEMELT_ACCEPTED) {
        tell_refused(a);
        return;
    }
    for (i = 0; i < a->drops; i++)
        tell_drop(&a->dropped[i]);
    if (a->drops == 0)
        tell("accepted as it is: nothing is dropped, %lu bytes\n", (unsigned long)a->length);
    else
        tell("salvaged: %u element%s dropped, %lu of %lu bytes left\n", a->drops, a->drops == 1 ? "" : "s", (unsigned long)a->length, (unsigned long)payload_bytes);
}

/* Writes what is left, to a file or to standard output; whether all was written, else complained of. */
static int write_left(const char *name, const uint8_t *left, size_t left_bytes)
{
    if (!input_is_standard(name))
        return output_file(name, left, left_bytes);
    print_bytes(left, left_bytes);
    print_now();
    return !print_failed();
}

int run_salvage(const request *asked)
{
    static uint8_t payload[LOOKED_AT], left[SKRIEMELT_MOST_PAYLOAD_BYTES];
    size_t payload_bytes;
    skriemelt_salvage_answer a;

    if (asked->name_count < 2)
        return misuse("salvage", "needs FILE OUT");
    if (!input_payload_file(asked->names[0], payload, &payload_bytes))
        return STATUS_FAILED;
    a = skriemelt_salvage(payload, payload_bytes, left, sizeof left);
    if (a.refusal == SKRIEMELT_ACCEPTED && !write_left(asked->names[1], left, a.length))
        return STATUS_FAILED;
    if (asked->people)
        tell_people(&a, payload_bytes);
    else
        tell_lines(&a);
    if (input_is_standard(asked->names[1]))
        fwrite(report, 1, report_bytes, stderr);
    else
        print_bytes((const uint8_t *)report, report_bytes);
    return a.refusal == SKRIEMELT_ACCEPTED ? STATUS_ACCEPTED : STATUS_REFUSED;
}
