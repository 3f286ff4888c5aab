/* skriemelt shelf: a file of payloads one behind the other, each behind its length in two bytes, read segment by segment as batches. */
#include "command.h"

#define ENTRIES 64 /* payloads of a segment; its buffers take about 7 MB */
#define REFUSALS 256

/* A segment, and what it is read into. */
static segment part;
static uint8_t records[ENTRIES * SKRIEMELT_MOST_RECORD_BYTES], trims[ENTRIES * SKRIEMELT_MOST_TRIM_BYTES];
static skriemelt_read_answer answers[ENTRIES];

/* How far the shelf has been read. */
typedef struct totals {
    unsigned long long payloads, refused, bytes, of[REFUSALS];
} totals;

static int read_segment(void)
{
    skriemelt_batch_answer a =
        skriemelt_read_batch(part.store, part.bytes, part.starts, part.count, part.lengths, part.count, part.frames, part.count, SKRIEMELT_MOST_RECORD_BYTES, SKRIEMELT_MOST_TRIM_BYTES,
                             records, sizeof records, trims, sizeof trims, answers, sizeof answers);

    if (a.refusal != SKRIEMELT_ACCEPTED)
        complain("a segment", skriemelt_refusal_text(a.refusal), 0);
    return a.refusal == SKRIEMELT_ACCEPTED;
}

static void print_accepted(const reading *r)
{
    const skriemelt_read_answer *a = &r->answer;
    skriemelt_counts counts = skriemelt_counts_of(&a->programme);
    unsigned count = (unsigned)a->programme.objects * a->timing.blocks, active = 0, i;

    for (i = 0; i < count; i++)
        active += r->records[SKRIEMELT_RECORD_STRIDE * i + SKRIEMELT_RECORD_ACTIVE];
    print(" objects=%u bed=%u isf=%u dynamic=%u", a->programme.objects, counts.bed, counts.isf, counts.dynamic);
    print(" blocks=%u unknown=%u active=%u", a->timing.blocks, a->unknown, active);
}

static void print_entry(const request *asked, size_t i, totals *t)
{
    reading r = {answers[i], part.frames[i], records + i * SKRIEMELT_MOST_RECORD_BYTES, trims + i * SKRIEMELT_MOST_TRIM_BYTES};

    print("payload=%llu bytes=%llu refusal=%u place=%llu", t->payloads, (unsigned long long)part.lengths[i], r.answer.refusal, (unsigned long long)r.answer.place);
    if (r.answer.refusal == SKRIEMELT_ACCEPTED)
        print_accepted(&r);
    else if (r.answer.refusal == SKRIEMELT_PAST_PAYLOAD)
        print(" missing=%lu", (unsigned long)r.answer.missing);
    print(" frame=%lu\n", (unsigned long)r.frame);
    if (asked->trim)
        print_trim(&r);
    t->payloads++;
    t->bytes += 2 + part.lengths[i];
    t->refused += r.answer.refusal != SKRIEMELT_ACCEPTED;
    t->of[r.answer.refusal]++;
}

static void print_totals(const totals *t)
{
    unsigned i;

    print("payloads=%llu\naccepted=%llu\nrefused=%llu\n", t->payloads, t->payloads - t->refused, t->refused);
    for (i = 1; i < REFUSALS; i++) {
        if (t->of[i] != 0)
            print("refusal=%u payloads=%llu %s\n", i, t->of[i], skriemelt_refusal_text(i));
    }
}

/* Reads segment by segment, a line for each payload. Whether all could be read and printed up to where `how` says: the end of the file, or a payload. */
static int print_shelf(const request *asked, FILE *in, totals *t, ending *how)
{
    progress shown;
    size_t i;

    progress_start(&shown, in, asked->progress);
    do {
        *how = input_segment(in, &part, ENTRIES, asked->first + t->payloads);
        if (!read_segment())
            return 0;
        for (i = 0; i < part.count; i++)
            print_entry(asked, i, t);
        progress_clear(&shown);
        print_now();
        if (*how == MORE)
            progress_show(&shown, t->bytes, "%llu payloads, %llu refused", t->payloads, t->refused);
    } while (*how == MORE && !print_failed());
    progress_end(&shown);
    return 1;
}

int run_shelf(const request *asked)
{
    static totals t;
    const char *name = input_name(asked);
    FILE *in = input_open(name);
    ending how = AT_END;

    if (in == NULL)
        return STATUS_FAILED;
    if (!print_shelf(asked, in, &t, &how) || !input_close(in, name) || print_failed())
        return STATUS_FAILED;
    if (how != AT_END)
        return input_broken(name, how, t.payloads, "");
    print_totals(&t);
    return t.refused == 0 ? STATUS_ACCEPTED : STATUS_REFUSED;
}
