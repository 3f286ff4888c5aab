/* skriemelt summary: what a file of payloads holds, one behind the other as on a shelf, summarised segment by segment. */
#include "command.h"

static segment part;

static void add(unsigned long long *sums, const uint32_t *counters, size_t count)
{
    size_t i;

    for (i = 0; i < count; i++)
        sums[i] += counters[i];
}

/* Adds what the segment holds; whether it could be summarised. */
static int add_segment(holdings *h)
{
    skriemelt_summary s = skriemelt_summarise(part.store, part.bytes, part.starts, part.count, part.lengths, part.count);

    if (s.refusal != SKRIEMELT_ACCEPTED) {
        complain("a segment", skriemelt_refusal_text(s.refusal), 0);
        return 0;
    }
    h->payloads += part.count;
    h->accepted += s.payloads[SKRIEMELT_ACCEPTED];
    h->bytes += 2 * part.count + part.bytes;
    h->records += s.records;
    h->late += s.late;
    h->ramps += s.ramps;
    add(h->gains, s.gains, SKRIEMELT_GAINS);
    add(h->zones, s.zones, SKRIEMELT_ZONES);
    add(h->classes, s.classes, SKRIEMELT_CLASSES);
    add(h->activity, s.activity, SKRIEMELT_ACTIVITIES);
    add(h->answers, s.payloads, SKRIEMELT_PAYLOAD_ANSWERS);
    return 1;
}

/* Adds segment by segment. Whether all could be summarised up to where `how` says: the end of the file, or within a payload. */
static int add_file(const request *asked, FILE *in, holdings *h, ending *how)
{
    progress shown;

    progress_start(&shown, in, asked->progress);
    shown.shared = 0; /* nothing else is written before the end */
    do {
        *how = input_segment(in, &part, SKRIEMELT_MOST_ENTRIES, 0); /* a summary has no frames */
        if (!add_segment(h))
            return 0;
        if (*how == MORE)
            progress_show(&shown, h->bytes, "%llu payloads, %llu refused", h->payloads, h->payloads - h->accepted);
    } while (*how == MORE);
    progress_end(&shown);
    return 1;
}

/* A line key=NUMBER,COUNT for each counter. */
static void print_each(const char *key, const unsigned long long *counters, unsigned first, unsigned end)
{
    unsigned i;

    for (i = first; i < end; i++)
        print("%s=%u,%llu\n", key, i, counters[i]);
}

/* Always the same lines, so that two summaries can be held line against line. */
static void print_lines(const holdings *h)
{
    print("payloads=%llu\naccepted=%llu\nrefused=%llu\n", h->payloads, h->accepted, h->payloads - h->accepted);
    print_each("refusal", h->answers, SKRIEMELT_ACCEPTED + 1, SKRIEMELT_PAYLOAD_ANSWERS);
    print("records=%llu\nactive=%llu\ninactive=%llu\n", h->records, h->activity[1], h->activity[0]);
    print("bed=%llu\nisf=%llu\ndynamic=%llu\n", h->classes[SKRIEMELT_CLASS_BED], h->classes[SKRIEMELT_CLASS_ISF], h->classes[SKRIEMELT_CLASS_DYNAMIC]);
    print("late=%llu\nramps=%llu\n", h->late, h->ramps);
    print_each("zone", h->zones, 0, SKRIEMELT_ZONES);
    print_each("gain", h->gains, 0, SKRIEMELT_GAINS);
}

int run_summary(const request *asked)
{
    static holdings h;
    const char *name = input_name(asked);
    FILE *in = input_open(name);
    ending how = AT_END;

    if (in == NULL)
        return STATUS_FAILED;
    if (!add_file(asked, in, &h, &how) || !input_close(in, name))
        return STATUS_FAILED;
    if (how != AT_END)
        return input_broken(name, how, h.payloads, ", and is not summarised");
    if (asked->people)
        print_chart(&h, asked->rate);
    else
        print_lines(&h);
    return h.accepted == h.payloads ? STATUS_ACCEPTED : STATUS_REFUSED;
}
