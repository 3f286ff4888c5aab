/* skriemelt catalogue: a file of payloads, one behind the other as on a shelf, to its catalogue, segment by segment. */
#include "command.h"

#include <string.h>

#define ENTRIES 16 /* payloads of a segment; its text takes up to 5.4 MB */

/* A segment, and its text. */
static segment part;
static uint8_t text[ENTRIES * SKRIEMELT_MOST_FRAME_TEXT_BYTES];

/* How far the file has been gone through. */
typedef struct totals {
    unsigned long long payloads, refused, bytes;
} totals;

static void add_segment(totals *t)
{
    t->payloads += part.count;
    t->bytes += 2 * part.count + part.bytes;
}

/* Goes through the lengths. Where the file ends: a file that is not whole is not catalogued. */
static ending check_file(const request *asked, FILE *in, totals *t)
{
    progress shown;
    ending how;

    progress_start(&shown, in, asked->progress);
    shown.shared = 0; /* nothing is printed yet */
    do {
        how = input_segment(in, &part, ENTRIES, asked->first + t->payloads);
        add_segment(t);
        if (how == MORE)
            progress_show(&shown, t->bytes, "%llu payloads looked at", t->payloads);
    } while (how == MORE);
    progress_end(&shown);
    return how;
}

/* How many frames of a text are refused: those whose lines go on with ",refusal=". */
static unsigned long long refused_in(size_t length)
{
    unsigned long long refused = 0;
    const uint8_t *line = text, *end = text + length;

    while (line < end) {
        const uint8_t *next = (const uint8_t *)memchr(line, '\n', (size_t)(end - line)) + 1;
        const uint8_t *comma = memchr(line, ',', (size_t)(next - line));

        refused += *line == 'f' && comma[1] == 'r';
        line = next;
    }
    return refused;
}

/* Prints the text of the segment, and keeps its last update for the next one; whether it could be written. */
static int print_segment(skriemelt_catalogue_before *before, const progress *shown, totals *t)
{
    skriemelt_catalogue_answer a = skriemelt_catalogue_write_on(part.store, part.bytes, part.starts, part.count, part.lengths, part.count, part.frames, part.count, before,
                                                                sizeof *before, text, sizeof text);

    if (a.refusal != SKRIEMELT_ACCEPTED) { /* there is room for every text */
        complain("a segment", skriemelt_refusal_text(a.refusal), 0);
        return 0;
    }
    progress_clear(shown);
    print_bytes(text, (size_t)a.length);
    print_now();
    add_segment(t);
    t->refused += refused_in((size_t)a.length);
    return 1;
}

/* Whether all could be printed, up to where `how` says. */
static int print_file(const request *asked, FILE *in, totals *t, ending *how)
{
    static skriemelt_catalogue_before before;
    progress shown;

    progress_start(&shown, in, asked->progress);
    do {
        *how = input_segment(in, &part, ENTRIES, asked->first + t->payloads);
        if (!print_segment(&before, &shown, t))
            return 0;
        if (*how == MORE)
            progress_show(&shown, t->bytes, "%llu payloads, %llu refused", t->payloads, t->refused);
    } while (*how == MORE && !print_failed());
    progress_end(&shown);
    return !print_failed();
}

int run_catalogue(const request *asked)
{
    totals t = {0, 0, 0};
    const char *name = input_name(asked);
    fpos_t begin;
    FILE *in = input_open_twice(asked, name, &begin);
    ending how;
    int done = 1;

    if (in == NULL)
        return STATUS_FAILED;
    how = check_file(asked, in, &t);
    if (how == AT_END) {
        memset(&t, 0, sizeof t);
        done = input_again(in, name, &begin) && print_file(asked, in, &t, &how);
    }
    if (!input_close(in, name) || !done)
        return STATUS_FAILED;
    if (how != AT_END)
        return input_broken(name, how, t.payloads, ": the file is not catalogued");
    return t.refused == 0 ? STATUS_ACCEPTED : STATUS_REFUSED;
}
