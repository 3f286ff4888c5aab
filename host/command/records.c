/* skriemelt records: a catalogue back to listings, piece by piece. */
#include "command.h"

#include <string.h>

#define FRAMES 16 /* of a piece at the most; its records take up to 655 kB */
#define FRAME_KEY "frame="
#define FRAME_KEY_BYTES (sizeof FRAME_KEY - 1)

/*
 * As much text as is there before a piece is cut off, unless the file ends. A frame that can be read back has less: where so much has no line, behind its first, that begins with the key of a
 * frame, there is a bad line in it. The piece is then cut anywhere, and refused at that line, as the whole text is.
 */
#define ENOUGH (SKRIEMELT_MOST_FRAME_TEXT_BYTES + FRAME_KEY_BYTES)
#define TEXT_BYTES (4 * ENOUGH)

/* What of the text is there, from `at` to `end`. */
static struct window {
    uint8_t text[TEXT_BYTES];
    size_t at, end;
    int all; /* nothing of the file is left behind it */
} window;

/* What a piece is read into. */
static skriemelt_catalogue_before before;
static skriemelt_catalogue_frame lines[FRAMES];
static uint8_t records[FRAMES * SKRIEMELT_MOST_RECORD_BYTES];

/* How far the text has been gone through, and where it is bad, if it is. */
typedef struct totals {
    unsigned long long frames, refused, lines, bytes;
    unsigned long long bad; /* the number of the first bad line; 0: there is none */
    const char *why;
} totals;

/* Makes room, and reads on, if there is too little text for a piece. */
static void fill_window(FILE *in)
{
    size_t rest = window.end - window.at, got;

    if (rest >= ENOUGH || window.all)
        return;
    memmove(window.text, window.text + window.at, rest);
    got = fread(window.text + rest, 1, sizeof window.text - rest, in);
    window.at = 0;
    window.end = rest + got;
    window.all = got < sizeof window.text - rest;
}

/* Where the next piece ends: before the line of a frame, behind FRAMES frames at the most. */
static size_t piece_end(void)
{
    size_t at = window.at, last = window.end;
    const uint8_t *lf;
    unsigned frames = 0;

    while (frames < FRAMES && (lf = memchr(window.text + at, '\n', window.end - at)) != NULL) {
        at = (size_t)(lf - window.text) + 1;
        if (window.end - at >= FRAME_KEY_BYTES && memcmp(window.text + at, FRAME_KEY, FRAME_KEY_BYTES) == 0) {
            last = at;
            frames++;
        }
    }
    return window.all && frames < FRAMES ? window.end : last;
}

static unsigned long long count_lines(const uint8_t *text, size_t bytes)
{
    const uint8_t *end = text + bytes, *lf;
    unsigned long long count = 0;

    while (text < end && (lf = memchr(text, '\n', (size_t)(end - text))) != NULL) {
        count++;
        text = lf + 1;
    }
    return count;
}

/* Why a line of the last piece cannot stand there, as far as that is known. */
static const char *why_bad(size_t end, uint64_t place, unsigned long long piece_lines)
{
    if (place <= piece_lines || !window.all || end < window.end)
        return "cannot stand there";
    return window.text[end - 1] == '\n' ? "is missing: the text ends too early" : "cannot stand there: the text ends within it";
}

/* Reads the next piece back; whether it is good. */
static int read_piece(totals *t, size_t *frames)
{
    size_t end = piece_end(), bytes = end - window.at;
    const uint8_t *text = window.text + window.at;
    unsigned long long piece_lines = count_lines(text, bytes);
    skriemelt_back_answer a = skriemelt_catalogue_read_on(text, bytes, &before, sizeof before, lines, sizeof lines, records, sizeof records);

    if (a.refusal != SKRIEMELT_ACCEPTED) { /* there is room for every piece */
        t->bad = t->lines + a.place;
        t->why = a.refusal == SKRIEMELT_BAD_LINE ? why_bad(end, a.place, piece_lines) : skriemelt_refusal_text(a.refusal);
        return 0;
    }
    window.at = end;
    t->frames += a.frames;
    t->lines += piece_lines;
    t->bytes += bytes;
    *frames = (size_t)a.frames;
    return 1;
}

static void print_record(unsigned object, unsigned block, const uint8_t *record)
{
    static const char hex[] = "0123456789abcdef";
    char digits[2 * SKRIEMELT_RECORD_STRIDE + 1];
    unsigned i;

    for (i = 0; i < SKRIEMELT_RECORD_STRIDE; i++) {
        digits[2 * i] = hex[record[i] >> 4];
        digits[2 * i + 1] = hex[record[i] & 15];
    }
    digits[2 * SKRIEMELT_RECORD_STRIDE] = '\0';
    print("record=%u,%u,%s\n", object, block, digits);
}

/* The lines of a listing that a catalogue holds, behind the frame's number. */
static void print_frame(const skriemelt_catalogue_frame *f, const uint8_t *of_frame)
{
    unsigned object, block;

    print("frame=%lu\nrefusal=%u\n", (unsigned long)f->frame, f->refusal);
    if (f->refusal != SKRIEMELT_ACCEPTED)
        return;
    print("objects=%u\nblocks=%u\n", f->objects, f->blocks);
    for (block = 0; block < f->blocks; block++)
        print("block=%u,%u,%u\n", block, f->updates[block].start, f->updates[block].ramp);
    for (object = 0; object < f->objects; object++) {
        for (block = 0; block < f->blocks; block++, of_frame += SKRIEMELT_RECORD_STRIDE)
            print_record(object, block, of_frame);
    }
}

static void print_frames(size_t frames)
{
    const uint8_t *of_frame = records;
    size_t i;

    for (i = 0; i < frames; i++) {
        print_frame(&lines[i], of_frame);
        of_frame += skriemelt_catalogue_record_bytes(&lines[i]);
    }
}

static unsigned long long refused_of(size_t frames)
{
    unsigned long long refused = 0;

    while (frames > 0)
        refused += lines[--frames].refusal != SKRIEMELT_ACCEPTED;
    return refused;
}

/* Goes through the text from its begin on, and prints its frames, or only looks whether it is good. Whether it is. */
static int read_text(const request *asked, FILE *in, int printing, totals *t)
{
    progress shown;
    size_t frames;

    memset(&before, 0, sizeof before);
    window.at = window.end = 0;
    window.all = 0;
    progress_start(&shown, in, asked->progress);
    shown.shared = shown.shared && printing;
    for (fill_window(in); window.at < window.end && !print_failed(); fill_window(in)) {
        if (!read_piece(t, &frames))
            break;
        t->refused += refused_of(frames);
        if (printing) {
            progress_clear(&shown);
            print_frames(frames);
            print_now();
        }
        progress_show(&shown, t->bytes, "%llu frames%s, %llu refused", t->frames, printing ? "" : " looked at", t->refused);
    }
    progress_end(&shown);
    return t->bad == 0;
}

int run_records(const request *asked)
{
    totals t = {0, 0, 0, 0, 0, NULL};
    const char *name = input_name(asked);
    fpos_t begin;
    FILE *in = input_open_twice(asked, name, &begin);
    char what[120];
    int again = 1;

    if (in == NULL)
        return STATUS_FAILED;
    if (read_text(asked, in, 0, &t) && !ferror(in)) {
        memset(&t, 0, sizeof t);
        again = input_again(in, name, &begin);
        if (again)
            read_text(asked, in, 1, &t);
    }
    if (!input_close(in, name) || !again || print_failed())
        return STATUS_FAILED;
    if (t.bad != 0) {
        snprintf(what, sizeof what, "line %llu %s", t.bad, t.why);
        complain(input_title(name), what, 0);
        return STATUS_REFUSED;
    }
    return STATUS_ACCEPTED;
}
