/* The parts of the command skriemelt. */
#ifndef COMMAND_H
#define COMMAND_H

#include "skriemelt.h"

#include <stdio.h>

/* Exit statuses. */
#define STATUS_ACCEPTED 0
#define STATUS_REFUSED 1
#define STATUS_FAILED 2

/* What a subcommand was asked for. */
typedef struct request {
    int people;         /* list: a table for people, not the listing; summary: bars, not lines key=value; why and salvage: sentences, not lines */
    int trim;           /* the trim table's fields too */
    int progress;       /* all but list, why and salvage: progress on standard error, terminal or not */
    unsigned long rate; /* samples in a second, for milliseconds */
    int framed;         /* the first frame was given */
    uint64_t first;     /* the frame of the first payload; those behind it count on */
    char **names;       /* the files, none for standard input; why: one, and behind it object, block and byte; salvage: one to read, one to write */
    int name_count;
} request;

/* What a frame number may be; the first number that is none. */
#define MOST_FRAME UINT32_MAX
#define NO_FRAME ((uint64_t)MOST_FRAME + 1)

/* A payload that was read. */
typedef struct reading {
    skriemelt_read_answer answer;
    uint32_t frame;
    const uint8_t *records, *trim;
} reading;

/* skriemelt.c: what was asked for. */
int misuse(const char *what, const char *why); /* complained of, with a word on help; STATUS_FAILED */
unsigned long long number_of(const char *digits, unsigned long long most, unsigned long long otherwise); /* if they are one and not above the most; else another one */

/* complain.c: a message on standard error, "skriemelt: WHAT: WHY", with the error's text behind it if there is one (0: none). STATUS_FAILED. */
int complain(const char *what, const char *why, int error);

/*
 * print.c: standard output. What is printed is kept, and written in whole lines only. A write that fails is complained of once; from then on nothing is
 * written, and print_failed is 1.
 */
#if defined(__GNUC__)
__attribute__((format(printf, 1, 2)))
#endif
void print(const char *format, ...);
void print_bytes(const uint8_t *bytes, size_t count); /* whole lines, of any length together */
void print_name(const char *key, const char *name);   /* a line key=name; what would break the line is written \xHH */
void print_now(void);                                 /* writes what is kept */
int print_failed(void);
int print_end(void); /* writes what is kept and closes; whether all was written */

/* input.c: files, "-" and standard input. */
const char *input_name(const request *asked); /* the one file that was asked for */
const char *input_title(const char *name);    /* the name for messages */
FILE *input_open(const char *name);           /* NULL: complained of */
int input_close(FILE *in, const char *name);  /* whether all that was asked for could be read; else complained of */
int input_is_standard(const char *name);

/* One byte more than a payload may have, so that a longer one is told. */
#define LOOKED_AT (SKRIEMELT_MOST_PAYLOAD_BYTES + 1)

/* A file that is one payload, of which LOOKED_AT bytes are read; whether it could be read, else complained of. */
int input_payload_file(const char *name, uint8_t *payload, size_t *payload_bytes);

/* A file that is gone through twice. Of one that cannot be, a pipe, a copy is made first, in a temporary file, with progress. */
FILE *input_open_twice(const request *asked, const char *name, fpos_t *begin); /* NULL: complained of */
int input_again(FILE *in, const char *name, const fpos_t *begin);              /* back to where it began; whether it is there, else complained of */

/* Files of payloads one behind the other, each behind its length in two bytes, most byte first. */
#define MOST_LENGTH 65535 /* of two bytes */

/* How the reading of some of them ended; past the frames: with a payload that no frame number is left for. */
typedef enum ending { MORE, AT_END, WITHIN, PAST_FRAMES } ending;

/* A part of such a file, which is given to one call; there is room for 64 payloads, however long they are. */
typedef struct segment {
    uint8_t store[64 * MOST_LENGTH];
    uint64_t starts[SKRIEMELT_MOST_ENTRIES], lengths[SKRIEMELT_MOST_ENTRIES];
    uint32_t frames[SKRIEMELT_MOST_ENTRIES];
    size_t count, bytes;
} segment;

/* The next payloads, `most` of them if there is room, the first of them of this frame; MORE if no end was met. */
ending input_segment(FILE *in, segment *s, size_t most, uint64_t frame);

/* Complains of a file that ended otherwise than behind a payload, with that payload's number and what is therefore not done ("": all was done). STATUS_FAILED. */
int input_broken(const char *name, ending how, unsigned long long payload, const char *therefore);

/*
 * output.c: writes a file whole or not at all, by way of a temporary file beside it; a device or pipe as it is. Whether it was written, else complained of, and the file is as it was.
 */
int output_file(const char *name, const uint8_t *bytes, size_t count);

/* list.c, shelf.c, summary.c, catalogue.c, records.c, why.c, salvage.c: the status. */
int run_list(const request *asked);
int run_shelf(const request *asked);
int run_summary(const request *asked);
int run_catalogue(const request *asked);
int run_records(const request *asked);
int run_why(const request *asked);
int run_salvage(const request *asked);

/* people.c, trim.c: what was read. */
const char *class_name(unsigned class_number);
const char *zone_name(unsigned zone);
void distance_cell(unsigned distance, char *cell, size_t room);
void print_reason(const skriemelt_read_answer *a); /* why a read was refused, and where: the rest of a line */
void print_samples(uint64_t samples, unsigned long rate); /* a number of samples, and as hours, minutes and seconds */
void print_people(const reading *r, unsigned long rate);
void print_trim(const reading *r);        /* lines trim.FIELD=VALUE of what is carried */
void print_trim_people(const reading *r); /* the same in words and dB */

/* What a whole file of payloads holds: the counters of skriemelt_summary, added up over its segments. */
typedef struct holdings {
    unsigned long long payloads, accepted, bytes;
    unsigned long long records, gains[SKRIEMELT_GAINS], zones[SKRIEMELT_ZONES], classes[SKRIEMELT_CLASSES], activity[SKRIEMELT_ACTIVITIES], late, ramps;
    unsigned long long answers[SKRIEMELT_PAYLOAD_ANSWERS]; /* payloads by refusal */
} holdings;

/* chart.c: these in words and bars. */
void print_chart(const holdings *h, unsigned long rate);

/* progress.c: how far a file has been read, on standard error. */
typedef struct progress {
    int shown, terminal;      /* terminal: standard error is one */
    int shared;               /* standard output is a terminal too: the lines go there */
    double began, last;       /* seconds */
    unsigned long long whole; /* bytes of the file, 0 where it is not known */
} progress;

void progress_start(progress *p, FILE *in, int always);
#if defined(__GNUC__)
__attribute__((format(printf, 3, 4)))
#endif
void progress_show(progress *p, unsigned long long bytes, const char *format, ...); /* what was done so far, and with how many bytes of the file */
void progress_clear(const progress *p); /* before lines are written to the same terminal */
void progress_end(const progress *p);

#endif
