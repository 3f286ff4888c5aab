/* skriemelt: object audio metadata for people. What it does stands on its manual page, skriemelt.1. */
#define _POSIX_C_SOURCE 200112L
#include "command.h"

#include <errno.h>
#include <fcntl.h>
#include <limits.h>
#include <signal.h>
#include <stdlib.h>
#include <string.h>
#include <unistd.h>

#define USUAL_RATE 48000

static const char general_help[] =
    "usage: skriemelt list [--people] [--trim] [--rate HZ] [--first N] [FILE..]\n"
    "       skriemelt shelf [--trim] [--first N] [--progress] [FILE]\n"
    "       skriemelt summary [--people] [--rate HZ] [--progress] [FILE]\n"
    "       skriemelt catalogue [--first N] [--progress] [FILE]\n"
    "       skriemelt records [--progress] [TEXT]\n"
    "       skriemelt why [--people] FILE OBJECT BLOCK BYTE\n"
    "       skriemelt salvage [--people] FILE OUT\n"
    "       skriemelt SUBCOMMAND --help\n"
    "       skriemelt --help | --version\n"
    "\n"
    "Reads object audio metadata (OAMD, ETSI TS 103 420), and salvages damaged payloads.\n"
    "  list       each FILE is one payload: prints its listing\n"
    "  shelf      FILE holds payloads one behind the other: prints a line for each, and counts by refusal\n"
    "  summary    FILE is as for shelf: counts its records by gain, zone, class and activity, late blocks, and payloads by refusal\n"
    "  catalogue  FILE is as for shelf: prints its catalogue, what has changed from update to update\n"
    "  records    TEXT is a catalogue: prints all records again, as listings\n"
    "  why        FILE is one payload: prints where a byte of a record comes from, step by step\n"
    "  salvage    FILE is one payload: writes it to OUT without the elements that are refused, and prints which these are\n"
    "\n"
    "Exit status: 0 all accepted, 1 something was refused, 2 usage, or a file that cannot be read or written.\n";

static const char list_help[] =
    "usage: skriemelt list [--people] [--trim] [--rate HZ] [--first N] [FILE..]\n"
    "\n"
    "Each FILE is one payload (- or none: standard input), of which at most 4,097 bytes are looked at. Prints its listing, lines key=value, of frame 0;\n"
    "with several files a line file=FILE before each.\n"
    "  --people   a table for people: gain in dB, position and size as numbers, times in samples and milliseconds\n"
    "  --trim     the trim table's fields by name, too\n"
    "  --rate HZ  samples in a second, for the milliseconds of --people; 48000 if it is not given, since the payload does not hold it\n"
    "  --first N  with --people, the frame of the first file, for the time of each block; each further file is the next frame; 0 if it is not given\n";

static const char shelf_help[] =
    "usage: skriemelt shelf [--trim] [--first N] [--progress] [FILE]\n"
    "\n"
    "FILE (- or none: standard input) holds payloads one behind the other, each behind its length in 2 bytes, most byte first. Prints a line for each,\n"
    "and at the end how many there were, and how many of each refusal. The file may have any length.\n"
    "  --trim      the trim table's fields of each payload by name, too\n"
    "  --first N   the frame of the first payload; each further payload is the next frame; 0 if it is not given\n"
    "  --progress  progress on standard error, also where that is no terminal\n";

static const char summary_help[] =
    "usage: skriemelt summary [--people] [--rate HZ] [--progress] [FILE]\n"
    "\n"
    "FILE (- or none: standard input) holds payloads one behind the other, each behind its length in 2 bytes, most byte first. Prints what they hold together,\n"
    "lines key=value, always the same ones: payloads by refusal; of the accepted ones the records by activity, class, zone and gain, the blocks that start\n"
    "past sample 1,535, and the sum of all ramps in samples. The file may have any length.\n"
    "  --people    for people: gains in dB and zones by name as bars, with counts and percentages, as wide as the terminal or COLUMNS says\n"
    "  --rate HZ   samples in a second, for the time of the ramps of --people; 48000 if it is not given, since the payload does not hold it\n"
    "  --progress  progress on standard error, also where that is no terminal\n";

static const char catalogue_help[] =
    "usage: skriemelt catalogue [--first N] [--progress] [FILE]\n"
    "\n"
    "FILE (- or none: standard input) holds payloads one behind the other, each behind its length in 2 bytes, most byte first. Prints their catalogue: for each\n"
    "frame a line with its number and its refusal, or its counts of objects and blocks; for each update one with start and ramp, and one for each object that has\n"
    "changed, with the fields that have. Nothing is printed of a file that ends within a payload. The file may have any length.\n"
    "  --first N   the frame of the first payload; each further payload is the next frame; 0 if it is not given\n"
    "  --progress  progress on standard error, also where that is no terminal\n";

static const char records_help[] =
    "usage: skriemelt records [--progress] [TEXT]\n"
    "\n"
    "TEXT (- or none: standard input) is a catalogue, as 'skriemelt catalogue' prints it. Prints for each of its frames a line frame=N, and the lines of the frame's\n"
    "listing that a catalogue holds: refusal, objects, blocks, each block, and each record, with the times of that frame. Nothing is printed of a text that has a line\n"
    "which cannot stand where it stands, or ends too early: exit status 1, and a message with the line's number. The text may have any length.\n"
    "  --progress  progress on standard error, also where that is no terminal\n";

static const char why_help[] =
    "usage: skriemelt why [--people] FILE OBJECT BLOCK BYTE\n"
    "\n"
    "FILE (-: standard input) is one payload, of which at most 4,097 bytes are looked at. Prints why a byte of the record of an object and a block is what it is: where\n"
    "it comes from, and where that comes from, step by step. OBJECT and BLOCK are counted from 0. BYTE is a number from 0 to 23, or one of\n"
    "  active class gain priority x y z distance width depth height zone elevation screen screen_factor screen_depth snap\n"
    "  divergence divergence_mode divergence_value precise precise_x precise_y precise_z\n"
    "Lines key=value: refusal, place, with refusal 2 missing; and for each step step=OBJECT,BLOCK,VALUE with\n"
    "  ,field,NAME,BIT             a field of the payload gives it: its name in the standard, and its first bit\n"
    "  ,programme                  the programme gives it\n"
    "  ,default,28 or ,default,29  it is a default of that table\n"
    "  ,nothing                    nothing is carried for it\n"
    "  ,block                      it is that of the block before: the next step\n"
    "  ,block,NAME,BIT,DIFFERENCE  the same, moved by the difference that this field gives, and held within its range\n"
    "  ,object                     it is that of the object before: the next step\n"
    "  --people   a sentence for each step\n";

static const char salvage_help[] =
    "usage: skriemelt salvage [--people] FILE OUT\n"
    "\n"
    "FILE (-: standard input) is one payload, of which at most 4,097 bytes are looked at. Drops each known element that reading refuses, with 5, 6, 7 or 8, and writes what is\n"
    "left to OUT (-: standard output): a payload that is accepted. The element count is written anew, every other bit stays. An accepted payload is written as it is. OUT may be FILE; it is\n"
    "written whole or not at all, by way of a file OUT.?????? beside it. Prints lines key=value, on standard error if OUT is -: refusal, place, with refusal 2 missing; of an accepted\n"
    "salvage length and drops, and for each element that was dropped place, id and refusal, the place in the payload as it came. A refused salvage writes nothing: exit status 1.\n"
    "  --people   sentences\n";

/* The options that a subcommand may have, a bit each; option_of has their names in this order. */
enum { PEOPLE = 1, TRIM = 2, RATE = 4, FIRST = 8, PROGRESS = 16 };

static const struct subcommand {
    const char *name, *help;
    int (*run)(const request *asked);
    int most_names; /* -1: any number */
    unsigned options;
} subcommands[] = {
    {"list", list_help, run_list, -1, PEOPLE | TRIM | RATE | FIRST},
    {"shelf", shelf_help, run_shelf, 1, TRIM | FIRST | PROGRESS},
    {"summary", summary_help, run_summary, 1, PEOPLE | RATE | PROGRESS},
    {"catalogue", catalogue_help, run_catalogue, 1, FIRST | PROGRESS},
    {"records", records_help, run_records, 1, PROGRESS},
    {"why", why_help, run_why, 4, PEOPLE},
    {"salvage", salvage_help, run_salvage, 2, PEOPLE},
};

int misuse(const char *what, const char *why)
{
    complain(what, why, 0);
    fputs("Try 'skriemelt --help'.\n", stderr);
    return STATUS_FAILED;
}

/* The word behind an option, which is taken too; NULL if there is none. */
static const char *take_value(char ***arguments)
{
    return (*arguments)[1] == NULL ? NULL : *++*arguments;
}

unsigned long long number_of(const char *digits, unsigned long long most, unsigned long long otherwise)
{
    char *end;
    unsigned long long number;

    if (digits == NULL || *digits < '0' || *digits > '9')
        return otherwise;
    errno = 0;
    number = strtoull(digits, &end, 10);
    return *end == '\0' && errno == 0 && number <= most ? number : otherwise;
}

/* The option of this name, if the subcommand has it; else 0. */
static unsigned option_of(const struct subcommand *s, const char *name)
{
    static const char *const names[] = {"--people", "--trim", "--rate", "--first", "--progress"};
    unsigned i;

    for (i = 0; i < sizeof names / sizeof names[0]; i++) {
        if (strcmp(name, names[i]) == 0)
            return s->options & 1U << i;
    }
    return 0;
}

/* Takes one option at *arguments, and its value if it has one; whether it is one of this subcommand. */
static int take_option(const struct subcommand *s, char ***arguments, request *asked)
{
    unsigned option = option_of(s, **arguments);

    if (option == PEOPLE) {
        asked->people = 1;
    } else if (option == TRIM) {
        asked->trim = 1;
    } else if (option == RATE) {
        asked->rate = (unsigned long)number_of(take_value(arguments), ULONG_MAX, 0);
    } else if (option == FIRST) {
        asked->framed = 1;
        asked->first = number_of(take_value(arguments), MOST_FRAME, NO_FRAME);
    } else if (option == PROGRESS) {
        asked->progress = 1;
    }
    return option != 0;
}

/* Runs a subcommand, if what it was asked for goes together. */
static int run_asked(const struct subcommand *s, const request *asked)
{
    if (asked->rate == 0)
        return misuse("--rate", "needs a number above 0");
    if (asked->first == NO_FRAME)
        return misuse("--first", "needs a number from 0 to 4294967295");
    if (asked->framed && s->run == run_list && !asked->people)
        return misuse("--first", "needs --people: the listing is of frame 0");
    if (s->most_names >= 0 && asked->name_count > s->most_names)
        return misuse(asked->names[s->most_names], s->run == run_why ? "one word too many" : "one file too many");
    return s->run(asked);
}

/* Runs a subcommand with the arguments behind its name. The names are gathered at the front of the arguments. */
static int run_subcommand(const struct subcommand *s, char **arguments)
{
    request asked = {0, 0, 0, USUAL_RATE, 0, 0, arguments, 0};
    int options = 1;

    for (; *arguments != NULL; arguments++) {
        if (!options || (*arguments)[0] != '-' || strcmp(*arguments, "-") == 0) {
            asked.names[asked.name_count++] = *arguments;
        } else if (strcmp(*arguments, "--") == 0) {
            options = 0;
        } else if (strcmp(*arguments, "--help") == 0) {
            print("%s", s->help);
            return STATUS_ACCEPTED;
        } else if (!take_option(s, &arguments, &asked)) {
            return misuse(*arguments, "no such option");
        }
    }
    return run_asked(s, &asked);
}

static int run(char **arguments)
{
    size_t i;

    if (arguments[0] == NULL)
        return misuse("no subcommand", "list, shelf, summary, catalogue, records, why or salvage");
    if (strcmp(arguments[0], "--help") == 0) {
        print("%s", general_help);
        return STATUS_ACCEPTED;
    }
    if (strcmp(arguments[0], "--version") == 0) {
        print("skriemelt %s\n", SKRIEMELT_VERSION_STRING);
        return STATUS_ACCEPTED;
    }
    for (i = 0; i < sizeof subcommands / sizeof subcommands[0]; i++) {
        if (strcmp(arguments[0], subcommands[i].name) == 0)
            return run_subcommand(&subcommands[i], arguments + 1);
    }
    return misuse(arguments[0], arguments[0][0] == '-' ? "no such option" : "no such subcommand");
}

/* Gives a standard stream that is closed to a file that cannot be used as that, so that no other file gets its number; using it then is an error, as it was. */
static void occupy_streams(void)
{
    int stream;

    for (stream = STDIN_FILENO; stream <= STDERR_FILENO; stream++) {
        if (fcntl(stream, F_GETFD) == -1)
            open("/dev/null", stream == STDIN_FILENO ? O_WRONLY : O_RDONLY);
    }
}

int main(int argc, char **argv)
{
    int status;

    occupy_streams();
    /* a closed pipe is then an error of a write, which is told */
    signal(SIGPIPE, SIG_IGN);
    if (skriemelt_version() != SKRIEMELT_VERSION)
        return complain("the library", "is of another version than the command", 0);
    status = argc > 0 ? run(argv + 1) : STATUS_FAILED;
    return print_end() ? status : STATUS_FAILED;
}
