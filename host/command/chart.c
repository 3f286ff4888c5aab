/* A summary for people: words, and bars of characters. */
#define _POSIX_C_SOURCE 200112L
#include "command.h"

#include <stdlib.h>
#include <string.h>
#include <sys/ioctl.h>
#include <unistd.h>

#define USUAL_COLUMNS 80
#define MOST_COLUMNS 500
#define LEAST_BAR 10 /* where the columns are too few the lines are longer than they are */
#define LABEL 11     /* columns of the longest zone's name */
#define BAR '#'

/* The columns that COLUMNS or the terminal has. */
static int columns(void)
{
    const char *given = getenv("COLUMNS");
    struct winsize window;
    long number = given == NULL ? 0 : strtol(given, NULL, 10);

    if (number <= 0 && ioctl(STDOUT_FILENO, TIOCGWINSZ, &window) == 0)
        number = window.ws_col;
    if (number <= 0)
        return USUAL_COLUMNS;
    return number < MOST_COLUMNS ? (int)number : MOST_COLUMNS;
}

static double percent(unsigned long long part, unsigned long long whole)
{
    return whole == 0 ? 0 : 100.0 * (double)part / (double)whole;
}

/* A table of bars: as wide as the columns are, the longest for the greatest count. */
typedef struct chart {
    unsigned long long whole, greatest;
    int digits, room; /* columns of the counts, and of the longest bar */
} chart;

static chart chart_of(const unsigned long long *counters, size_t count, unsigned long long whole)
{
    chart c = {whole, 0, 0, 0};
    size_t i;

    for (i = 0; i < count; i++) {
        if (counters[i] > c.greatest)
            c.greatest = counters[i];
    }
    c.digits = snprintf(NULL, 0, "%llu", whole);
    if (c.digits < (int)strlen("records"))
        c.digits = (int)strlen("records");
    c.room = columns() - (LABEL + 1 + c.digits + 1 + (int)strlen("100.0 %") + 1);
    if (c.room < LEAST_BAR)
        c.room = LEAST_BAR;
    return c;
}

/* A line of the table; what occurs at all has a bar. */
static void print_bar(const chart *c, const char *label, unsigned long long count)
{
    char bar[MOST_COLUMNS + 1];
    size_t length = c->greatest == 0 ? 0 : (size_t)((double)count / (double)c->greatest * c->room + 0.5);

    if (length == 0 && count > 0)
        length = 1;
    memset(bar, BAR, length);
    bar[length] = '\0';
    print("%*s %*llu %5.1f %%%s%s\n", LABEL, label, c->digits, count, percent(count, c->whole), length > 0 ? " " : "", bar);
}

/* The steps from `first` to before `end`, by their dB. */
static void print_steps(const chart *c, unsigned first, unsigned end, unsigned long long count)
{
    char label[32];

    if (end - first > 1)
        snprintf(label, sizeof label, "%+d to %+d", (int)first - 50, (int)end - 51);
    else
        snprintf(label, sizeof label, "%+d", (int)first - 50);
    print_bar(c, label, count);
}

/* Minus infinity, and the steps from the lowest that occurs to the highest; steps side by side that do not occur are one line. */
static void print_gains(const holdings *h)
{
    chart c = chart_of(h->gains, SKRIEMELT_GAINS, h->records);
    unsigned first = 1, end = SKRIEMELT_GAINS, next;

    while (first < end && h->gains[first] == 0)
        first++;
    while (end > first && h->gains[end - 1] == 0)
        end--;
    print("\n%*s %*s\n", LABEL, "gain in dB", c.digits, "records");
    print_bar(&c, "-inf", h->gains[0]);
    for (; first < end; first = next) {
        next = first + 1;
        while (h->gains[first] == 0 && h->gains[next] == 0) /* the last step occurs */
            next++;
        print_steps(&c, first, next, h->gains[first]);
    }
}

static void print_zones(const holdings *h)
{
    chart c = chart_of(h->zones, SKRIEMELT_ZONES, h->records);
    unsigned i;

    print("\n%*s %*s\n", LABEL, "zone", c.digits, "records");
    for (i = 0; i < SKRIEMELT_ZONES; i++)
        print_bar(&c, zone_name(i), h->zones[i]);
}

static void print_payloads(const holdings *h)
{
    unsigned i;

    print("payloads: %llu, accepted %llu (%.1f %%), refused %llu\n", h->payloads, h->accepted, percent(h->accepted, h->payloads), h->payloads - h->accepted);
    for (i = SKRIEMELT_ACCEPTED + 1; i < SKRIEMELT_PAYLOAD_ANSWERS; i++) {
        if (h->answers[i] != 0)
            print("  refused (%u): %llu, %s\n", i, h->answers[i], skriemelt_refusal_text(i));
    }
}

/* Some of the records, as a number and a part of them all. */
static void print_part(const holdings *h, const char *what, unsigned long long count)
{
    print("%s %llu (%.1f %%)", what, count, percent(count, h->records));
}

static void print_records(const holdings *h)
{
    print("records: %llu", h->records);
    print_part(h, ", active", h->activity[1]);
    print_part(h, ", inactive", h->activity[0]);
    print_part(h, "\n  bed", h->classes[SKRIEMELT_CLASS_BED]);
    print_part(h, ", ISF", h->classes[SKRIEMELT_CLASS_ISF]);
    print_part(h, ", dynamic", h->classes[SKRIEMELT_CLASS_DYNAMIC]);
    print("\n");
}

void print_chart(const holdings *h, unsigned long rate)
{
    print_payloads(h);
    print_records(h);
    print("late blocks, which start past sample 1,535 of their frame: %llu\n", h->late);
    print("ramps of all blocks together: ");
    print_samples(h->ramps, rate);
    print("\n");
    if (h->records > 0) {
        print_gains(h);
        print_zones(h);
    }
}
