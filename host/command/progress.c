/* How far a file has been read. */
#define _POSIX_C_SOURCE 200112L
#include "command.h"

#include <stdarg.h>
#include <sys/stat.h>
#include <time.h>
#include <unistd.h>

#define BETWEEN 0.25 /* seconds between two lines */
#define LEAST 1e-3   /* seconds, where a rate is asked for at the very beginning */
#define MEGABYTE 1e6

static double seconds(void)
{
    struct timespec now;

    if (clock_gettime(CLOCK_MONOTONIC, &now) != 0)
        return 0;
    return (double)now.tv_sec + (double)now.tv_nsec / 1e9;
}

void progress_start(progress *p, FILE *in, int always)
{
    struct stat file;

    p->terminal = isatty(STDERR_FILENO);
    p->shared = p->terminal && isatty(STDOUT_FILENO);
    p->shown = always || p->terminal;
    p->began = p->last = seconds();
    p->whole = 0;
    if (fstat(fileno(in), &file) == 0 && S_ISREG(file.st_mode))
        p->whole = (unsigned long long)file.st_size;
}

void progress_show(progress *p, unsigned long long bytes, const char *format, ...)
{
    double now = seconds(), rate;
    va_list arguments;

    /* on a terminal that has the lines as well it is shown anew below each of their segments */
    if (!p->shown || (!p->shared && now - p->last < BETWEEN))
        return;
    p->last = now;
    rate = (double)bytes / (now - p->began > LEAST ? now - p->began : LEAST);
    fputs(p->terminal ? "\r" : "", stderr);
    va_start(arguments, format);
    vfprintf(stderr, format, arguments);
    va_end(arguments);
    fprintf(stderr, ", %.1f", (double)bytes / MEGABYTE);
    if (p->whole >= bytes && p->whole > 0)
        fprintf(stderr, " of %.1f MB, %.1f MB/s, %.0f s left", (double)p->whole / MEGABYTE, rate / MEGABYTE, (double)(p->whole - bytes) / rate);
    else
        fprintf(stderr, " MB, %.1f MB/s", rate / MEGABYTE);
    fputs(p->terminal ? "\033[K" : "\n", stderr);
    fflush(stderr);
}

void progress_clear(const progress *p)
{
    if (p->shared)
        fputs("\r\033[K", stderr);
}

void progress_end(const progress *p)
{
    if (p->terminal)
        fputs("\r\033[K", stderr);
}
