/* Standard output in whole lines. */
#define _POSIX_C_SOURCE 200112L
#include "command.h"

#include <errno.h>
#include <stdarg.h>
#include <string.h>
#include <unistd.h>

#define ROOM 1048576 /* the longest text that is printed at once is a name: 128 kB of it at the most, four characters a byte */
#define FULL 65536

static char kept[ROOM];
static size_t kept_bytes;
static int failed;

int print_failed(void)
{
    return failed;
}

static void fail(int error)
{
    failed = 1;
    kept_bytes = 0;
    complain("standard output", "cannot be written", error);
}

static void write_all(const void *bytes, size_t count)
{
    const char *from = bytes;

    while (!failed && count > 0) {
        ssize_t n = write(STDOUT_FILENO, from, count);

        if (n >= 0) {
            from += n;
            count -= (size_t)n;
        } else if (errno != EINTR) {
            fail(errno);
        }
    }
}

void print_now(void)
{
    write_all(kept, kept_bytes);
    kept_bytes = 0;
}

/* Behind a whole line, if much is kept. */
static void print_if_full(void)
{
    if (kept_bytes >= FULL && kept[kept_bytes - 1] == '\n')
        print_now();
}

void print_bytes(const uint8_t *bytes, size_t count)
{
    if (failed)
        return;
    if (count > ROOM - kept_bytes) {
        print_now();
        write_all(bytes, count);
        return;
    }
    memcpy(kept + kept_bytes, bytes, count);
    kept_bytes += count;
    print_if_full();
}

void print(const char *format, ...)
{
    va_list arguments;
    int count;

    if (failed)
        return;
    va_start(arguments, format);
    count = vsnprintf(kept + kept_bytes, ROOM - kept_bytes, format, arguments);
    va_end(arguments);
    if (count < 0 || (size_t)count >= ROOM - kept_bytes) {
        fail(ENOBUFS);
        return;
    }
    kept_bytes += (size_t)count;
    print_if_full();
}

void print_name(const char *key, const char *name)
{
    print("%s=", key);
    for (; *name != '\0'; name++) {
        unsigned char c = (unsigned char)*name;

        if (c < 32 || c == 127 || c == '\\')
            print("\\x%02x", c);
        else
            print("%c", c);
    }
    print("\n");
}

int print_end(void)
{
    print_now();
    if (!failed && close(STDOUT_FILENO) != 0)
        fail(errno);
    return !failed;
}
