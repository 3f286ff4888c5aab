/* Files that are read. */
#include "command.h"

#include <errno.h>
#include <string.h>

const char *input_name(const request *asked)
{
    return asked->name_count == 0 ? "-" : asked->names[0];
}

int input_is_standard(const char *name)
{
    return strcmp(name, "-") == 0;
}

const char *input_title(const char *name)
{
    return input_is_standard(name) ? "standard input" : name;
}

FILE *input_open(const char *name)
{
    FILE *in = input_is_standard(name) ? stdin : fopen(name, "rb");

    if (in == NULL)
        complain(name, "cannot be read", errno);
    errno = 0;
    return in;
}

/* The next payload, into room for the longest; MORE if there was one. */
static ending input_payload(FILE *in, uint8_t *payload, size_t *payload_bytes)
{
    uint8_t head[2];
    size_t got = fread(head, 1, 2, in);

    if (got < 2)
        return got == 0 && !ferror(in) ? AT_END : WITHIN;
    *payload_bytes = 256 * (size_t)head[0] + head[1];
    return fread(payload, 1, *payload_bytes, in) == *payload_bytes ? MORE : WITHIN;
}

ending input_segment(FILE *in, segment *s, size_t most, uint64_t frame)
{
    s->count = s->bytes = 0;
    while (s->count < most && sizeof s->store - s->bytes >= MOST_LENGTH) {
        size_t length;
        ending how = input_payload(in, s->store + s->bytes, &length);

        if (how != MORE)
            return how;
        if (frame + s->count > MOST_FRAME)
            return PAST_FRAMES;
        s->starts[s->count] = s->bytes;
        s->lengths[s->count] = length;
        s->frames[s->count] = (uint32_t)(frame + s->count);
        s->bytes += length;
        s->count++;
    }
    return MORE;
}

int input_broken(const char *name, ending how, unsigned long long payload, const char *therefore)
{
    char where[120];

    snprintf(where, sizeof where, "%s payload %llu%s", how == WITHIN ? "ends within" : "there is no frame number left for", payload, therefore);
    return complain(input_title(name), where, 0);
}

int input_again(FILE *in, const char *name, const fpos_t *begin)
{
    if (fsetpos(in, begin) == 0)
        return 1;
    complain(input_title(name), "cannot be read a second time", errno);
    return 0;
}

/* A temporary file with what is left of another; NULL: complained of. An error of reading is left to the one who closes that one. */
static FILE *copy_of(FILE *in, int always)
{
    static uint8_t bytes[1 << 16];
    FILE *copy = tmpfile();
    unsigned long long copied = 0;
    size_t got;
    progress shown;
    int failed, error;

    if (copy == NULL) {
        complain("a temporary file", "cannot be made", errno);
        return NULL;
    }
    progress_start(&shown, in, always);
    shown.shared = 0; /* nothing is printed before the end */
    while ((got = fread(bytes, 1, sizeof bytes, in)) > 0 && fwrite(bytes, 1, got, copy) == got) {
        copied += got;
        progress_show(&shown, copied, "copied to a temporary file");
    }
    failed = ferror(copy) || fseek(copy, 0, SEEK_SET) != 0;
    error = errno;
    progress_end(&shown);
    if (failed) {
        complain("a temporary file", "cannot be written", error);
        fclose(copy);
        copy = NULL;
    }
    errno = error;
    return copy;
}

FILE *input_open_twice(const request *asked, const char *name, fpos_t *begin)
{
    FILE *in = input_open(name), *copy;

    if (in == NULL || fgetpos(in, begin) == 0)
        return in;
    copy = copy_of(in, asked->progress);
    if (!input_close(in, name) && copy != NULL) {
        fclose(copy);
        return NULL;
    }
    if (copy != NULL && fgetpos(copy, begin) != 0) {
        complain("a temporary file", "cannot be read", errno);
        fclose(copy);
        return NULL;
    }
    return copy;
}

int input_close(FILE *in, const char *name)
{
    int error = ferror(in) ? errno : 0, readable = !ferror(in);

    if (!readable)
        complain(input_title(name), "cannot be read", error);
    if (in != stdin)
        fclose(in);
    return readable;
}

int input_payload_file(const char *name, uint8_t *payload, size_t *payload_bytes)
{
    FILE *in = input_open(name);

    if (in == NULL)
        return 0;
    *payload_bytes = fread(payload, 1, LOOKED_AT, in);
    return input_close(in, name);
}
